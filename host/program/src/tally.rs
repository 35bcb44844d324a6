//! What stands in a dump: its records by kind, and whose they are.

use dagsumilat::{records, Fields, Kind, Record, Refusal};
use std::collections::{BTreeMap, BTreeSet, HashMap};
use std::net::{IpAddr, Ipv4Addr};

/// The kinds as they are counted and shown.
pub const KINDS: [(Kind, &str); 6] = [
    (Kind::PeerTable, "peer tables"),
    (Kind::Rib, "RIB records"),
    (Kind::TableDump, "type 12"),
    (Kind::StateChange, "state changes"),
    (Kind::Message, "BGP messages"),
    (Kind::Unread, "other (unread)"),
];

/// The earliest and the latest of some times.
#[derive(Clone, Copy, Debug, PartialEq, Eq)]
pub struct Span {
    pub first: u64,
    pub last: u64,
}

impl Span {
    fn of(time: u64) -> Span {
        Span { first: time, last: time }
    }

    fn join(self, other: Span) -> Span {
        Span { first: self.first.min(other.first), last: self.last.max(other.last) }
    }
}

/// Of both, where there are any.
fn joined(one: Option<Span>, other: Option<Span>) -> Option<Span> {
    match (one, other) {
        (Some(one), Some(other)) => Some(one.join(other)),
        (one, other) => one.or(other),
    }
}

/// How often somebody is named: as a peer in tables, by RIB entries, and as a record's peer.
#[derive(Clone, Copy, Debug, Default, PartialEq, Eq)]
pub struct Count {
    pub peers: u64,
    pub entries: u64,
    pub records: u64,
    /// The times of those records, and of the RIB records with those entries.
    pub span: Option<Span>,
}

impl Count {
    pub fn add(&mut self, other: &Count) {
        self.peers += other.peers;
        self.entries += other.entries;
        self.records += other.records;
        self.span = joined(self.span, other.span);
    }
}

/// A peer as a table, a session or a route gives it.
#[derive(Clone, Copy, Debug, PartialEq, Eq, PartialOrd, Ord, Hash)]
pub struct Peer {
    pub as_number: u32,
    pub address: IpAddr,
}

/// All that an AS has.
#[derive(Clone, Debug, Default, PartialEq, Eq)]
pub struct Of {
    pub count: Count,
    pub addresses: BTreeSet<IpAddr>,
}

#[derive(Debug, Default)]
pub struct Tally {
    /// In the order of [`KINDS`].
    pub kinds: [u64; KINDS.len()],
    pub peers: u64,
    pub entries: u64,
    /// RIB records without an entry.
    pub empty_ribs: u64,
    pub by_peer: HashMap<Peer, Count>,
    /// How many records of types 16 and 17 have this local AS.
    pub local: HashMap<u32, u64>,
    /// Of the records that are no peer tables.
    pub span: Option<Span>,
    /// What ended the count, if the dump is not good.
    pub refusal: Option<Refusal>,
}

impl Tally {
    /// Counts what stands in a dump, or before its fault.
    pub fn of(dump: &[u8]) -> Tally {
        let mut counting = Counting::new();
        for found in records(dump) {
            match found {
                Ok(record) => counting.add(&record),
                Err(refusal) => counting.tally.refusal = Some(refusal),
            }
        }
        counting.finish()
    }

    pub fn records(&self) -> u64 {
        self.kinds.iter().sum()
    }

    /// By rising AS number.
    pub fn by_as(&self) -> BTreeMap<u32, Of> {
        let mut by_as: BTreeMap<u32, Of> = BTreeMap::new();
        for (peer, count) in &self.by_peer {
            let of = by_as.entry(peer.as_number).or_default();
            of.count.add(count);
            of.addresses.insert(peer.address);
        }
        by_as
    }
}

/// A session as a record has it, and how often it was seen. No route of type 12 has a local AS.
#[derive(Clone, Copy, Debug)]
struct Seen {
    peer: Peer,
    local: Option<u32>,
    records: u64,
    span: Span,
}

/// Spares most records the maps.
const LATELY: usize = 256;

struct Counting {
    tally: Tally,
    /// The peers of the table in force, and what named them since: the map is asked once a table,
    /// not once an entry.
    table: Vec<(Peer, Count)>,
    lately: [Option<Seen>; LATELY],
}

impl Counting {
    fn new() -> Counting {
        Counting { tally: Tally::default(), table: Vec::new(), lately: [None; LATELY] }
    }

    fn add(&mut self, record: &Record) {
        let kind = record.kind();
        self.tally.kinds[kind as usize] += 1;
        match kind {
            Kind::PeerTable => return self.put_in_force(record),
            Kind::Rib => self.add_entries(record),
            Kind::Unread => {}
            _ => seen(record).into_iter().for_each(|seen| self.add_seen(seen)),
        }
        self.tally.span = joined(self.tally.span, Some(Span::of(record.time)));
    }

    fn put_in_force(&mut self, record: &Record) {
        self.fold_table();
        let once = Count { peers: 1, ..Count::default() };
        let peers = record.peers();
        self.table
            .extend(peers.map(|it| (Peer { as_number: it.as_number, address: it.address }, once)));
        self.tally.peers += self.table.len() as u64;
    }

    fn add_entries(&mut self, record: &Record) {
        let before = self.tally.entries;
        for entry in record.entries() {
            let count = &mut self.table[usize::from(entry.peer_index)].1;
            count.entries += 1;
            count.span = joined(count.span, Some(Span::of(record.time)));
            self.tally.entries += 1;
        }
        self.tally.empty_ribs += u64::from(self.tally.entries == before);
    }

    fn add_seen(&mut self, seen: Seen) {
        let place = &mut self.lately[place(&seen)];
        match place {
            Some(it) if (it.peer, it.local) == (seen.peer, seen.local) => {
                it.records += 1;
                it.span = it.span.join(seen.span);
            }
            _ => {
                let before = place.replace(seen);
                fold(&mut self.tally, before);
            }
        }
    }

    fn fold_table(&mut self) {
        for (peer, count) in self.table.drain(..) {
            self.tally.by_peer.entry(peer).or_default().add(&count);
        }
    }

    fn finish(mut self) -> Tally {
        self.fold_table();
        for seen in self.lately {
            fold(&mut self.tally, seen);
        }
        self.tally
    }
}

/// The session of a record of type 12, 16 or 17.
fn seen(record: &Record) -> Option<Seen> {
    let (as_number, address, local) = match record.fields() {
        Fields::TableDump(route) => (u32::from(route.peer_as), route.peer(), None),
        Fields::StateChange(change) => of_session(&change.session),
        Fields::Message(message) => of_session(&message.session),
        _ => return None,
    };
    // Every record that was read has an address; nobody is to be missed for want of one.
    let address = address.unwrap_or(IpAddr::V4(Ipv4Addr::UNSPECIFIED));
    let peer = Peer { as_number, address };
    Some(Seen { peer, local, records: 1, span: Span::of(record.time) })
}

fn of_session(session: &dagsumilat::Session) -> (u32, Option<IpAddr>, Option<u32>) {
    (session.peer_as, session.peer(), Some(session.local_as))
}

/// Where a session is kept for a while.
fn place(seen: &Seen) -> usize {
    let last = match seen.peer.address {
        IpAddr::V4(address) => address.octets()[3],
        IpAddr::V6(address) => address.octets()[15],
    };
    (seen.peer.as_number as usize ^ usize::from(last)) % LATELY
}

fn fold(tally: &mut Tally, seen: Option<Seen>) {
    let Some(Seen { peer, local, records, span }) = seen else {
        return;
    };
    let count = Count { records, span: Some(span), ..Count::default() };
    tally.by_peer.entry(peer).or_default().add(&count);
    if let Some(local) = local {
        *tally.local.entry(local).or_default() += records;
    }
}

#[cfg(test)]
mod tests {
    use super::*;

    #[test]
    fn kinds_stand_where_they_are_counted() {
        for (index, (kind, _)) in KINDS.iter().enumerate() {
            assert_eq!(*kind as usize, index);
        }
    }
}

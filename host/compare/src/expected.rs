//! The second program's answers in the words of include/dagsumilat.h.

use dagsumilat::calls::NONE;
use second::dump::Dump;
use second::fault::Flaw;
use second::peer_table::{Peer, PeerTable, TableInForce};
use second::reader::Reader;
use second::record::{Body, Record};
use second::rib::{Entry, Rib};

pub fn check(dump: &Dump) -> [u64; 3] {
    let [fault, place, records, _] = first_fault(dump);
    [fault, place, records]
}

pub fn first_fault(dump: &Dump) -> [u64; 4] {
    let end = &dump.end;
    [end.number().into(), end.place as u64, dump.records.len() as u64, end.record as u64]
}

/// Where there is no good record.
pub fn no_record(fault: u8, place: usize, table: u64) -> [u64; 10] {
    [fault.into(), place as u64, table, 0, 0, 0, 0, NONE, 0, 0]
}

/// A record that starts at `at`, where `table` is in force before it.
pub fn record(record: &Record, at: usize, table: u64) -> [u64; 10] {
    let length = record.length() as u64;
    let items = Items::of(&record.body);
    [
        0,
        at as u64 + 12 + length,
        record.as_table().map_or(table, |_| items.count),
        record.time(),
        record.kind.code.into(),
        record.kind.subtype.into(),
        length,
        peer_as(&record.body).map_or(NONE, u64::from),
        items.from as u64,
        items.count,
    ]
}

/// The peer AS of types 12, 16 and 17.
pub fn peer_as(body: &Body) -> Option<u32> {
    match body {
        Body::TableDump(route) => Some(route.peer_as.number()),
        Body::Bgp4mp(event) => Some(event.session.peer_as.number()),
        Body::Unread(_) | Body::PeerTable(_) | Body::Rib(_) => None,
    }
}

/// Where the peers or entries of a record start, counted from its header, and how many they are.
struct Items {
    from: usize,
    count: u64,
}

impl Items {
    fn of(body: &Body) -> Items {
        match body {
            Body::PeerTable(table) => {
                let from = 12 + 4 + 2 + table.view_name.len() + 2;
                Items { from, count: table.peers.len() as u64 }
            }
            Body::Rib(rib) => Items { from: entries_from(rib), count: rib.entries.len() as u64 },
            _ => Items { from: 0, count: 0 },
        }
    }
}

fn entries_from(rib: &Rib) -> usize {
    let family = if rib.stated.is_some() { 3 } else { 0 };
    12 + 4 + family + 1 + rib.prefix.octets.len() + 2
}

/// The peers of a table that stand from `at` on.
pub fn peers(table: &PeerTable, mut at: usize) -> Vec<[u64; 7]> {
    let mut next = |peer| {
        let words = peer_words(peer, at);
        at = words[1] as usize;
        words
    };
    table.peers.iter().map(&mut next).collect()
}

fn peer_words(peer: &Peer, at: usize) -> [u64; 7] {
    let octet = peer.type_octet();
    let address = peer.address.octets().len();
    let number_size = if octet & 2 != 0 { 4 } else { 2 };
    [
        0,
        (at + 5 + address + number_size) as u64,
        peer.asn.number().into(),
        octet.into(),
        peer.bgp_id.into(),
        (at + 5) as u64,
        address as u64,
    ]
}

/// The entries of a RIB record that stand from `at` on.
pub fn entries(rib: &Rib, mut at: usize) -> Vec<[u64; 6]> {
    let mut next = |entry| {
        let words = entry_words(entry, at);
        at = words[1] as usize;
        words
    };
    rib.entries.iter().map(&mut next).collect()
}

fn entry_words(entry: &Entry, at: usize) -> [u64; 6] {
    let size = entry.attributes.to_octets().len();
    [
        0,
        (at + 8 + size) as u64,
        entry.peer_index.into(),
        entry.originated.into(),
        (at + 8) as u64,
        size as u64,
    ]
}

/// The table that a call is told.
pub fn in_force(table: u64) -> Option<TableInForce> {
    (table != NONE).then_some(TableInForce { peers: table as usize })
}

/// Any place of any dump, and any table.
pub fn record_at(dump: &[u8], at: usize, table: u64) -> [u64; 10] {
    let octets = rest(dump, at);
    if octets.is_empty() {
        return no_record(0, at, table);
    }
    match Record::read(&mut Reader::over(octets), in_force(table)) {
        Ok(good) => record(&good, at, table),
        Err(flaw) => no_record(flaw.number(), at + flaw.spot.place, table),
    }
}

pub fn peer_at(dump: &[u8], at: usize) -> [u64; 7] {
    let mut reader = Reader::over(rest(dump, at));
    match Peer::read(&mut reader) {
        Ok(peer) => peer_words(&peer, at),
        Err(flaw) => [flaw.number().into(), (at + reader.come()) as u64, 0, 0, 0, 0, 0],
    }
}

/// The second program judges index and attributes where it reads an entry, and the call does not:
/// so the fields are taken here one by one.
pub fn entry_at(dump: &[u8], at: usize) -> [u64; 6] {
    let mut reader = Reader::over(rest(dump, at));
    match entry_fields(&mut reader) {
        Ok([index, originated, size]) => {
            let attributes = at as u64 + 8;
            [0, attributes + size, index, originated, attributes, size]
        }
        Err(flaw) => [flaw.number().into(), (at + reader.come()) as u64, 0, 0, 0, 0],
    }
}

/// Peer index, originated time and the size of the attributes.
fn entry_fields(reader: &mut Reader) -> Result<[u64; 3], Flaw> {
    let (index, originated, size) = (reader.u16()?, reader.u32()?, reader.u16()?);
    reader.take(size.into())?;
    Ok([index.into(), originated.into(), size.into()])
}

fn rest(dump: &[u8], at: usize) -> &[u8] {
    dump.get(at..).unwrap_or_default()
}

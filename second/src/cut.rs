//! Cutting a dump: to a window of time, and without the peers to be muted.

use crate::dump::{write_all, Dump};
use crate::fault::Fault;
use crate::net::AsNumber;
use crate::peer_table::PeerTable;
use crate::record::{Body, Record};
use crate::rib::{Entry, Rib};
use std::collections::BTreeSet;

/// Microseconds from `start` up to but not including `end`.
#[derive(Clone, Copy, Debug, PartialEq, Eq)]
pub struct Window {
    pub start: u64,
    pub end: u64,
}

impl Window {
    fn is_backward(self) -> bool {
        self.start > self.end
    }

    fn holds(self, time: u64) -> bool {
        self.start <= time && time < self.end
    }
}

/// Why nothing was cut, in the order in which it is asked.
#[derive(Clone, Copy, Debug, PartialEq, Eq)]
enum Refusal {
    BackwardWindow,
    Dump { fault: Fault, place: usize },
    NoRoom,
}

impl Refusal {
    fn number(self) -> u8 {
        match self {
            Refusal::BackwardWindow => 14,
            Refusal::Dump { fault, .. } => fault.number(),
            Refusal::NoRoom => 15,
        }
    }

    fn place(self) -> usize {
        match self {
            Refusal::Dump { place, .. } => place,
            Refusal::BackwardWindow | Refusal::NoRoom => 0,
        }
    }
}

/// What a cut answers; `octets` are those written, none on a refusal.
#[derive(Clone, Debug, PartialEq, Eq)]
pub struct Answer {
    pub fault: u8,
    pub place: usize,
    pub octets: Vec<u8>,
}

/// Cuts a dump for an output of at most `room` octets.
pub fn cut(dump: &[u8], start: u64, end: u64, list: &[u32], room: usize) -> Answer {
    match left_over(dump, Window { start, end }, list, room) {
        Ok(octets) => Answer { fault: 0, place: 0, octets },
        Err(refusal) => {
            Answer { fault: refusal.number(), place: refusal.place(), octets: Vec::new() }
        }
    }
}

fn left_over(octets: &[u8], window: Window, list: &[u32], room: usize) -> Result<Vec<u8>, Refusal> {
    if window.is_backward() {
        return Err(Refusal::BackwardWindow);
    }
    let dump = Dump::read(octets);
    if let Some(fault) = dump.end.fault {
        return Err(Refusal::Dump { fault, place: dump.end.place });
    }
    let records = dump.records.into_iter().map(|located| located.record);
    let left = write_all(&records_left(records, window, list));
    if left.len() > room {
        return Err(Refusal::NoRoom);
    }
    Ok(left)
}

/// The records that stay, as they look afterwards.
pub fn records_left(
    records: impl IntoIterator<Item = Record>,
    window: Window,
    list: &[u32],
) -> Vec<Record> {
    let mut cutter = Cutter { window, muted: Muted::new(list), places: Vec::new() };
    records.into_iter().filter_map(|record| cutter.pass(record)).collect()
}

/// The AS numbers that shall not be seen as peers.
struct Muted(BTreeSet<u32>);

impl Muted {
    fn new(list: &[u32]) -> Muted {
        Muted(list.iter().copied().collect())
    }

    fn has(&self, asn: AsNumber) -> bool {
        self.0.contains(&asn.number())
    }

    /// For each peer its index after the cut, if it stays.
    fn places(&self, table: &PeerTable) -> Vec<Option<u16>> {
        let mut free = 0..=u16::MAX;
        let place = |asn| if self.has(asn) { None } else { free.next() };
        table.peers.iter().map(|peer| peer.asn).map(place).collect()
    }

    fn table_left(&self, mut table: PeerTable) -> PeerTable {
        table.peers.retain(|peer| !self.has(peer.asn));
        table
    }
}

/// Goes through the records once, from the first to the last.
struct Cutter {
    window: Window,
    muted: Muted,
    /// Where the peers of the table in force went.
    places: Vec<Option<u16>>,
}

impl Cutter {
    fn pass(&mut self, record: Record) -> Option<Record> {
        let inside = self.window.holds(record.time());
        let body = match record.body {
            Body::PeerTable(table) => Some(Body::PeerTable(self.pass_table(table))),
            other if inside => self.pass_other(other),
            _ => None,
        }?;
        Some(Record { body, ..record })
    }

    /// A table stays at any time, and it is in force from here on.
    fn pass_table(&mut self, table: PeerTable) -> PeerTable {
        self.places = self.muted.places(&table);
        self.muted.table_left(table)
    }

    /// A body other than a table's, of a record inside the window.
    fn pass_other(&self, body: Body) -> Option<Body> {
        match body {
            Body::Rib(rib) => self.pass_rib(rib).map(Body::Rib),
            Body::TableDump(ref route) if self.muted.has(route.peer_as) => None,
            Body::Bgp4mp(ref event) if self.muted.has(event.session.peer_as) => None,
            other => Some(other),
        }
    }

    /// Only a record that loses its last entry here goes.
    fn pass_rib(&self, mut rib: Rib) -> Option<Rib> {
        let came_empty = rib.entries.is_empty();
        rib.entries = rib.entries.into_iter().filter_map(|entry| self.pass_entry(entry)).collect();
        (came_empty || !rib.entries.is_empty()).then_some(rib)
    }

    fn pass_entry(&self, entry: Entry) -> Option<Entry> {
        let peer_index = self.places[usize::from(entry.peer_index)]?;
        Some(Entry { peer_index, ..entry })
    }
}

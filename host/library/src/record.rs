//! One record of a dump, as the calls show it.

use crate::calls;
use crate::fields::Fields;
use crate::items::{Entries, Peers};
use crate::reading::read;

/// What a record is, by its Type and Subtype.
#[derive(Clone, Copy, Debug, PartialEq, Eq, PartialOrd, Ord, Hash)]
pub enum Kind {
    /// Type 13, Subtype 1.
    PeerTable,
    /// Type 13, Subtypes 2 to 6.
    Rib,
    /// Type 12.
    TableDump,
    /// Types 16 and 17, Subtypes 0 and 5.
    StateChange,
    /// Types 16 and 17, the other Subtypes: a BGP message.
    Message,
    /// OSPF and IS-IS: carried, not read.
    Unread,
}

/// A good record.
#[derive(Clone, Copy, Debug)]
pub struct Record<'a> {
    pub(crate) dump: &'a [u8],
    /// Where its header starts.
    pub at: usize,
    /// Where the next record starts.
    pub next: usize,
    /// In microseconds since 1970.
    pub time: u64,
    pub type_code: u16,
    pub subtype: u16,
    /// What Length says: the octets behind the header.
    pub length: u32,
    table: u64,
    peer_as: u64,
    items: usize,
    count: usize,
}

impl<'a> Record<'a> {
    /// `answer` is that of the record call for `at`, without a fault.
    pub(crate) fn of_answer(dump: &'a [u8], at: usize, answer: &[u64; 10]) -> Record<'a> {
        let [_, next, table, time, type_code, subtype, length, peer_as, items, count] = *answer;
        Record {
            dump,
            at,
            next: next as usize,
            time,
            type_code: type_code as u16,
            subtype: subtype as u16,
            length: length as u32,
            table,
            peer_as,
            items: items as usize,
            count: count as usize,
        }
    }

    pub fn kind(&self) -> Kind {
        match (self.type_code, self.subtype) {
            (13, 1) => Kind::PeerTable,
            (13, _) => Kind::Rib,
            (12, _) => Kind::TableDump,
            (16 | 17, 0 | 5) => Kind::StateChange,
            (16 | 17, _) => Kind::Message,
            _ => Kind::Unread,
        }
    }

    /// Header and message.
    pub fn octets(&self) -> &'a [u8] {
        &self.dump[self.at..self.next]
    }

    /// All its fields.
    pub fn fields(&self) -> Fields<'a> {
        // Only a peer table changes the table in force, and to read one needs none.
        let found = read(self.octets(), self.table());
        found.ok().flatten().expect("a good record is read").fields
    }

    /// How many peers the table in force behind this record has; none if there is no table yet.
    pub fn table(&self) -> Option<u64> {
        (self.table != calls::NONE).then_some(self.table)
    }

    /// The peer AS of a record of Type 12, 16 or 17.
    pub fn peer_as(&self) -> Option<u32> {
        u32::try_from(self.peer_as).ok()
    }

    /// The peers of a peer table; of any other record none.
    pub fn peers(&self) -> Peers<'a> {
        let count = if self.kind() == Kind::PeerTable { self.count } else { 0 };
        Peers::new(self.dump, self.at + self.items, count)
    }

    /// The entries of a RIB record; of any other record none.
    pub fn entries(&self) -> Entries<'a> {
        let count = if self.kind() == Kind::Rib { self.count } else { 0 };
        Entries::new(self.dump, self.at + self.items, count)
    }
}

//! Writing one record from fields that may be anything. In its turn each field
//! is held against its size and then against the reader's own check.

mod bgp4mp;
mod draft;
mod peer_table;
mod rib;
mod table_dump;
mod unread;

pub use bgp4mp::{Change, Message, Session};
pub use peer_table::PeerTable;
pub use rib::{Rib, RibGeneric, Routes};
pub use table_dump::TableDump;
pub use unread::Unread;

use crate::cut::Answer;
use crate::fault::Fault;
use draft::Draft;

/// The number of a refusal for want of room.
const NO_ROOM: u8 = 15;

/// When something happened. Microseconds ask for a type with extended time.
#[derive(Clone, Copy, Debug, PartialEq, Eq)]
pub enum Time {
    Seconds(u64),
    Micro { seconds: u64, micro: u64 },
}

impl Time {
    fn seconds(self) -> u64 {
        match self {
            Time::Seconds(seconds) | Time::Micro { seconds, .. } => seconds,
        }
    }

    fn micro(self) -> Option<u64> {
        match self {
            Time::Seconds(_) => None,
            Time::Micro { micro, .. } => Some(micro),
        }
    }
}

/// What one of the seven writers is given.
#[derive(Clone, Debug, PartialEq, Eq)]
pub enum Given {
    Unread(Unread),
    TableDump(TableDump),
    PeerTable(PeerTable),
    Rib(Rib),
    RibGeneric(RibGeneric),
    Change(Change),
    Message(Message),
}

impl Given {
    fn draft(&self) -> Result<Draft, Fault> {
        match self {
            Given::Unread(fields) => fields.draft(),
            Given::TableDump(fields) => fields.draft(),
            Given::PeerTable(fields) => fields.draft(),
            Given::Rib(fields) => fields.draft(),
            Given::RibGeneric(fields) => fields.draft(),
            Given::Change(fields) => fields.draft(),
            Given::Message(fields) => fields.draft(),
        }
    }

    /// The record, or why there is none, however much room there is.
    pub fn record(&self) -> Result<Vec<u8>, Fault> {
        self.draft()?.record()
    }

    /// What a writer answers that has `room` octets to write to.
    pub fn write(&self, room: usize) -> Answer {
        match self.record() {
            Err(fault) => refusal(fault.number()),
            Ok(octets) if octets.len() > room => refusal(NO_ROOM),
            Ok(octets) => Answer { fault: 0, place: 0, octets },
        }
    }
}

fn refusal(fault: u8) -> Answer {
    Answer { fault, place: 0, octets: Vec::new() }
}

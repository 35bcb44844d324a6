//! Type 13, subtypes 2 to 6.

use super::draft::Draft;
use crate::fault::Fault;
use crate::layout::{Layout, RibForm};
use crate::net::{Family, Prefix, Safi};
use crate::peer_table::TableInForce;
use crate::reader::Reader;
use crate::rib::Entry;

/// What all RIB records end with: a prefix and the routes to it.
#[derive(Clone, Debug, PartialEq, Eq)]
pub struct Routes {
    pub bits: u64,
    pub prefix: Vec<u8>,
    pub count: u64,
    /// The entries, laid out one after the other.
    pub entries: Vec<u8>,
}

impl Routes {
    fn lay(&self, draft: &mut Draft, family: Family, table: TableInForce) -> Result<(), Fault> {
        let bits = draft.u8(self.bits)?;
        family.prefix_length(bits)?;
        draft.part(&self.prefix, Prefix::size(bits))?;
        let count = draft.u16(self.count)?;
        self.judge_entries(count, table)?;
        draft.octets(&self.entries);
        Ok(())
    }

    /// As the reader, at the end of a message.
    fn judge_entries(&self, count: u16, table: TableInForce) -> Result<(), Fault> {
        let mut reader = Reader::over(&self.entries);
        for _ in 0..count {
            Entry::read(&mut reader, table)?;
        }
        Ok(reader.finish()?)
    }
}

/// The table in force has to be there before any field has its turn.
fn in_force(peers: Option<u64>) -> Result<TableInForce, Fault> {
    let peers = peers.ok_or(Fault::NoTable)?;
    // More than a machine can count are more than an index can name.
    Ok(TableInForce { peers: usize::try_from(peers).unwrap_or(usize::MAX) })
}

/// Subtypes 2 to 5.
#[derive(Clone, Debug, PartialEq, Eq)]
pub struct Rib {
    pub timestamp: u64,
    pub subtype: u64,
    /// The number of peers in the table in force, if there is one.
    pub table: Option<u64>,
    pub sequence: u64,
    pub routes: Routes,
}

impl Rib {
    pub(super) fn draft(&self) -> Result<Draft, Fault> {
        let (mut draft, layout) = Draft::start(self.timestamp, 13, self.subtype)?;
        let Layout::Rib(RibForm::Fixed(family)) = layout else {
            return Err(Fault::UnknownSubtype);
        };
        let table = in_force(self.table)?;
        draft.u32(self.sequence)?;
        self.routes.lay(&mut draft, family, table)?;
        Ok(draft)
    }
}

/// Subtype 6.
#[derive(Clone, Debug, PartialEq, Eq)]
pub struct RibGeneric {
    pub timestamp: u64,
    /// The number of peers in the table in force, if there is one.
    pub table: Option<u64>,
    pub sequence: u64,
    pub family: u64,
    pub safi: u64,
    pub routes: Routes,
}

impl RibGeneric {
    pub(super) fn draft(&self) -> Result<Draft, Fault> {
        let (mut draft, _) = Draft::start(self.timestamp, 13, 6)?;
        let table = in_force(self.table)?;
        draft.u32(self.sequence)?;
        let family = draft.u16(self.family).and_then(Family::of)?;
        draft.u8(self.safi).and_then(Safi::of)?;
        self.routes.lay(&mut draft, family, table)?;
        Ok(draft)
    }
}

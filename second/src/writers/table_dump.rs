//! Type 12.

use super::draft::Draft;
use crate::attributes::Attributes;
use crate::fault::Fault;
use crate::layout::Layout;

#[derive(Clone, Debug, PartialEq, Eq)]
pub struct TableDump {
    pub timestamp: u64,
    pub subtype: u64,
    pub view: u64,
    pub sequence: u64,
    pub prefix: Vec<u8>,
    pub bits: u64,
    pub status: u64,
    pub originated: u64,
    pub address: Vec<u8>,
    pub peer_as: u64,
    pub attributes: Vec<u8>,
}

impl TableDump {
    pub(super) fn draft(&self) -> Result<Draft, Fault> {
        let (mut draft, layout) = Draft::start(self.timestamp, 12, self.subtype)?;
        let Layout::TableDump(family) = layout else { return Err(Fault::UnknownSubtype) };
        draft.u16(self.view)?;
        draft.u16(self.sequence)?;
        draft.address(&self.prefix, family)?;
        let bits = draft.u8(self.bits)?;
        family.prefix_length(bits)?;
        draft.u8(self.status)?;
        draft.u32(self.originated)?;
        draft.address(&self.address, family)?;
        draft.u16(self.peer_as)?;
        draft.size(&self.attributes)?;
        Attributes::tile(&self.attributes)?;
        draft.octets(&self.attributes);
        Ok(draft)
    }
}

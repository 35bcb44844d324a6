//! Type 13, subtype 1.

use super::draft::Draft;
use crate::fault::Fault;
use crate::peer_table::Peer;
use crate::reader::Reader;
use crate::text;

#[derive(Clone, Debug, PartialEq, Eq)]
pub struct PeerTable {
    pub timestamp: u64,
    pub collector: u64,
    pub name: Vec<u8>,
    pub count: u64,
    /// The peers, laid out one after the other.
    pub peers: Vec<u8>,
}

impl PeerTable {
    pub(super) fn draft(&self) -> Result<Draft, Fault> {
        let (mut draft, _) = Draft::start(self.timestamp, 13, 1)?;
        draft.u32(self.collector)?;
        draft.size(&self.name)?;
        text::judge(&self.name)?;
        draft.octets(&self.name);
        let count = draft.u16(self.count)?;
        self.judge_peers(count)?;
        draft.octets(&self.peers);
        Ok(draft)
    }

    /// As the reader, at the end of a message.
    fn judge_peers(&self, count: u16) -> Result<(), Fault> {
        let mut reader = Reader::over(&self.peers);
        for _ in 0..count {
            Peer::read(&mut reader)?;
        }
        Ok(reader.finish()?)
    }
}

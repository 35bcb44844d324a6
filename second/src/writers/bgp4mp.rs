//! Types 16 and 17.

use super::draft::Draft;
use super::Time;
use crate::bgp4mp::{BgpMessage, State};
use crate::fault::Fault;
use crate::layout::{Content, Layout};
use crate::net::{AsWidth, Family};
use crate::reader::Reader;

/// What both kinds of record start with.
#[derive(Clone, Debug, PartialEq, Eq)]
pub struct Session {
    pub time: Time,
    pub subtype: u64,
    pub peer_as: u64,
    pub local_as: u64,
    pub interface: u64,
    pub family: u64,
    pub peer_address: Vec<u8>,
    pub local_address: Vec<u8>,
}

impl Session {
    /// To the writer of one content the other's subtypes are not listed.
    fn draft(&self, wanted: Content) -> Result<Draft, Fault> {
        let code = if self.time.micro().is_some() { 17 } else { 16 };
        let (mut draft, layout) = Draft::start(self.time.seconds(), code, self.subtype)?;
        match layout {
            Layout::Bgp4mp { content, width, .. } if content == wanted => {
                draft.micro(self.time)?;
                self.lay(&mut draft, width)?;
                Ok(draft)
            }
            _ => Err(Fault::UnknownSubtype),
        }
    }

    fn lay(&self, draft: &mut Draft, width: AsWidth) -> Result<(), Fault> {
        lay_as(draft, width, self.peer_as)?;
        lay_as(draft, width, self.local_as)?;
        draft.u16(self.interface)?;
        let family = draft.u16(self.family).and_then(Family::of)?;
        draft.address(&self.peer_address, family)?;
        draft.address(&self.local_address, family)
    }
}

fn lay_as(draft: &mut Draft, width: AsWidth, number: u64) -> Result<(), Fault> {
    match width {
        AsWidth::Two => draft.u16(number).map(|_| ()),
        AsWidth::Four => draft.u32(number),
    }
}

/// Subtypes 0 and 5.
#[derive(Clone, Debug, PartialEq, Eq)]
pub struct Change {
    pub session: Session,
    pub old: u64,
    pub new: u64,
}

impl Change {
    pub(super) fn draft(&self) -> Result<Draft, Fault> {
        let mut draft = self.session.draft(Content::StateChange)?;
        draft.u16(self.old).and_then(State::of)?;
        draft.u16(self.new).and_then(State::of)?;
        Ok(draft)
    }
}

/// Subtypes 1, 4, 6 and 7.
#[derive(Clone, Debug, PartialEq, Eq)]
pub struct Message {
    pub session: Session,
    /// From the marker on.
    pub message: Vec<u8>,
}

impl Message {
    pub(super) fn draft(&self) -> Result<Draft, Fault> {
        let mut draft = self.session.draft(Content::Message)?;
        BgpMessage::read(&mut Reader::over(&self.message))?;
        draft.octets(&self.message);
        Ok(draft)
    }
}

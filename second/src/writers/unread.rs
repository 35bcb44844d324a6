//! Types 11, 32, 33, 48 and 49.

use super::draft::{fit, Draft};
use super::Time;
use crate::fault::Fault;
use crate::layout::{Kind, Layout};

#[derive(Clone, Debug, PartialEq, Eq)]
pub struct Unread {
    pub time: Time,
    pub code: u64,
    pub subtype: u64,
    pub contents: Vec<u8>,
}

impl Unread {
    pub(super) fn draft(&self) -> Result<Draft, Fault> {
        let timestamp = fit(self.time.seconds())?;
        let code = self.checked_code()?;
        let mut draft = Draft::new(timestamp, Kind::new(code, fit(self.subtype)?));
        draft.micro(self.time)?;
        draft.octets(&self.contents);
        Ok(draft)
    }

    /// A type is not listed here if it is laid out in another way: with fields,
    /// or with microseconds where none are given, or the other way round.
    fn checked_code(&self) -> Result<u16, Fault> {
        let code = fit(self.code)?;
        let timed = self.time.micro().is_some();
        // Any subtype will do, since these types have no list of them.
        if Kind::new(code, 0).layout() == Ok(Layout::Unread { timed }) {
            Ok(code)
        } else {
            Err(Fault::UnknownType)
        }
    }
}

//! A record in the making.

use super::Time;
use crate::fault::Fault;
use crate::layout::{Kind, Layout};
use crate::net::Family;
use crate::record::Header;
use crate::writer::Writer;

/// A part has fewer octets than its field.
const TOO_SHORT: Fault = Fault::FieldIncomplete;

/// A part has more octets than its field, or a number needs more.
const TOO_LARGE: Fault = Fault::OctetsLeft;

/// A number that has to go into a field of the type's size.
pub fn fit<T: TryFrom<u64>>(number: u64) -> Result<T, Fault> {
    T::try_from(number).map_err(|_| TOO_LARGE)
}

pub struct Draft {
    timestamp: u32,
    kind: Kind,
    message: Writer,
}

impl Draft {
    pub fn new(timestamp: u32, kind: Kind) -> Draft {
        Draft { timestamp, kind, message: Writer::new() }
    }

    /// The header's turns where the type is known, and what it asks for.
    pub fn start(timestamp: u64, code: u16, subtype: u64) -> Result<(Draft, Layout), Fault> {
        let timestamp = fit(timestamp)?;
        let kind = Kind::new(code, fit(subtype)?);
        Ok((Draft::new(timestamp, kind), kind.layout()?))
    }

    pub fn micro(&mut self, time: Time) -> Result<(), Fault> {
        time.micro().map_or(Ok(()), |micro| self.u32(micro))
    }

    /// A number of one octet; it is handed back for its own check.
    pub fn u8(&mut self, number: u64) -> Result<u8, Fault> {
        let number = fit(number)?;
        self.message.u8(number);
        Ok(number)
    }

    pub fn u16(&mut self, number: u64) -> Result<u16, Fault> {
        let number = fit(number)?;
        self.message.u16(number);
        Ok(number)
    }

    pub fn u32(&mut self, number: u64) -> Result<(), Fault> {
        self.message.u32(fit(number)?);
        Ok(())
    }

    /// A part whose field has a known size.
    pub fn part(&mut self, octets: &[u8], size: usize) -> Result<(), Fault> {
        if octets.len() < size {
            return Err(TOO_SHORT);
        }
        if octets.len() > size {
            return Err(TOO_LARGE);
        }
        self.octets(octets);
        Ok(())
    }

    pub fn address(&mut self, octets: &[u8], family: Family) -> Result<(), Fault> {
        self.part(octets, usize::from(family.bits() / 8))
    }

    /// The length of a part, worked out, in two octets.
    pub fn size(&mut self, octets: &[u8]) -> Result<(), Fault> {
        self.u16(octets.len() as u64).map(|_| ())
    }

    /// Octets that were judged, or need not be.
    pub fn octets(&mut self, octets: &[u8]) {
        self.message.octets(octets);
    }

    /// Length comes last, when all that it counts is there.
    pub fn record(self) -> Result<Vec<u8>, Fault> {
        let message = self.message.into_octets();
        let length = fit(message.len() as u64)?;
        let mut writer = Writer::new();
        Header { timestamp: self.timestamp, kind: self.kind, length }.write(&mut writer);
        writer.octets(&message);
        Ok(writer.into_octets())
    }
}

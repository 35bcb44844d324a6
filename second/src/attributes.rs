//! Path attributes: told apart, but their contents are never looked into.

use crate::fault::{Fault, Flaw};
use crate::reader::Reader;
use crate::writer::Writer;

/// The flag that gives an attribute a length field of two octets.
pub const EXTENDED_LENGTH: u8 = 16;

#[derive(Clone, Debug, PartialEq, Eq)]
pub struct Attribute {
    pub flags: u8,
    pub code: u8,
    pub value: Vec<u8>,
}

impl Attribute {
    fn is_extended(&self) -> bool {
        self.flags & EXTENDED_LENGTH != 0
    }

    fn read(reader: &mut Reader) -> Result<Attribute, Flaw> {
        let flags = reader.u8()?;
        let code = reader.u8()?;
        let size = if flags & EXTENDED_LENGTH != 0 {
            usize::from(reader.u16()?)
        } else {
            usize::from(reader.u8()?)
        };
        let value = reader.take(size)?.to_vec();
        Ok(Attribute { flags, code, value })
    }

    fn write(&self, writer: &mut Writer) {
        writer.u8(self.flags);
        writer.u8(self.code);
        if self.is_extended() {
            writer.size16(self.value.len());
        } else {
            writer.size8(self.value.len());
        }
        writer.octets(&self.value);
    }
}

/// A run of attributes behind one two-octet length.
#[derive(Clone, Debug, Default, PartialEq, Eq)]
pub struct Attributes(pub Vec<Attribute>);

impl Attributes {
    /// Reads the length, then that many octets, and only then judges whether
    /// attributes fill them exactly.
    pub fn read(reader: &mut Reader) -> Result<Attributes, Flaw> {
        let size = reader.field("attribute length").u16()?;
        let octets = reader.field("attributes").take(usize::from(size))?;
        Self::tile(octets).map_err(|fault| reader.flaw(fault))
    }

    /// Attributes that fill the octets exactly. Which of them does not is not told.
    pub fn tile(octets: &[u8]) -> Result<Attributes, Fault> {
        Self::read_all(octets).map_err(|_| Fault::AttributesDoNotTile)
    }

    fn read_all(octets: &[u8]) -> Result<Attributes, Flaw> {
        let mut reader = Reader::over(octets);
        let mut list = Vec::new();
        while !reader.is_empty() {
            list.push(Attribute::read(&mut reader)?);
        }
        Ok(Attributes(list))
    }

    pub fn write(&self, writer: &mut Writer) {
        let octets = self.to_octets();
        writer.size16(octets.len());
        writer.octets(&octets);
    }

    /// The attributes one after the other, without a length before them.
    pub fn to_octets(&self) -> Vec<u8> {
        let mut writer = Writer::new();
        for attribute in &self.0 {
            attribute.write(&mut writer);
        }
        writer.into_octets()
    }
}

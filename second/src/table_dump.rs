//! The old table dump, type 12: one route to a record.

use crate::attributes::Attributes;
use crate::fault::Flaw;
use crate::net::{Address, AsNumber, AsWidth, Family};
use crate::reader::Reader;
use crate::writer::Writer;

#[derive(Clone, Debug, PartialEq, Eq)]
pub struct TableDump {
    pub view: u16,
    pub sequence: u16,
    /// Always a full address here, whatever the prefix length.
    pub prefix: Address,
    pub prefix_bits: u8,
    pub status: u8,
    pub originated: u32,
    pub peer: Address,
    pub peer_as: AsNumber,
    pub attributes: Attributes,
}

impl TableDump {
    pub fn read(reader: &mut Reader, family: Family) -> Result<TableDump, Flaw> {
        Ok(TableDump {
            view: reader.field("view").u16()?,
            sequence: reader.field("sequence").u16()?,
            prefix: Address::read(reader.field("prefix"), family)?,
            prefix_bits: family.read_prefix_length(reader)?,
            status: reader.field("status").u8()?,
            originated: reader.field("originated time").u32()?,
            peer: Address::read(reader.field("peer address"), family)?,
            peer_as: AsNumber::read(reader.field("peer AS"), AsWidth::Two)?,
            attributes: Attributes::read(reader)?,
        })
    }

    pub fn write(&self, writer: &mut Writer) {
        writer.u16(self.view);
        writer.u16(self.sequence);
        self.prefix.write(writer);
        writer.u8(self.prefix_bits);
        writer.u8(self.status);
        writer.u32(self.originated);
        self.peer.write(writer);
        self.peer_as.write(writer);
        self.attributes.write(writer);
    }
}

//! RIB records, type 13 subtypes 2 to 6: all routes to one prefix.

use crate::attributes::Attributes;
use crate::fault::{Fault, Flaw};
use crate::layout::RibForm;
use crate::net::{Family, Prefix, Safi};
use crate::peer_table::TableInForce;
use crate::reader::Reader;
use crate::writer::Writer;

#[derive(Clone, Debug, PartialEq, Eq)]
pub struct Entry {
    /// Position of the peer in the table in force.
    pub peer_index: u16,
    pub originated: u32,
    pub attributes: Attributes,
}

impl Entry {
    pub fn read(reader: &mut Reader, table: TableInForce) -> Result<Entry, Flaw> {
        let peer_index = reader.field("peer index").u16()?;
        if !table.has(peer_index) {
            return Err(reader.flaw(Fault::NoSuchPeer));
        }
        let originated = reader.field("originated time").u32()?;
        Ok(Entry { peer_index, originated, attributes: Attributes::read(reader)? })
    }

    fn write(&self, writer: &mut Writer) {
        writer.u16(self.peer_index);
        writer.u32(self.originated);
        self.attributes.write(writer);
    }
}

/// The family fields of a generic RIB record.
#[derive(Clone, Copy, Debug, PartialEq, Eq)]
pub struct StatedFamily {
    pub family: Family,
    pub safi: Safi,
}

impl StatedFamily {
    fn read(reader: &mut Reader) -> Result<StatedFamily, Flaw> {
        Ok(StatedFamily { family: Family::read(reader)?, safi: Safi::read(reader)? })
    }

    fn write(&self, writer: &mut Writer) {
        writer.u16(self.family.code());
        writer.u8(self.safi.code());
    }
}

#[derive(Clone, Debug, PartialEq, Eq)]
pub struct Rib {
    pub sequence: u32,
    /// Present in generic records only.
    pub stated: Option<StatedFamily>,
    pub prefix: Prefix,
    pub entries: Vec<Entry>,
}

impl Rib {
    pub fn read(reader: &mut Reader, form: RibForm, table: TableInForce) -> Result<Rib, Flaw> {
        let sequence = reader.field("sequence").u32()?;
        let (stated, family) = Self::read_family(reader, form)?;
        let prefix = Prefix::read(reader, family)?;
        let count = reader.field("entry count").u16()?;
        let entries = (0..count).map(|_| Entry::read(reader, table)).collect::<Result<_, _>>()?;
        Ok(Rib { sequence, stated, prefix, entries })
    }

    fn read_family(
        reader: &mut Reader,
        form: RibForm,
    ) -> Result<(Option<StatedFamily>, Family), Flaw> {
        match form {
            RibForm::Fixed(family) => Ok((None, family)),
            RibForm::Generic => {
                let stated = StatedFamily::read(reader)?;
                Ok((Some(stated), stated.family))
            }
        }
    }

    pub fn write(&self, writer: &mut Writer) {
        writer.u32(self.sequence);
        if let Some(stated) = &self.stated {
            stated.write(writer);
        }
        self.prefix.write(writer);
        writer.size16(self.entries.len());
        for entry in &self.entries {
            entry.write(writer);
        }
    }
}

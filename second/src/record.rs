//! One record: its header and the message that its kind calls for.

use crate::bgp4mp::Bgp4mp;
use crate::fault::{Fault, Flaw, Spot};
use crate::layout::{Kind, Layout};
use crate::peer_table::{PeerTable, TableInForce};
use crate::reader::Reader;
use crate::rib::Rib;
use crate::table_dump::TableDump;
use crate::writer::Writer;

/// The fields in front of every message.
#[derive(Clone, Copy, Debug, PartialEq, Eq)]
pub struct Header {
    pub timestamp: u32,
    pub kind: Kind,
    pub length: u32,
}

impl Header {
    pub const SIZE: usize = 12;

    pub fn write(&self, writer: &mut Writer) {
        writer.u32(self.timestamp);
        writer.u16(self.kind.code);
        writer.u16(self.kind.subtype);
        writer.u32(self.length);
    }
}

/// A header that was read, and where those of its fields lie that can fail.
struct Found {
    header: Header,
    record: Spot,
    code: Spot,
    subtype: Spot,
}

impl Found {
    fn read(reader: &mut Reader) -> Result<Found, Flaw> {
        let record = reader.field("record").spot();
        let part = reader.part(Header::SIZE);
        Self::fields(record, part.map_err(|_| record.flaw(Fault::HeaderIncomplete))?)
    }

    fn fields(record: Spot, mut reader: Reader) -> Result<Found, Flaw> {
        let timestamp = reader.u32()?;
        let type_code = reader.field("Type").u16()?;
        let code = reader.spot();
        let kind = Kind::new(type_code, reader.field("Subtype").u16()?);
        let subtype = reader.spot();
        let length = reader.u32()?;
        Ok(Found { header: Header { timestamp, kind, length }, record, code, subtype })
    }

    /// The octets that Length counts.
    fn message<'a>(&self, reader: &mut Reader<'a>) -> Result<Reader<'a>, Flaw> {
        let past_end = self.record.flaw(Fault::LengthPastEnd);
        let size = usize::try_from(self.header.length).map_err(|_| past_end)?;
        reader.part(size).map_err(|_| past_end)
    }

    fn layout(&self) -> Result<Layout, Flaw> {
        self.header.kind.layout().map_err(|fault| match fault {
            Fault::UnknownType => self.code.flaw(fault),
            _ => self.subtype.flaw(fault),
        })
    }

    /// The table in force, or what a record that needs one is refused with.
    fn needed(&self, table: Option<TableInForce>) -> Result<TableInForce, Flaw> {
        table.ok_or(self.subtype.flaw(Fault::NoTable))
    }
}

#[derive(Clone, Debug, PartialEq, Eq)]
pub enum Body {
    Unread(Vec<u8>),
    TableDump(TableDump),
    PeerTable(PeerTable),
    Rib(Rib),
    Bgp4mp(Bgp4mp),
}

impl Body {
    /// A missing table is noticed before any field of a RIB record is read.
    fn read(
        reader: &mut Reader,
        layout: Layout,
        table: Result<TableInForce, Flaw>,
    ) -> Result<Body, Flaw> {
        match layout {
            Layout::Unread { .. } => Ok(Body::Unread(reader.take_rest().to_vec())),
            Layout::TableDump(family) => TableDump::read(reader, family).map(Body::TableDump),
            Layout::PeerTable => PeerTable::read(reader).map(Body::PeerTable),
            Layout::Rib(form) => Rib::read(reader, form, table?).map(Body::Rib),
            Layout::Bgp4mp { content, width, .. } => {
                Bgp4mp::read(reader, content, width).map(Body::Bgp4mp)
            }
        }
    }

    fn write(&self, writer: &mut Writer) {
        match self {
            Body::Unread(contents) => writer.octets(contents),
            Body::TableDump(route) => route.write(writer),
            Body::PeerTable(table) => table.write(writer),
            Body::Rib(rib) => rib.write(writer),
            Body::Bgp4mp(event) => event.write(writer),
        }
    }
}

#[derive(Clone, Debug, PartialEq, Eq)]
pub struct Record {
    pub timestamp: u32,
    pub kind: Kind,
    /// Present for the types with extended time; any value is fine.
    pub microsecond: Option<u32>,
    pub body: Body,
}

impl Record {
    /// Takes one record off the reader. `table` is the peer table in force.
    pub fn read(reader: &mut Reader, table: Option<TableInForce>) -> Result<Record, Flaw> {
        let found = Found::read(reader)?;
        let mut message = found.message(reader)?;
        let layout = found.layout()?;
        let microsecond = Self::read_microsecond(&mut message, layout)?;
        let body = Body::read(&mut message, layout, found.needed(table))?;
        message.finish()?;
        let Header { timestamp, kind, .. } = found.header;
        Ok(Record { timestamp, kind, microsecond, body })
    }

    fn read_microsecond(reader: &mut Reader, layout: Layout) -> Result<Option<u32>, Flaw> {
        if layout.is_timed() {
            reader.field("microseconds").u32().map(Some)
        } else {
            Ok(None)
        }
    }

    pub fn write(&self, writer: &mut Writer) {
        let message = self.message();
        let length = u32::try_from(message.len()).expect("message above four octets of Length");
        Header { timestamp: self.timestamp, kind: self.kind, length }.write(writer);
        writer.octets(&message);
    }

    fn message(&self) -> Vec<u8> {
        let mut writer = Writer::new();
        if let Some(microsecond) = self.microsecond {
            writer.u32(microsecond);
        }
        self.body.write(&mut writer);
        writer.into_octets()
    }

    /// What Length says: the octets of the message, microseconds included.
    pub fn length(&self) -> usize {
        self.message().len()
    }

    /// Microseconds since 1970.
    pub fn time(&self) -> u64 {
        u64::from(self.timestamp) * 1_000_000 + u64::from(self.microsecond.unwrap_or(0))
    }

    /// The table that this record puts in force, if it is one.
    pub fn as_table(&self) -> Option<TableInForce> {
        match &self.body {
            Body::PeerTable(table) => Some(TableInForce::of(table)),
            _ => None,
        }
    }
}

//! The peer table, type 13 subtype 1.

use crate::fault::Flaw;
use crate::net::{Address, AsNumber, AsWidth, Family};
use crate::reader::Reader;
use crate::text;
use crate::writer::Writer;

const IPV6: u8 = 1;
const FOUR_OCTET_AS: u8 = 2;

#[derive(Clone, Debug, PartialEq, Eq)]
pub struct Peer {
    /// The bits of the type octet that say nothing about the layout.
    pub other_bits: u8,
    pub bgp_id: u32,
    pub address: Address,
    pub asn: AsNumber,
}

impl Peer {
    pub fn read(reader: &mut Reader) -> Result<Peer, Flaw> {
        let octet = reader.field("peer type").u8()?;
        Ok(Peer {
            other_bits: octet & !(IPV6 | FOUR_OCTET_AS),
            bgp_id: reader.field("peer BGP ID").u32()?,
            address: Address::read(reader.field("peer address"), Self::family_in(octet))?,
            asn: AsNumber::read(reader.field("peer AS"), Self::width_in(octet))?,
        })
    }

    fn write(&self, writer: &mut Writer) {
        writer.u8(self.type_octet());
        writer.u32(self.bgp_id);
        self.address.write(writer);
        self.asn.write(writer);
    }

    fn family_in(octet: u8) -> Family {
        if octet & IPV6 == 0 {
            Family::V4
        } else {
            Family::V6
        }
    }

    fn width_in(octet: u8) -> AsWidth {
        if octet & FOUR_OCTET_AS == 0 {
            AsWidth::Two
        } else {
            AsWidth::Four
        }
    }

    pub fn type_octet(&self) -> u8 {
        let family = match self.address.family() {
            Family::V4 => 0,
            Family::V6 => IPV6,
        };
        let width = match self.asn.width() {
            AsWidth::Two => 0,
            AsWidth::Four => FOUR_OCTET_AS,
        };
        self.other_bits | family | width
    }
}

#[derive(Clone, Debug, PartialEq, Eq)]
pub struct PeerTable {
    pub collector: u32,
    /// Text in UTF-8.
    pub view_name: Vec<u8>,
    pub peers: Vec<Peer>,
}

impl PeerTable {
    pub fn read(reader: &mut Reader) -> Result<PeerTable, Flaw> {
        let collector = reader.field("collector ID").u32()?;
        let name_size = reader.field("view name length").u16()?;
        let view_name = reader.field("view name").take(usize::from(name_size))?.to_vec();
        text::judge(&view_name).map_err(|fault| reader.flaw(fault))?;
        let count = reader.field("peer count").u16()?;
        let peers = (0..count).map(|_| Peer::read(reader)).collect::<Result<_, _>>()?;
        Ok(PeerTable { collector, view_name, peers })
    }

    pub fn write(&self, writer: &mut Writer) {
        writer.u32(self.collector);
        writer.size16(self.view_name.len());
        writer.octets(&self.view_name);
        writer.size16(self.peers.len());
        for peer in &self.peers {
            peer.write(writer);
        }
    }
}

/// What a RIB record has to know of the latest peer table.
#[derive(Clone, Copy, Debug, PartialEq, Eq)]
pub struct TableInForce {
    pub peers: usize,
}

impl TableInForce {
    pub fn of(table: &PeerTable) -> Self {
        TableInForce { peers: table.peers.len() }
    }

    pub fn has(self, index: u16) -> bool {
        usize::from(index) < self.peers
    }
}

//! The fields of a record of each kind: what reading one shows, and what writing one takes.
//!
//! Parts lie in the caller's octets. Prefix lengths are in bits.

use crate::items::address;
use std::net::IpAddr;
use std::str::{self, Utf8Error};

/// When a record was made.
#[derive(Clone, Copy, Debug, PartialEq, Eq, Hash)]
pub struct Time {
    /// In seconds since 1970.
    pub timestamp: u32,
    /// Types 17, 33 and 49 have them; any number, also above 999,999.
    pub microseconds: Option<u32>,
}

/// OSPF and IS-IS, Types 11, 32 and 48, and with microseconds 33 and 49: carried, not read.
#[derive(Clone, Copy, Debug, PartialEq, Eq, Hash)]
pub struct Unread<'a> {
    pub time: Time,
    pub type_code: u16,
    pub subtype: u16,
    pub contents: &'a [u8],
}

/// Type 12: one route.
#[derive(Clone, Copy, Debug, PartialEq, Eq, Hash)]
pub struct TableDump<'a> {
    pub timestamp: u32,
    /// 1 for IPv4, 2 for IPv6.
    pub subtype: u16,
    pub view: u16,
    pub sequence: u16,
    /// As many octets as an address has.
    pub prefix: &'a [u8],
    pub prefix_length: u8,
    pub status: u8,
    pub originated: u32,
    pub peer_address: &'a [u8],
    pub peer_as: u16,
    pub attributes: &'a [u8],
}

impl TableDump<'_> {
    /// The peer's address: every record that was read has one.
    pub fn peer(&self) -> Option<IpAddr> {
        address(self.peer_address)
    }
}

/// Type 13, Subtype 1.
#[derive(Clone, Copy, Debug, PartialEq, Eq, Hash)]
pub struct PeerTable<'a> {
    pub timestamp: u32,
    pub collector_id: u32,
    /// The view name in UTF-8 (RFC 3629); it may be empty. See [`PeerTable::name_text`].
    pub name: &'a [u8],
    /// How many peers there are.
    pub count: u16,
    /// The peers, one after another, as the record lays them out.
    pub peers: &'a [u8],
}

impl<'a> PeerTable<'a> {
    /// The view name as text. Every table that was read has it; of a name from elsewhere the error
    /// says where it stops being text. It may hold control characters, which a terminal obeys.
    ///
    /// ```
    /// use dagsumilat::{read, Fields};
    ///
    /// // A table without peers, of the view "Zürich".
    /// let mut octets = vec![0, 0, 0, 1, 0, 13, 0, 1, 0, 0, 0, 15, 192, 0, 2, 254, 0, 7];
    /// octets.extend("Zürich".as_bytes());
    /// octets.extend([0, 0]);
    ///
    /// let found = read(&octets, None).unwrap().unwrap();
    /// let Fields::PeerTable(table) = found.fields else { panic!() };
    /// assert_eq!(table.name_text(), Ok("Zürich"));
    /// ```
    pub fn name_text(&self) -> Result<&'a str, Utf8Error> {
        str::from_utf8(self.name)
    }
}

/// Type 13, Subtypes 2 to 5: all routes to one prefix.
#[derive(Clone, Copy, Debug, PartialEq, Eq, Hash)]
pub struct Rib<'a> {
    pub timestamp: u32,
    /// 2 and 3 for IPv4, 4 and 5 for IPv6.
    pub subtype: u16,
    pub sequence: u32,
    pub prefix_length: u8,
    /// As many octets as the bits need.
    pub prefix: &'a [u8],
    /// How many entries there are.
    pub count: u16,
    /// The entries, one after another, as the record lays them out.
    pub entries: &'a [u8],
}

/// Type 13, Subtype 6: as [`Rib`], of the family and SAFI that it states.
#[derive(Clone, Copy, Debug, PartialEq, Eq, Hash)]
pub struct RibGeneric<'a> {
    pub timestamp: u32,
    pub sequence: u32,
    /// 1 for IPv4, 2 for IPv6.
    pub family: u16,
    /// 1 for unicast, 2 for multicast.
    pub safi: u8,
    pub prefix_length: u8,
    pub prefix: &'a [u8],
    pub count: u16,
    pub entries: &'a [u8],
}

/// The two ends of a BGP session.
#[derive(Clone, Copy, Debug, PartialEq, Eq, Hash)]
pub struct Session<'a> {
    /// At most 65,535 but for Subtypes 4, 5 and 7.
    pub peer_as: u32,
    pub local_as: u32,
    pub interface: u16,
    /// 1 for IPv4, 2 for IPv6.
    pub family: u16,
    pub peer_address: &'a [u8],
    pub local_address: &'a [u8],
}

impl Session<'_> {
    /// The peer's address: every session that was read has one.
    pub fn peer(&self) -> Option<IpAddr> {
        address(self.peer_address)
    }
}

/// Type 16, and with microseconds 17, Subtypes 0 and 5.
#[derive(Clone, Copy, Debug, PartialEq, Eq, Hash)]
pub struct StateChange<'a> {
    pub time: Time,
    pub subtype: u16,
    pub session: Session<'a>,
    /// From 1, Idle, to 6, Established.
    pub old: u16,
    pub new: u16,
}

/// Type 16, and with microseconds 17, Subtypes 1, 4, 6 and 7.
#[derive(Clone, Copy, Debug, PartialEq, Eq, Hash)]
pub struct Message<'a> {
    pub time: Time,
    pub subtype: u16,
    pub session: Session<'a>,
    /// The BGP message, from its marker on.
    pub message: &'a [u8],
}

impl Message<'_> {
    /// The BGP message's type: every one that was read has it.
    pub fn type_octet(&self) -> Option<u8> {
        self.message.get(18).copied()
    }
}

/// The fields of one record.
#[derive(Clone, Copy, Debug, PartialEq, Eq, Hash)]
pub enum Fields<'a> {
    Unread(Unread<'a>),
    TableDump(TableDump<'a>),
    PeerTable(PeerTable<'a>),
    Rib(Rib<'a>),
    RibGeneric(RibGeneric<'a>),
    StateChange(StateChange<'a>),
    Message(Message<'a>),
}

//! The peers of a peer table and the entries of a RIB record.

use crate::{answered, calls};
use std::net::{IpAddr, Ipv4Addr, Ipv6Addr};

/// A peer of a peer table.
#[derive(Clone, Copy, Debug, PartialEq, Eq)]
pub struct Peer {
    pub as_number: u32,
    /// The octet that gives the sizes of address and AS; its other bits say nothing here.
    pub type_octet: u8,
    pub bgp_id: Ipv4Addr,
    pub address: IpAddr,
}

/// The peers of one table, in order.
#[derive(Clone, Debug)]
pub struct Peers<'a> {
    dump: &'a [u8],
    at: usize,
    left: usize,
}

impl<'a> Peers<'a> {
    pub(crate) fn new(dump: &'a [u8], at: usize, count: usize) -> Peers<'a> {
        Peers { dump, at, left: count }
    }
}

impl Iterator for Peers<'_> {
    type Item = Peer;

    fn next(&mut self) -> Option<Peer> {
        self.left = self.left.checked_sub(1)?;
        let [fault, next, as_number, type_octet, bgp_id, from, size] =
            answered(|answer| calls::peer(self.dump, self.at, answer));
        assert_eq!(fault, 0, "a good table's peers are whole");
        self.at = next as usize;
        Some(Peer {
            as_number: as_number as u32,
            type_octet: type_octet as u8,
            bgp_id: Ipv4Addr::from(bgp_id as u32),
            address: address(&self.dump[from as usize..][..size as usize])
                .expect("an address has 4 or 16 octets"),
        })
    }

    fn size_hint(&self) -> (usize, Option<usize>) {
        (self.left, Some(self.left))
    }
}

impl ExactSizeIterator for Peers<'_> {}

/// The address of 4 or 16 octets; of any other number there is none.
pub(crate) fn address(octets: &[u8]) -> Option<IpAddr> {
    let short = <[u8; 4]>::try_from(octets).map(|octets| IpAddr::V4(Ipv4Addr::from(octets)));
    let long = || <[u8; 16]>::try_from(octets).map(|octets| IpAddr::V6(Ipv6Addr::from(octets)));
    short.or_else(|_| long()).ok()
}

/// An entry of a RIB record.
#[derive(Clone, Copy, Debug, PartialEq, Eq)]
pub struct Entry<'a> {
    /// Which peer of the table in force, counted from 0.
    pub peer_index: u16,
    /// In seconds since 1970.
    pub originated: u32,
    /// The path attributes, where they lie in the dump.
    pub attributes: &'a [u8],
}

/// The entries of one RIB record, in order.
#[derive(Clone, Debug)]
pub struct Entries<'a> {
    dump: &'a [u8],
    at: usize,
    left: usize,
}

impl<'a> Entries<'a> {
    pub(crate) fn new(dump: &'a [u8], at: usize, count: usize) -> Entries<'a> {
        Entries { dump, at, left: count }
    }
}

impl<'a> Iterator for Entries<'a> {
    type Item = Entry<'a>;

    fn next(&mut self) -> Option<Entry<'a>> {
        self.left = self.left.checked_sub(1)?;
        let [fault, next, peer_index, originated, from, size] =
            answered(|answer| calls::entry(self.dump, self.at, answer));
        assert_eq!(fault, 0, "a good RIB record's entries are whole");
        self.at = next as usize;
        Some(Entry {
            peer_index: peer_index as u16,
            originated: originated as u32,
            attributes: &self.dump[from as usize..][..size as usize],
        })
    }

    fn size_hint(&self) -> (usize, Option<usize>) {
        (self.left, Some(self.left))
    }
}

impl ExactSizeIterator for Entries<'_> {}

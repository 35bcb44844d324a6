//! Short ways to say the records that a cut is tried on. What is left is said
//! with the same words, so the octets of a peer or entry follow from its tag
//! and not from where it stands.

use crate::net::Family::{self, V4, V6};
use crate::vectors::shapes::{self, address, EXTENDED_PATH, PATH};
use crate::vectors::sketch::Sketch;

/// A peer of a table.
#[derive(Clone, Copy)]
pub struct Member {
    /// The type octet.
    pub octet: u8,
    pub asn: u32,
    /// Ends its BGP ID and its address.
    pub tag: u8,
}

impl Member {
    fn family(self) -> Family {
        if self.octet & 1 == 0 {
            V4
        } else {
            V6
        }
    }

    fn asn_octets(self) -> Vec<u8> {
        if self.octet & 2 == 0 {
            u16::try_from(self.asn).expect("AS above two octets").to_be_bytes().to_vec()
        } else {
            self.asn.to_be_bytes().to_vec()
        }
    }

    pub fn octets(self) -> Vec<u8> {
        let addresses = [address(V4, self.tag), address(self.family(), self.tag)].concat();
        [vec![self.octet], addresses, self.asn_octets()].concat()
    }
}

/// An IPv4 peer with an AS number of four octets.
pub fn member(asn: u32) -> Member {
    Member { octet: 2, asn, tag: asn as u8 }
}

pub fn members(numbers: &[u32]) -> Vec<Member> {
    numbers.iter().copied().map(member).collect()
}

pub fn named_table(name: &[u8], members: &[Member]) -> Sketch {
    let head = shapes::peer_table(name, &[]).set_n("peer-count", members.len() as u64);
    members.iter().fold(head, |sketch, member| sketch.raw("peer", &member.octets()))
}

pub fn table(members: &[Member]) -> Sketch {
    named_table(b"desk", members)
}

/// A table of [`member`]s.
pub fn table_of(numbers: &[u32]) -> Sketch {
    table(&members(numbers))
}

/// A RIB record. Each entry is a peer index and a tag that tells its other
/// octets. The prefix has bits set past its length.
pub fn rib(subtype: u16, entries: &[(u16, u8)]) -> Sketch {
    let v4 = [198, 51, 101];
    let v6 = [0x20, 0x01, 0x0d, 0xb8, 0xff];
    let head = match subtype {
        2 | 3 => shapes::rib(subtype, 23, &v4, &[]),
        4 | 5 => shapes::rib(subtype, 33, &v6, &[]),
        _ => shapes::generic_rib(2, 1, 33, &v6, &[]),
    };
    let head = head.set_n("entry-count", entries.len() as u64);
    entries.iter().enumerate().fold(head, |sketch, (number, of)| entry(sketch, number, *of))
}

/// The entry of this number, counted from 0.
pub fn entry(sketch: Sketch, number: usize, (index, tag): (u16, u8)) -> Sketch {
    let attributes = attributes(tag);
    let field = |what: &str| format!("entry{number}-{what}");
    sketch
        .n(&field("index"), 2, index.into())
        .n(&field("originated"), 4, 1_000 + u64::from(tag))
        .n(&field("attribute-length"), 2, attributes.len() as u64)
        .raw(&field("attributes"), &attributes)
}

fn attributes(tag: u8) -> Vec<u8> {
    match tag % 4 {
        0 => Vec::new(),
        1 => vec![0x40, 1, 1, tag],
        2 => EXTENDED_PATH.to_vec(),
        _ => PATH.to_vec(),
    }
}

/// A state change of this peer AS, or its low half where two octets hold it.
pub fn change(code: u16, subtype: u16, asn: u32) -> Sketch {
    shapes::state_change(code, subtype, V4).set_n("peer-as", asn.into())
}

/// A withdrawal heard from (or told to) this peer AS.
pub fn withdrawal(code: u16, subtype: u16, asn: u32) -> Sketch {
    shapes::withdrawal(code, subtype, V6).set_n("peer-as", asn.into())
}

/// A route of type 12 from this peer AS.
pub fn old_route(family: Family, asn: u16) -> Sketch {
    shapes::table_dump(family, &EXTENDED_PATH).set_n("peer-as", asn.into())
}

pub fn octets(sketches: &[Sketch]) -> Vec<Vec<u8>> {
    sketches.iter().map(Sketch::record).collect()
}

/// The records at these positions.
pub fn picked(records: &[Vec<u8>], positions: &[usize]) -> Vec<Vec<u8>> {
    positions.iter().map(|position| records[*position].clone()).collect()
}

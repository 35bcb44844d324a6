//! Dumps laid out by hand.

use std::fs;

pub const SAMPLE: &str = concat!(env!("CARGO_MANIFEST_DIR"), "/../../sample/incident.mrt");

/// The second in which the sample's outage starts.
pub const NOON: u32 = 1_772_366_400;

pub fn sample() -> Vec<u8> {
    fs::read(SAMPLE).unwrap()
}

pub fn record(time: u32, kind: u16, subtype: u16, message: &[u8]) -> Vec<u8> {
    let length = message.len() as u32;
    let (kind, subtype) = (kind.to_be_bytes(), subtype.to_be_bytes());
    [&time.to_be_bytes()[..], &kind, &subtype, &length.to_be_bytes(), message].concat()
}

/// A peer table of IPv4 peers with 4-octet AS numbers, without a view name.
pub fn table(time: u32, numbers: &[u32]) -> Vec<u8> {
    named_table(time, &[], numbers)
}

pub fn named_table(time: u32, name: &[u8], numbers: &[u32]) -> Vec<u8> {
    let mut message = vec![192, 0, 2, 254];
    message.extend((name.len() as u16).to_be_bytes());
    message.extend(name);
    message.extend((numbers.len() as u16).to_be_bytes());
    for number in numbers {
        message.extend([2, 192, 0, 2, 1, 192, 0, 2, 1]);
        message.extend(number.to_be_bytes());
    }
    record(time, 13, 1, &message)
}

/// A peer table of peers with these AS numbers, at 192.0.2.N.
pub fn table_at(time: u32, peers: &[(u32, u8)]) -> Vec<u8> {
    let mut message = vec![192, 0, 2, 254, 0, 0];
    message.extend((peers.len() as u16).to_be_bytes());
    for (number, last) in peers {
        message.extend([2, 192, 0, 2, *last, 192, 0, 2, *last]);
        message.extend(number.to_be_bytes());
    }
    record(time, 13, 1, &message)
}

/// A RIB record of the prefix of all addresses; its entries have no attributes.
pub fn rib(time: u32, indexes: &[u16]) -> Vec<u8> {
    let mut message = vec![0, 0, 0, 0, 0];
    message.extend((indexes.len() as u16).to_be_bytes());
    for index in indexes {
        message.extend(index.to_be_bytes());
        message.extend([0; 6]);
    }
    record(time, 13, 2, &message)
}

/// The fields of types 16 and 17 before state or message, with 2-octet AS numbers, IPv4.
pub fn session(peer_as: u16) -> Vec<u8> {
    let mut session = peer_as.to_be_bytes().to_vec();
    session.extend([0xfb, 0xff, 0, 0, 0, 1, 192, 0, 2, 1, 192, 0, 2, 254]);
    session
}

/// A state change, from 3 to 4.
pub fn change(time: u32, peer_as: u16) -> Vec<u8> {
    change_of(time, peer_as, 3, 4)
}

pub fn change_of(time: u32, peer_as: u16, old: u8, new: u8) -> Vec<u8> {
    record(time, 16, 0, &[session(peer_as), vec![0, old, 0, new]].concat())
}

/// A state change of a peer at 192.0.2.N with a collector of this AS.
pub fn change_at(time: u32, peer_as: u16, last: u8, local_as: u16) -> Vec<u8> {
    let mut message = peer_as.to_be_bytes().to_vec();
    message.extend(local_as.to_be_bytes());
    message.extend([0, 0, 0, 1, 192, 0, 2, last, 192, 0, 2, 254, 0, 3, 0, 4]);
    record(time, 16, 0, &message)
}

/// A BGP message of 19 octets whose length field says `length`.
pub fn message(time: u32, peer_as: u16, length: u16) -> Vec<u8> {
    let mut message = session(peer_as);
    message.extend([255; 16]);
    message.extend(length.to_be_bytes());
    message.push(4);
    record(time, 16, 1, &message)
}

/// An old table dump's record with these attributes, IPv4.
pub fn table_dump(time: u32, peer_as: u16, attributes: &[u8]) -> Vec<u8> {
    let mut message = vec![0; 4];
    message.extend([192, 0, 2, 0, 24, 1]);
    message.extend([0; 4]);
    message.extend([192, 0, 2, 1]);
    message.extend(peer_as.to_be_bytes());
    message.extend((attributes.len() as u16).to_be_bytes());
    message.extend(attributes);
    record(time, 12, 1, &message)
}

//! Good fields for each writer, and the sketches of their records.

use crate::net::Family;
use crate::vectors::shapes::{self, address, Route, EXTENDED_PATH, PATH};
use crate::vectors::sketch::Sketch;
use crate::writers::{PeerTable, Rib, RibGeneric, Routes, Session, TableDump, Time};

pub const SECONDS: u64 = 1_300_475_700;

pub fn time(micro: Option<u64>) -> Time {
    match micro {
        None => Time::Seconds(SECONDS),
        Some(micro) => Time::Micro { seconds: SECONDS, micro },
    }
}

pub fn old_route(family: Family) -> TableDump {
    TableDump {
        timestamp: SECONDS,
        subtype: family.code().into(),
        view: 0,
        sequence: 42,
        prefix: address(family, 0),
        bits: 24,
        status: 1,
        originated: 1_300_475_000,
        address: address(family, 9),
        peer_as: 64_499,
        attributes: PATH.to_vec(),
    }
}

/// The octets of some fields of a sketch, from the named one to the end.
pub fn from(sketch: &Sketch, name: &str) -> Vec<u8> {
    let spans = sketch.spans();
    let start = spans.iter().find(|span| span.name == name).map(|span| span.start);
    sketch.message()[start.unwrap_or_else(|| panic!("no field {name}"))..].to_vec()
}

pub fn table_sketch() -> Sketch {
    shapes::peer_table(b"rrc-9", &[0, 3, 0xfe])
}

pub fn table() -> PeerTable {
    PeerTable {
        timestamp: SECONDS,
        collector: 0xc633_6404,
        name: b"rrc-9".to_vec(),
        count: 3,
        peers: from(&table_sketch(), "peer0-type"),
    }
}

const V4: [u8; 3] = [198, 51, 101];
const V6: [u8; 5] = [0x20, 0x01, 0x0d, 0xb8, 0xff];

fn two_routes() -> [Route<'static>; 2] {
    [Route(2, &PATH), Route(0, &EXTENDED_PATH)]
}

/// Bits are set past the prefix length.
pub fn rib_sketch(subtype: u16) -> Sketch {
    match subtype {
        2 | 3 => shapes::rib(subtype, 23, &V4, &two_routes()),
        _ => shapes::rib(subtype, 33, &V6, &two_routes()),
    }
}

pub fn generic_sketch(family: Family, safi: u64) -> Sketch {
    match family {
        Family::V4 => shapes::generic_rib(1, safi, 23, &V4, &two_routes()),
        Family::V6 => shapes::generic_rib(2, safi, 33, &V6, &two_routes()),
    }
}

fn routes(v6: bool, sketch: &Sketch) -> Routes {
    let (bits, prefix) = if v6 { (33, V6.to_vec()) } else { (23, V4.to_vec()) };
    Routes { bits, prefix, count: 2, entries: from(sketch, "entry0-index") }
}

pub fn rib(subtype: u16) -> Rib {
    Rib {
        timestamp: SECONDS,
        subtype: subtype.into(),
        table: Some(3),
        sequence: 42,
        routes: routes(matches!(subtype, 4 | 5), &rib_sketch(subtype)),
    }
}

pub fn generic(family: Family, safi: u64) -> RibGeneric {
    RibGeneric {
        timestamp: SECONDS,
        table: Some(3),
        sequence: 43,
        family: family.code().into(),
        safi,
        routes: routes(family == Family::V6, &generic_sketch(family, safi)),
    }
}

pub fn session(subtype: u16, timed: bool, family: Family) -> Session {
    Session {
        time: time(timed.then_some(999_999)),
        subtype: subtype.into(),
        peer_as: 64_496,
        local_as: 64_497,
        interface: 7,
        family: family.code().into(),
        peer_address: address(family, 85),
        local_address: address(family, 4),
    }
}

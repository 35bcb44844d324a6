//! A good sketch of every layout.

use super::sketch::Sketch;
use super::slip::Slip;
use crate::net::Family;
use std::ops::Range;

pub const FAMILIES: [Family; 2] = [Family::V4, Family::V6];
pub const MESSAGES: [u16; 4] = [1, 4, 6, 7];
pub const STATE_CHANGES: [u16; 2] = [0, 5];

/// ORIGIN, an AS_PATH of three 4-octet numbers, and NEXT_HOP.
pub const PATH: [u8; 28] = [
    0x40, 1, 1, 0, 0x40, 2, 14, 2, 3, 0, 0, 0xfb, 0xf0, 0, 0, 0xfb, 0xf1, 0, 0, 0xfb, 0xf2, 0x40,
    3, 4, 198, 51, 100, 7,
];

/// ORIGIN and an AS_PATH with a 2-octet length.
pub const EXTENDED_PATH: [u8; 14] = [0x40, 1, 1, 2, 0x50, 2, 0, 6, 2, 1, 0, 1, 0, 5];

pub fn family_name(family: Family) -> &'static str {
    match family {
        Family::V4 => "ipv4",
        Family::V6 => "ipv6",
    }
}

/// A documentation address of the family that ends in `last`.
pub fn address(family: Family, last: u8) -> Vec<u8> {
    match family {
        Family::V4 => vec![192, 0, 2, last],
        Family::V6 => {
            let mut octets = vec![0x20, 0x01, 0x0d, 0xb8];
            octets.extend([0; 11]);
            octets.push(last);
            octets
        }
    }
}

/// Types 11, 32, 48, and with microseconds 33 and 49.
pub fn unread(code: u16, subtype: u16, contents: &[u8]) -> Sketch {
    let sketch = Sketch::new(code, subtype);
    let sketch = if matches!(code, 33 | 49) { sketch.n("micro", 4, 250_000) } else { sketch };
    sketch.raw("contents", contents)
}

/// Type 12 in the form that the family asks for.
pub fn table_dump(family: Family, attributes: &[u8]) -> Sketch {
    Sketch::new(12, family.code())
        .n("view", 2, 0)
        .n("sequence", 2, 42)
        .raw("prefix", &address(family, 0))
        .n("prefix-length", 1, 24)
        .n("status", 1, 1)
        .n("originated", 4, 1_300_475_000)
        .raw("peer-address", &address(family, 9))
        .n("peer-as", 2, 64_499)
        .n("attribute-length", 2, attributes.len() as u64)
        .raw("attributes", attributes)
}

/// A peer table; each peer is told by its type octet alone.
pub fn peer_table(name: &[u8], types: &[u8]) -> Sketch {
    let head = Sketch::new(13, 1)
        .raw("collector", &[198, 51, 100, 4])
        .n("name-length", 2, name.len() as u64)
        .raw("name", name)
        .n("peer-count", 2, types.len() as u64);
    types.iter().enumerate().fold(head, |sketch, (index, octet)| peer(sketch, index, *octet))
}

fn peer(sketch: Sketch, index: usize, octet: u8) -> Sketch {
    let family = if octet & 1 == 0 { Family::V4 } else { Family::V6 };
    let (width, asn) = if octet & 2 == 0 { (2, 64_496) } else { (4, 65_536) };
    sketch
        .n(&format!("peer{index}-type"), 1, octet.into())
        .raw(&format!("peer{index}-id"), &address(Family::V4, index as u8))
        .raw(&format!("peer{index}-address"), &address(family, index as u8))
        .n(&format!("peer{index}-as"), width, asn + index as u64 % 16)
}

/// A table of so many IPv4 peers with 4-octet AS numbers.
pub fn plain_table(count: usize) -> Sketch {
    peer_table(b"", &vec![2; count])
}

/// One RIB entry: the peer's index and its attributes.
#[derive(Clone, Copy)]
pub struct Route<'a>(pub u16, pub &'a [u8]);

pub fn rib(subtype: u16, bits: u8, prefix: &[u8], routes: &[Route]) -> Sketch {
    prefix_and_routes(Sketch::new(13, subtype).n("sequence", 4, 42), bits, prefix, routes)
}

pub fn generic_rib(family: u64, safi: u64, bits: u8, prefix: &[u8], routes: &[Route]) -> Sketch {
    let head = Sketch::new(13, 6).n("sequence", 4, 43).n("family", 2, family).n("safi", 1, safi);
    prefix_and_routes(head, bits, prefix, routes)
}

fn prefix_and_routes(head: Sketch, bits: u8, prefix: &[u8], routes: &[Route]) -> Sketch {
    let head = head.n("prefix-length", 1, bits.into()).raw("prefix", prefix).n(
        "entry-count",
        2,
        routes.len() as u64,
    );
    routes.iter().enumerate().fold(head, |sketch, (index, route)| entry(sketch, index, route))
}

fn entry(sketch: Sketch, index: usize, route: &Route) -> Sketch {
    sketch
        .n(&format!("entry{index}-index"), 2, route.0.into())
        .n(&format!("entry{index}-originated"), 4, 1_300_475_100)
        .n(&format!("entry{index}-attribute-length"), 2, route.1.len() as u64)
        .raw(&format!("entry{index}-attributes"), route.1)
}

/// Fields that open both kinds of BGP4MP record.
fn session(code: u16, subtype: u16, family: Family) -> Sketch {
    let width = if matches!(subtype, 4 | 5 | 7) { 4 } else { 2 };
    let sketch = Sketch::new(code, subtype);
    let sketch = if code == 17 { sketch.n("micro", 4, 999_999) } else { sketch };
    sketch
        .n("peer-as", width, 64_496)
        .n("local-as", width, 64_497)
        .n("interface", 2, 7)
        .n("family", 2, family.code().into())
        .raw("peer-address", &address(family, 85))
        .raw("local-address", &address(family, 4))
}

pub fn state_change(code: u16, subtype: u16, family: Family) -> Sketch {
    session(code, subtype, family).n("old-state", 2, 3).n("new-state", 2, 4)
}

/// A message whose length field is right for `rest`.
pub fn bgp_message(code: u16, subtype: u16, family: Family, kind: u64, rest: &[u8]) -> Sketch {
    session(code, subtype, family)
        .raw("marker", &[0xff; 16])
        .n("bgp-length", 2, 19 + rest.len() as u64)
        .n("bgp-type", 1, kind)
        .raw("bgp-rest", rest)
}

pub fn keepalive(code: u16, subtype: u16, family: Family) -> Sketch {
    bgp_message(code, subtype, family, 4, &[])
}

/// An UPDATE that withdraws 203.0.113.0/24 and says nothing else.
pub fn withdrawal(code: u16, subtype: u16, family: Family) -> Sketch {
    bgp_message(code, subtype, family, 2, &[0, 4, 24, 203, 0, 113, 0, 0])
}

/// How thoroughly a shape is cut short.
#[derive(Clone, Copy, PartialEq, Eq)]
pub enum Depth {
    /// Before and inside every field, one octet into it and one short of its end.
    Full,
    /// Once in every field.
    Each,
    /// In two fields picked by the generator.
    Few,
}

/// A layout, under the name that its files start with.
pub struct Shape {
    pub name: String,
    /// Records that have to stand before it.
    pub before: Vec<Vec<u8>>,
    pub sketch: Sketch,
    pub depth: Depth,
}

impl Shape {
    fn new(name: String, sketch: Sketch, depth: Depth) -> Shape {
        Shape { name, before: Vec::new(), sketch, depth }
    }

    fn after(mut self, table: &Sketch) -> Shape {
        self.before.push(table.record());
        self
    }

    /// Whether the end of the message is up to Length alone.
    pub fn is_unread(&self) -> bool {
        self.has("contents")
    }

    /// How many octets of the message are too few.
    pub fn sizes_too_short(&self) -> Range<usize> {
        let contents = self.is_unread().then(|| self.sketch.start_of("contents"));
        0..contents.unwrap_or(self.sketch.message().len())
    }

    /// The record with more behind it than it can hold: of a BGP message the length
    /// is wrong then.
    pub fn too_long(&self, extra: &[u8]) -> Slip {
        if self.has("bgp-length") {
            self.sketch.followed_by(extra).wrong(6, "bgp-length")
        } else {
            self.sketch.too_long(extra)
        }
    }

    fn has(&self, name: &str) -> bool {
        self.sketch.spans().iter().any(|span| span.name == name)
    }
}

/// Every layout of document 01.
pub fn all() -> Vec<Shape> {
    let mut shapes = unread_shapes();
    shapes.extend(table_shapes());
    shapes.extend(rib_shapes());
    shapes.extend(bgp4mp_shapes(16));
    shapes.extend(bgp4mp_shapes(17));
    shapes
}

fn unread_shapes() -> Vec<Shape> {
    [11, 32, 33, 48, 49]
        .map(|code| {
            let sketch = unread(code, 0, &[2, 1, 0, 44, 192, 0, 2, 1, 0, 0, 0, 0]);
            Shape::new(format!("{code}-0"), sketch, Depth::Full)
        })
        .into()
}

fn table_shapes() -> Vec<Shape> {
    vec![
        Shape::new("12-1-ipv4".into(), table_dump(Family::V4, &PATH), Depth::Full),
        Shape::new("12-2-ipv6".into(), table_dump(Family::V6, &EXTENDED_PATH), Depth::Full),
        Shape::new("13-1-named".into(), peer_table(b"rrc-9", &[0, 3]), Depth::Full),
        Shape::new("13-1-unnamed".into(), peer_table(b"", &[2, 1]), Depth::Each),
    ]
}

fn rib_shapes() -> Vec<Shape> {
    let table = peer_table(b"view", &[0, 3, 2]);
    let routes = [Route(2, &PATH), Route(0, &EXTENDED_PATH)];
    let v4 = [198, 51, 100];
    let v6 = [0x20, 0x01, 0x0d, 0xb8, 0x80];
    [
        ("13-2-ipv4", rib(2, 24, &v4, &routes), Depth::Full),
        ("13-3-ipv4", rib(3, 23, &v4, &routes), Depth::Few),
        ("13-4-ipv6", rib(4, 33, &v6, &routes), Depth::Each),
        ("13-5-ipv6", rib(5, 40, &v6, &routes), Depth::Few),
        ("13-6-ipv4", generic_rib(1, 1, 24, &v4, &routes), Depth::Full),
        ("13-6-ipv6", generic_rib(2, 2, 36, &v6, &routes), Depth::Each),
    ]
    .into_iter()
    .map(|(name, sketch, depth)| Shape::new(name.into(), sketch, depth).after(&table))
    .collect()
}

fn bgp4mp_shapes(code: u16) -> Vec<Shape> {
    let mut shapes = Vec::new();
    for family in FAMILIES {
        for subtype in STATE_CHANGES {
            shapes.push((subtype, family, state_change(code, subtype, family)));
        }
        for subtype in MESSAGES {
            shapes.push((subtype, family, withdrawal(code, subtype, family)));
        }
    }
    shapes
        .into_iter()
        .map(|(subtype, family, sketch)| {
            let name = format!("{code}-{subtype}-{}", family_name(family));
            Shape::new(name, sketch, bgp4mp_depth(code, subtype, family))
        })
        .collect()
}

fn bgp4mp_depth(code: u16, subtype: u16, family: Family) -> Depth {
    match (code, subtype, family) {
        (16, 0 | 1, Family::V4) | (16, 4, Family::V6) | (17, 0, Family::V4) => Depth::Full,
        (16, 5, Family::V6) | (17, 1, Family::V6) => Depth::Each,
        _ => Depth::Few,
    }
}

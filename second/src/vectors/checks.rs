//! Each field's own check, on both sides of its boundary.

use super::rng::Rng;
use super::shapes::{
    address, bgp_message, family_name, generic_rib, keepalive, peer_table, plain_table, rib,
    state_change, table_dump, unread, withdrawal, Route, EXTENDED_PATH, FAMILIES, MESSAGES, PATH,
    STATE_CHANGES,
};
use super::sketch::Sketch;
use super::slip::Slip;
use super::Suite;
use crate::net::Family::{self, V4, V6};

pub fn add(suite: &mut Suite) {
    types(suite);
    subtypes(suite);
    families(suite);
    safis(suite);
    states(suite);
    prefix_lengths(suite);
    prefix_octets(suite);
    attributes(suite);
    attribute_lengths(suite);
    bgp_lengths(suite);
    bgp_types(suite);
    microseconds(suite);
    short_microseconds(suite);
    peer_types(suite);
    view_names(suite);
}

fn types(suite: &mut Suite) {
    let record = state_change(16, 0, V4);
    let wrong = [0, 10, 14, 15, 18, 31, 34, 47, 50, 2816, 4096, 65_535];
    for code in wrong {
        suite.bad(format!("type-{code}-unknown"), &[], record.retyped(code, 0).wrong_type());
    }
}

fn subtypes(suite: &mut Suite) {
    let table = [plain_table(1).record()];
    for subtype in [0, 3, 257, 65_535] {
        let slip = table_dump(V4, &PATH).retyped(12, subtype).wrong_subtype(4);
        suite.bad(format!("12-{subtype}-unknown-subtype"), &[], slip);
    }
    for subtype in [0, 7, 8, 258] {
        let slip = rib(2, 0, &[], &[]).retyped(13, subtype).wrong_subtype(4);
        suite.bad(format!("13-{subtype}-unknown-subtype"), &table, slip);
    }
    for code in [16, 17] {
        for subtype in [2, 3, 8, 256] {
            let slip = state_change(code, 0, V4).retyped(code, subtype).wrong_subtype(4);
            suite.bad(format!("{code}-{subtype}-unknown-subtype"), &[], slip);
        }
    }
    for code in [11, 32, 33, 48, 49] {
        let records = [1, 2, 7, 256, 65_535].map(|subtype| unread(code, subtype, b"any").record());
        suite.good(format!("{code}-any-subtype"), &records);
        suite.good(format!("{code}-no-contents"), &[unread(code, 0, b"").record()]);
    }
}

fn families(suite: &mut Suite) {
    for code in [16, 17] {
        for subtype in STATE_CHANGES {
            let change = state_change(code, subtype, V4).set_n("family", 3);
            suite.bad(format!("{code}-{subtype}-family3"), &[], change.wrong(7, "family"));
        }
        for subtype in MESSAGES {
            let message = withdrawal(code, subtype, V6).set_n("family", 0);
            suite.bad(format!("{code}-{subtype}-family0"), &[], message.wrong(7, "family"));
        }
    }
    let table = [plain_table(1).record()];
    for family in [0, 3, 258] {
        let route = generic_rib(family, 1, 0, &[], &[]);
        suite.bad(format!("13-6-family{family}"), &table, route.wrong(7, "family"));
    }
    for family in [0, 256, 513, 65_535] {
        let change = state_change(16, 0, V4).set_n("family", family);
        suite.bad(format!("16-0-family{family}"), &[], change.wrong(7, "family"));
    }
}

fn safis(suite: &mut Suite) {
    let table = [plain_table(1).record()];
    let with = |family, safi| generic_rib(family, safi, 0, &[], &[]);
    for safi in [0, 3, 128] {
        suite.bad(format!("13-6-safi{safi}"), &table, with(1, safi).wrong(7, "safi"));
    }
    let good = [(1, 1), (1, 2), (2, 1), (2, 2)].map(|(family, safi)| with(family, safi).record());
    suite.good("13-6-families-and-safis", &[&table[..], &good].concat());
}

fn states(suite: &mut Suite) {
    for code in [16, 17] {
        for (subtype, family) in [(0, V4), (5, V6)] {
            let change = state_change(code, subtype, family);
            states_of(suite, &format!("{code}-{subtype}-{}", family_name(family)), &change);
        }
    }
    let change = state_change(16, 0, V4);
    suite.bad("16-0-ipv4-old259", &[], bad_state(&change, "old-state", 259));
    suite.bad("16-0-ipv4-new256", &[], bad_state(&change, "new-state", 256));
    suite.bad("16-0-ipv4-new65535", &[], bad_state(&change, "new-state", 65_535));
}

fn bad_state(change: &Sketch, field: &str, state: u64) -> Slip {
    change.set_n(field, state).wrong(9, field)
}

fn states_of(suite: &mut Suite, name: &str, change: &Sketch) {
    for state in [0, 7] {
        suite.bad(format!("{name}-old{state}"), &[], bad_state(change, "old-state", state));
        suite.bad(format!("{name}-new{state}"), &[], bad_state(change, "new-state", state));
    }
    let mut pairs = Vec::new();
    for old in 1..=6 {
        for new in 1..=6 {
            pairs.push(change.set_n("old-state", old).set_n("new-state", new).record());
        }
    }
    suite.good(format!("{name}-all-states"), &pairs);
}

/// The lengths to try that a family allows.
fn good_lengths(family: Family) -> Vec<u8> {
    let lengths = [0, 1, 7, 8, 9, 31, 32, 33, 127, 128];
    lengths.into_iter().filter(|bits| *bits <= family.bits()).collect()
}

/// The least length that a family forbids, for some layouts others too.
fn bad_lengths(name: &str, family: Family) -> Vec<u8> {
    match (name, family) {
        ("12-1-ipv4" | "13-2-ipv4", _) => vec![33, 127, 128, 129],
        ("12-2-ipv6" | "13-4-ipv6", _) => vec![129, 255],
        (_, V4) => vec![33],
        (_, V6) => vec![129],
    }
}

/// So many octets as the bits need, every bit set: none may be cleared.
fn ones(bits: u8) -> Vec<u8> {
    vec![0xff; usize::from(bits).div_ceil(8)]
}

/// RIB subtypes with the family that they hold.
fn rib_forms() -> Vec<(&'static str, Family, u16)> {
    vec![
        ("13-2-ipv4", V4, 2),
        ("13-3-ipv4", V4, 3),
        ("13-4-ipv6", V6, 4),
        ("13-5-ipv6", V6, 5),
        ("13-6-ipv4", V4, 6),
        ("13-6-ipv6", V6, 6),
    ]
}

fn rib_of(family: Family, subtype: u16, bits: u8, prefix: &[u8], routes: &[Route]) -> Sketch {
    match subtype {
        6 => generic_rib(family.code().into(), 1, bits, prefix, routes),
        _ => rib(subtype, bits, prefix, routes),
    }
}

fn prefix_lengths(suite: &mut Suite) {
    for family in FAMILIES {
        let name = format!("12-{}-{}", family.code(), family_name(family));
        let with = |bits: u8| table_dump(family, &PATH).set_n("prefix-length", bits.into());
        prefix_lengths_of(suite, &name, family, &[], with);
    }
    let table = [plain_table(2).record()];
    for (name, family, subtype) in rib_forms() {
        let routes = [Route(1, &PATH)];
        let with = |bits| rib_of(family, subtype, bits, &ones(bits), &routes);
        prefix_lengths_of(suite, name, family, &table, with);
    }
}

fn prefix_lengths_of(
    suite: &mut Suite,
    name: &str,
    family: Family,
    before: &[Vec<u8>],
    with: impl Fn(u8) -> Sketch,
) {
    let records: Vec<_> =
        good_lengths(family).into_iter().map(|bits| with(bits).record()).collect();
    suite.good(format!("{name}-prefix-lengths"), &[before, &records].concat());
    for bits in bad_lengths(name, family) {
        suite.bad(format!("{name}-prefix{bits}"), before, with(bits).wrong(8, "prefix-length"));
    }
}

/// A prefix with one octet too few or too many, in a record without entries: a
/// reader lacks the last octet of the count, or has one left behind it.
fn prefix_octets(suite: &mut Suite) {
    let table = [plain_table(1).record()];
    for (name, family, subtype) in rib_forms().into_iter().step_by(2) {
        let short = rib_of(family, subtype, 17, &[0; 3], &[]);
        let short = short.cut_short(short.message().len() - 1);
        let long = rib_of(family, subtype, 16, &[0; 2], &[]).too_long(&[0]);
        suite.bad(format!("{name}-prefix17-in-2-octets"), &table, short);
        suite.bad(format!("{name}-prefix16-in-3-octets"), &table, long);
    }
}

/// One attribute with a 2-octet length, and so many octets behind it.
fn extended(size: usize, there: usize) -> Vec<u8> {
    let mut octets = vec![0xd0, 32, (size >> 8) as u8, size as u8];
    octets.extend(vec![0xaa; there]);
    octets
}

fn tiling() -> Vec<Vec<u8>> {
    let mut longest_short = vec![0xc0, 32, 255];
    longest_short.extend([0xbb; 255]);
    vec![
        vec![],
        vec![0x40, 6, 0],
        vec![0x50, 6, 0, 0],
        extended(256, 256),
        longest_short,
        vec![0xff, 0xff, 0, 1, 9, 0xef, 0, 1, 9],
        vec![0; 9],
    ]
}

fn untiled() -> Vec<(&'static str, Vec<u8>)> {
    vec![
        ("flags-only", vec![0x40]),
        ("no-length", vec![0x40, 1]),
        ("one-short", vec![0x40, 1, 2, 0]),
        ("half-extended-length", vec![0x50, 2, 0]),
        ("extended-one-short", extended(256, 255)),
        ("second-cut", [&PATH[..], &[0x80, 4]].concat()),
        ("trailing-zero", vec![0x40, 1, 1, 0, 0]),
    ]
}

fn attributes(suite: &mut Suite) {
    let table = [plain_table(2).record()];
    let old = |octets: &[u8]| table_dump(V6, octets);
    let new = |octets: &[u8]| rib(2, 0, &[], &[Route(0, &EXTENDED_PATH), Route(1, octets)]);
    for (case, octets) in untiled() {
        let (old, new) = (old(&octets), new(&octets));
        suite.bad(format!("12-2-attributes-{case}"), &[], old.wrong(11, "attributes"));
        suite.bad(format!("13-2-attributes-{case}"), &table, new.wrong(11, "entry1-attributes"));
    }
    let good: Vec<_> = tiling().iter().map(|octets| old(octets).record()).collect();
    suite.good("12-2-attributes-that-tile", &good);
    let good: Vec<_> = tiling().iter().map(|octets| new(octets).record()).collect();
    suite.good("13-2-attributes-that-tile", &[&table[..], &good].concat());
    for (name, family, subtype) in rib_forms().into_iter().skip(1) {
        let routes = [Route(1, &[0x40, 1, 1]), Route(0, &PATH)];
        let slip = rib_of(family, subtype, 0, &[], &routes).wrong(11, "entry0-attributes");
        suite.bad(format!("{name}-attributes-one-short"), &table, slip);
        let routes = [Route(1, &[]), Route(0, &[0x40, 1, 1, 0]), Route(1, &EXTENDED_PATH)];
        let record = rib_of(family, subtype, 0, &[], &routes).record();
        suite.good(format!("{name}-attributes-of-three"), &[&table[..], &[record]].concat());
    }
}

/// The attribute length against the octets that follow it.
fn attribute_lengths(suite: &mut Suite) {
    let tile = [0x40, 1, 1, 0];
    let table = [plain_table(1).record()];
    let old = table_dump(V4, &tile);
    let new = rib(4, 0, &[], &[Route(0, &tile)]);
    for (size, fault) in [(0, 6), (3, 11), (4, 0), (5, 5), (65_535, 5)] {
        let record = old.set_n("attribute-length", size);
        let name = format!("12-1-attribute-length{size}-of-4");
        suite.one(name, &[], &record, (fault, "attributes"));
        let record = new.set_n("entry0-attribute-length", size);
        let name = format!("13-4-attribute-length{size}-of-4");
        suite.one(name, &table, &record, (fault, "entry0-attributes"));
    }
}

fn bgp_lengths(suite: &mut Suite) {
    for code in [16, 17] {
        for (subtype, family) in MESSAGES.into_iter().zip([V4, V6, V6, V4]) {
            let name = format!("{code}-{subtype}-{}", family_name(family));
            bgp_lengths_of(suite, &name, &keepalive(code, subtype, family));
        }
        long_messages(suite, code);
    }
    let alive = keepalive(16, 1, V4);
    for (length, fault) in [(0, 10), (256, 5), (4096, 5), (4097, 10), (4865, 10), (65_535, 10)] {
        let slip = alive.set_n("bgp-length", length).wrong(fault, "bgp-length");
        suite.bad(format!("16-1-ipv4-bgp-length{length}-of-19"), &[], slip);
    }
}

/// About the smallest size; good ones stand before the one that is not.
fn bgp_lengths_of(suite: &mut Suite, name: &str, alive: &Sketch) {
    let longer = alive.set("bgp-rest", &[0]);
    let good = [alive.record(), longer.set_n("bgp-length", 20).record()];
    for (length, fault) in [(18, 10), (20, 5)] {
        let slip = alive.set_n("bgp-length", length).wrong(fault, "bgp-length");
        suite.bad(format!("{name}-bgp-length{length}-of-19"), &good, slip);
    }
    suite.bad(format!("{name}-bgp-length19-of-20"), &good, longer.wrong(6, "bgp-length"));
}

/// Messages about the largest size, with more and fewer octets there.
fn long_messages(suite: &mut Suite, code: u16) {
    let cases = [
        (4095, 4095, 0),
        (4096, 4096, 0),
        (4097, 4097, 10),
        (4096, 4095, 5),
        (4096, 4097, 6),
        (4097, 4096, 10),
    ];
    for (length, there, fault) in cases {
        let record = bgp_message(code, 4, V6, 2, &vec![0x5a; there - 19]);
        let record = record.set_n("bgp-length", length);
        let name = format!("{code}-4-ipv6-bgp-length{length}-of-{there}");
        suite.one(name, &[], &record, (fault, "bgp-length"));
    }
}

/// The type of a BGP message and its marker are not judged.
fn bgp_types(suite: &mut Suite) {
    for code in [16, 17] {
        let alive = keepalive(code, 1, V4);
        let mut records: Vec<_> =
            [0, 1, 2, 3, 4, 5, 255].map(|kind| alive.set_n("bgp-type", kind).record()).into();
        records.push(alive.set("marker", &[0; 16]).record());
        suite.good(format!("{code}-1-ipv4-any-bgp-type-and-marker"), &records);
    }
}

fn microseconds(suite: &mut Suite) {
    let micros = [0, 1, 999_999, 1_000_000, 1_500_000, 4_294_967_295];
    for code in [33, 49] {
        let sketch = unread(code, 0, b"pdu").at(7);
        let records = micros.map(|micro| sketch.set_n("micro", micro).record());
        suite.good(format!("{code}-microseconds"), &records);
    }
    for subtype in STATE_CHANGES {
        let sketch = state_change(17, subtype, V6).at(1);
        let records = micros.map(|micro| sketch.set_n("micro", micro).record());
        suite.good(format!("17-{subtype}-ipv6-microseconds"), &records);
    }
    for subtype in MESSAGES {
        let sketch = withdrawal(17, subtype, V4).at(4_294_967_295);
        let records = micros.map(|micro| sketch.set_n("micro", micro).record());
        suite.good(format!("17-{subtype}-ipv4-microseconds"), &records);
    }
    let times = [0, 1, 2_147_483_647, 2_147_483_648, 4_294_967_295];
    let records = times.map(|time| unread(11, 0, b"lsa").at(time).record());
    suite.good("11-0-timestamps", &records);
}

/// Length 0 to 4 where the message must open with microseconds.
fn short_microseconds(suite: &mut Suite) {
    let micro = |code| Sketch::new(code, 0).n("micro", 4, 5);
    for code in [17, 33, 49] {
        let sketch = micro(code);
        for size in [0, 3] {
            suite.bad(format!("{code}-0-length{size}"), &[], sketch.cut_short(size));
        }
    }
    suite.bad("17-0-length4", &[], micro(17).lacking("peer AS"));
    suite.good("33-0-length4", &[micro(33).record()]);
    suite.good("49-0-length4", &[micro(49).record()]);
}

fn peer_types(suite: &mut Suite) {
    let every: Vec<u8> = (0..=255).collect();
    suite.good("13-1-every-peer-type", &[peer_table(b"", &every).record()]);
    for octet in [0, 1, 254, 255] {
        suite.bad(format!("13-1-peer-type{octet}-other-family"), &[], other_family(octet));
        suite.bad(format!("13-1-peer-type{octet}-other-as-width"), &[], other_as_width(octet));
    }
    // A reader lacks the last octet of the AS number.
    let whole = peer_table(b"", &[1]);
    let table = whole.set("peer0-address", &address(V6, 1)[..15]);
    let slip = Slip { octets: table.record(), ..whole.cut_short(whole.message().len() - 1) };
    suite.bad("13-1-address-one-short", &[], slip);
}

/// A peer whose type octet tells the other family.
fn other_family(octet: u8) -> Slip {
    let told = peer_table(b"x", &[octet]).set_n("peer0-type", u64::from(octet ^ 1));
    let width = if octet & 2 == 0 { 2 } else { 4 };
    match octet & 1 {
        0 => told.wrong(5, "peer0-address"),
        _ => told.left_after("peer0-address", 4 + width),
    }
}

/// A peer whose type octet tells the other size of an AS number.
fn other_as_width(octet: u8) -> Slip {
    let told = peer_table(b"x", &[octet]).set_n("peer0-type", u64::from(octet ^ 2));
    match octet & 2 {
        0 => told.wrong(5, "peer0-as"),
        _ => told.left_after("peer0-as", 2),
    }
}

fn view_names(suite: &mut Suite) {
    let mut rng = Rng::seeded(3629);
    let long = rng.octets(300);
    let text: Vec<u8> = long.iter().map(|octet| octet & 0x7f).collect();
    let names: [(&str, &[u8], u8); 6] = [
        ("ascii", b"main", 0),
        ("utf8", "Sicht \u{e9}\u{4e2d}\u{1f600}".as_bytes(), 0),
        ("zero-octet", &[0], 0),
        ("not-text", &[0xff, 0xc0, 0x80, 0xed, 0xa0, 0x80], 17),
        ("300-octets", &long, 17),
        ("300-octets-ascii", &text, 0),
    ];
    for (name, octets, fault) in names {
        let record = peer_table(octets, &[2, 3]);
        suite.one(format!("13-1-view-name-{name}"), &[], &record, (fault, "name"));
    }
    let long = peer_table(b"main", &[2]).set_n("name-length", 65_535);
    suite.bad("13-1-view-name-length65535", &[], long.wrong(5, "name"));
    // The name takes an octet of the count, or the count one of the name.
    let five = peer_table(b"main\0", &[]);
    let half_count = five.cut_short(five.message().len() - 1);
    suite.bad("13-1-view-name-length5-of-4", &[], half_count);
    let three = peer_table(&[0; 3], &[]);
    suite.bad("13-1-view-name-length3-of-4", &[], three.too_long(&[0]));
}

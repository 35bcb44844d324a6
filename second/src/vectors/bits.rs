//! Every upper bit of a field counts: a reader that drops one, or stops short of
//! a field's full width, takes these records for good ones. And dumps with
//! sizes, counts and indexes that need many bits.

use super::shapes::{
    generic_rib, keepalive, peer_table, plain_table, rib, state_change, table_dump, Route, PATH,
};
use super::slip::Slip;
use super::Suite;
use crate::net::Family::V4;
use std::ops::Range;

pub fn add(suite: &mut Suite) {
    kinds(suite);
    lengths(suite);
    checked_fields(suite);
    sizes_inside(suite);
    counts(suite);
    long_name(suite);
    many_peers(suite);
}

/// A good value of a field with each of these bits set, one at a time, refused.
fn each_bit(
    suite: &mut Suite,
    name: &str,
    before: &[Vec<u8>],
    (good, bits): (u64, Range<u32>),
    slip: impl Fn(u64) -> Slip,
) {
    for bit in bits.filter(|bit| good >> bit & 1 == 0) {
        suite.bad(format!("bits-{name}-{bit:02}"), before, slip(good | 1 << bit));
    }
}

fn kinds(suite: &mut Suite) {
    let change = state_change(16, 0, V4);
    // With bit 5 the type is 48, which is listed.
    each_bit(suite, "type", &[], (16, 6..16), |code| change.retyped(code as u16, 0).wrong_type());
    each_bit(suite, "16-subtype", &[], (0, 3..16), |subtype| {
        change.retyped(16, subtype as u16).wrong_subtype(4)
    });
    let route = table_dump(V4, &PATH);
    each_bit(suite, "12-subtype", &[], (1, 1..16), |subtype| {
        route.retyped(12, subtype as u16).wrong_subtype(4)
    });
    let table = plain_table(2);
    each_bit(suite, "13-subtype", &[], (1, 3..16), |subtype| {
        table.retyped(13, subtype as u16).wrong_subtype(4)
    });
}

fn lengths(suite: &mut Suite) {
    let change = state_change(16, 0, V4);
    each_bit(suite, "length", &[], (20, 5..32), |length| {
        Slip::whole(2, &change.claiming(length as u32))
    });
}

fn checked_fields(suite: &mut Suite) {
    let change = state_change(16, 0, V4);
    each_bit(suite, "16-family", &[], (1, 1..16), |value| {
        change.set_n("family", value).wrong(7, "family")
    });
    for state in ["old-state", "new-state"] {
        each_bit(suite, &format!("16-{state}"), &[], (3, 3..16), |value| {
            change.set_n(state, value).wrong(9, state)
        });
    }
    let message = keepalive(16, 1, V4);
    each_bit(suite, "16-bgp-length", &[], (19, 12..16), |value| {
        message.set_n("bgp-length", value).wrong(10, "bgp-length")
    });
    let before = [plain_table(1).record()];
    let generic = generic_rib(1, 1, 24, &[198, 51, 100], &[]);
    for (field, fault, good, bits) in
        [("family", 7, 1, 1..16), ("safi", 7, 1, 1..8), ("prefix-length", 8, 24, 5..8)]
    {
        each_bit(suite, &format!("13-6-{field}"), &before, (good, bits), |value| {
            generic.set_n(field, value).wrong(fault, field)
        });
    }
}

/// Sizes above what is there.
fn sizes_inside(suite: &mut Suite) {
    let size = PATH.len() as u64;
    let route = table_dump(V4, &PATH);
    each_bit(suite, "12-attribute-length", &[], (size, 5..16), |value| {
        route.set_n("attribute-length", value).wrong(5, "attributes")
    });
    let before = [plain_table(1).record()];
    let entry = rib(2, 0, &[], &[Route(0, &PATH)]);
    each_bit(suite, "13-2-attribute-length", &before, (size, 5..16), |value| {
        entry.set_n("entry0-attribute-length", value).wrong(5, "entry0-attributes")
    });
    let named = peer_table(b"desk", &[0]);
    each_bit(suite, "13-1-name-length", &[], (4, 4..16), |value| {
        named.set_n("name-length", value).wrong(5, "name")
    });
    each_bit(suite, "12-extended-length", &[], (0, 0..16), |value| {
        let [high, low] = (value as u16).to_be_bytes();
        table_dump(V4, &[0x50, 2, high, low]).wrong(11, "attributes")
    });
}

/// Counts and indexes above what is there.
fn counts(suite: &mut Suite) {
    let table = plain_table(2);
    each_bit(suite, "13-1-peer-count", &[], (2, 2..16), |count| {
        table.set_n("peer-count", count).lacking("peer type")
    });
    let before = [table.record()];
    let entries = rib(4, 0, &[], &[Route(1, &[]), Route(0, &[])]);
    each_bit(suite, "13-4-entry-count", &before, (2, 2..16), |count| {
        entries.set_n("entry-count", count).lacking("peer index")
    });
    each_bit(suite, "13-4-index", &before, (1, 1..16), |index| {
        entries.set_n("entry0-index", index).wrong(13, "entry0-index")
    });
}

/// A name whose length needs all 16 bits.
fn long_name(suite: &mut Suite) {
    let table = peer_table(&[0x2e; 32_768], &[2, 3]).record();
    let good = rib(2, 0, &[], &[Route(1, &PATH)]).record();
    let faulty = rib(2, 0, &[], &[Route(2, &PATH)]).wrong(13, "entry0-index");
    suite.bad("13-1-view-name-32768-octets", &[table, good], faulty);
}

/// Tables of many peers, an entry for each (or for the last), then one for a
/// peer past the last.
fn many_peers(suite: &mut Suite) {
    let table = |peers: usize| peer_table(b"", &vec![0; peers]).record();
    let routes: Vec<_> = (0..600).map(|index| Route(index, &[])).collect();
    let all = rib(3, 0, &[], &routes).record();
    let faulty = rib(3, 0, &[], &[Route(600, &[])]).wrong(13, "entry0-index");
    suite.bad("13-3-600-entries-of-600", &[table(600), all], faulty);
    let last = rib(3, 0, &[], &[Route(4_999, &[])]).record();
    let faulty = rib(3, 0, &[], &[Route(5_000, &[])]).wrong(13, "entry0-index");
    suite.bad("13-3-index5000-of-5000", &[table(5_000), last], faulty);
}

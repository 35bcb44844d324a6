//! Where in a record a fault lies: fields that are missing before another record,
//! octets left over before one, and faults deep in a record.

use super::places::one_of_each;
use super::shapes::{
    generic_rib, keepalive, peer_table, plain_table, rib, state_change, table_dump, unread,
    withdrawal, Route, EXTENDED_PATH, PATH,
};
use super::sketch::Sketch;
use super::slip::Slip;
use super::Suite;
use crate::net::Family::{V4, V6};

pub fn add(suite: &mut Suite) {
    missing(suite);
    left_over(suite);
    attributes(suite);
    indexes(suite);
    names(suite);
    fourth_records(suite);
}

/// A record that could be taken for the field that is missing.
fn behind() -> Vec<u8> {
    state_change(16, 0, V4).at(1).record()
}

/// Nothing of the named field is there, so that it would lie in the next record.
fn missing(suite: &mut Suite) {
    let table = plain_table(2).record();
    let routes = [Route(1, &PATH), Route(0, &EXTENDED_PATH)];
    let old = ["view", "prefix-length", "attribute-length", "attributes"];
    let peers = ["collector", "name", "peer-count", "peer0-type", "peer1-id", "peer1-as"];
    let first = ["sequence", "prefix", "entry-count", "entry0-index"];
    let second = ["entry1-index", "entry1-originated", "entry1-attributes"];
    let message = ["marker", "bgp-length", "bgp-type", "bgp-rest"];
    let before = [table];
    missing_of(suite, "12-1", &[], &table_dump(V4, &PATH), &old);
    missing_of(suite, "13-1", &[], &peer_table(b"view", &[3, 2]), &peers);
    missing_of(suite, "13-2", &before, &rib(2, 24, &[198, 51, 100], &routes), &first);
    missing_of(suite, "13-5", &before, &rib(5, 0, &[], &routes), &second);
    missing_of(suite, "13-6", &before, &generic_rib(2, 1, 0, &[], &[]), &["family", "safi"]);
    missing_of(suite, "16-1", &[], &withdrawal(16, 1, V4), &message);
    missing_of(suite, "17-5", &[], &state_change(17, 5, V6), &["micro", "peer-as", "new-state"]);
    missing_of(suite, "33-0", &[], &unread(33, 0, b"pdu"), &["micro"]);
}

fn missing_of(suite: &mut Suite, kind: &str, before: &[Vec<u8>], whole: &Sketch, fields: &[&str]) {
    for field in fields {
        let slip = whole.cut_short(whole.start_of(field)).then(&behind());
        suite.bad(format!("missing-{kind}-{field}"), before, slip);
    }
}

/// Octets behind the last field, peer and entry, with another record behind them.
fn left_over(suite: &mut Suite) {
    let table = [plain_table(2).record()];
    let mut add = |name: &str, before: &[Vec<u8>], slip: Slip| {
        suite.bad(format!("left-{name}"), before, slip.then(&behind()));
    };
    let extra = [0, 0, 1];
    add("12-2-after-attributes", &[], table_dump(V6, &PATH).too_long(&extra));
    add("13-1-after-count", &[], peer_table(b"view", &[]).too_long(&extra));
    add("13-1-after-peers", &[], peer_table(b"view", &[1, 2]).too_long(&extra));
    add("13-3-after-count", &table, rib(3, 9, &[10, 0], &[]).too_long(&extra));
    let routes = [Route(0, &PATH), Route(1, &[])];
    add("13-6-after-entries", &table, generic_rib(1, 1, 0, &[], &routes).too_long(&extra));
    add("16-5-after-states", &[], state_change(16, 5, V6).too_long(&extra));
    add("17-0-after-states", &table, state_change(17, 0, V4).too_long(&extra));
    let longer = keepalive(17, 7, V6).followed_by(&extra);
    add("17-7-after-message", &table, longer.wrong(6, "bgp-length"));
}

/// Attributes that are good up to their last: the place is that of the first.
fn attributes(suite: &mut Suite) {
    let table = [plain_table(2).record()];
    let untiled = [&PATH[..], &EXTENDED_PATH, &[0x40, 5, 4, 0, 0, 0]].concat();
    let old = |family| table_dump(family, &untiled).wrong(11, "attributes");
    suite.bad("12-1-attributes-fifth-short", &[], old(V4));
    suite.bad("12-2-attributes-fifth-short-later", &table, old(V6).then(&behind()));
    let good = [Route(0, &PATH), Route(1, &[]), Route(0, &EXTENDED_PATH)];
    for (number, place) in ["first", "second", "third"].into_iter().enumerate() {
        let mut routes = good;
        routes[number].1 = &untiled;
        let field = format!("entry{number}-attributes");
        let plain = rib(4, 33, &[0; 5], &routes).wrong(11, &field);
        suite.bad(format!("13-4-attributes-fifth-short-{place}"), &table, plain);
        let generic = generic_rib(1, 2, 8, &[10], &routes).wrong(11, &field);
        suite.bad(format!("13-6-attributes-fifth-short-{place}"), &table, generic);
    }
}

/// The entry of a peer that is not there: the first of three, the second, the third.
fn indexes(suite: &mut Suite) {
    let table = [plain_table(2).record()];
    let routes = [Route(0, &PATH), Route(1, &[]), Route(0, &EXTENDED_PATH)];
    let plain = rib(2, 9, &[10, 128], &routes);
    let generic = generic_rib(2, 1, 0, &[], &routes);
    for (number, place) in ["first", "second", "third"].into_iter().enumerate() {
        let field = format!("entry{number}-index");
        let slip = |whole: &Sketch| whole.set_n(&field, 2).wrong(13, &field);
        suite.bad(format!("13-2-index-of-{place}"), &table, slip(&plain));
        suite.bad(format!("13-6-index-of-{place}"), &table, slip(&generic).then(&behind()));
    }
}

/// A name that is text up to its last octet: the place is that of the first.
fn names(suite: &mut Suite) {
    let table = peer_table(b"a name that ends in \xff", &[0, 3]).wrong(17, "name");
    suite.bad("name-last-octet-alone", &[], table.clone());
    suite.bad("name-last-octet-later", &[behind(), plain_table(1).record()], table);
}

/// Every fault once behind records with microseconds.
fn fourth_records(suite: &mut Suite) {
    let timed = [state_change(17, 0, V6).record(), unread(49, 3, b"lsa").record()];
    for slip in one_of_each() {
        let third = match slip.fault {
            12 => withdrawal(17, 7, V4).record(),
            _ => plain_table(2).record(),
        };
        let before = [&timed[..], &[third]].concat();
        suite.bad(format!("fourth-record-fault{}", slip.fault), &before, slip);
    }
}

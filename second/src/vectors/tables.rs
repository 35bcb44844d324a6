//! Peer tables, the one in force, counts and indexes.

use super::shapes::{
    generic_rib, keepalive, peer_table, plain_table, rib, state_change, table_dump, unread, Route,
    EXTENDED_PATH, PATH,
};
use super::sketch::Sketch;
use super::slip::Slip;
use super::Suite;
use crate::net::Family::{V4, V6};

pub fn add(suite: &mut Suite) {
    missing(suite);
    counts(suite);
    indexes(suite);
    replaced(suite);
    between(suite);
    many_entries(suite);
}

fn route_of(subtype: u16, index: u16) -> Sketch {
    let routes = [Route(index, &PATH)];
    match subtype {
        6 => generic_rib(2, 1, 0, &[], &routes),
        _ => rib(subtype, 0, &[], &routes),
    }
}

fn empty_rib(subtype: u16) -> Sketch {
    match subtype {
        6 => generic_rib(1, 2, 0, &[], &[]),
        _ => rib(subtype, 0, &[], &[]),
    }
}

/// A route of a peer that the table in force does not have.
fn stranger(subtype: u16, index: u16) -> Slip {
    route_of(subtype, index).wrong(13, "entry0-index")
}

fn missing(suite: &mut Suite) {
    for subtype in 2..=6 {
        let (route, empty) = (route_of(subtype, 0), empty_rib(subtype));
        suite.bad(format!("13-{subtype}-no-table"), &[], route.wrong_subtype(12));
        suite.bad(format!("13-{subtype}-no-table-no-entries"), &[], empty.wrong_subtype(12));
    }
    let others = [keepalive(16, 1, V4).record(), table_dump(V4, &PATH).record()];
    let route = route_of(2, 0).wrong_subtype(12);
    suite.bad("13-2-no-table-after-others", &others, route.clone());
    suite.bad("13-2-table-only-afterwards", &[], route.then(&plain_table(1).record()));
}

/// Peer and entry counts that do not fit what follows.
fn counts(suite: &mut Suite) {
    let table = peer_table(b"abc", &[0, 1, 2, 3]);
    let counted = |count| table.set_n("peer-count", count);
    let name = |count| format!("13-1-peer-count{count}-of-4");
    suite.bad(name(0), &[], counted(0).wrong(6, "peer0-type"));
    suite.bad(name(3), &[], counted(3).wrong(6, "peer3-type"));
    suite.good(name(4), &[counted(4).record()]);
    for count in [5, 65_535] {
        suite.bad(name(count), &[], counted(count).lacking("peer type"));
    }
    entry_counts(suite);
}

fn entry_counts(suite: &mut Suite) {
    let before = [plain_table(1).record()];
    for subtype in [2, 5] {
        let record = rib(subtype, 0, &[], &[Route(0, &PATH), Route(0, &[])]);
        let counted = |count| record.set_n("entry-count", count);
        let name = |count| format!("13-{subtype}-entry-count{count}-of-2");
        suite.bad(name(0), &before, counted(0).wrong(6, "entry0-index"));
        suite.bad(name(1), &before, counted(1).wrong(6, "entry1-index"));
        suite.good(name(2), &[&before[..], &[counted(2).record()]].concat());
        suite.bad(name(3), &before, counted(3).lacking("peer index"));
        suite.bad(name(65_535), &before, counted(65_535).lacking("peer index"));
    }
}

fn indexes(suite: &mut Suite) {
    for peers in [0_usize, 1, 256, 300] {
        let before = [plain_table(peers).record()];
        for index in tried(peers) {
            let fault = if usize::from(index) < peers { 0 } else { 13 };
            let name = format!("13-4-index{index}-of-{peers}");
            suite.one(name, &before, &route_of(4, index), (fault, "entry0-index"));
        }
    }
    let before = [plain_table(2).record()];
    for subtype in 2..=6 {
        let before = [&before[..], &[route_of(subtype, 1).record()]].concat();
        suite.bad(format!("13-{subtype}-index2-of-2"), &before, stranger(subtype, 2));
    }
    let no_peers = [plain_table(0), empty_rib(2), empty_rib(6)].map(|sketch| sketch.record());
    suite.good("13-2-no-peers-no-entries", &no_peers);
    let second = rib(3, 0, &[], &[Route(1, &PATH), Route(2, &[])]);
    suite.bad("13-3-second-entry-index2-of-2", &before, second.wrong(13, "entry1-index"));
}

/// The indexes about the boundary of a table of so many peers.
fn tried(peers: usize) -> Vec<u16> {
    let peers = peers as u16;
    let mut indexes = vec![peers, 65_535];
    if peers > 0 {
        indexes.push(peers - 1);
    }
    indexes
}

fn replaced(suite: &mut Suite) {
    let table = |peers| plain_table(peers).record();
    let route = |index| route_of(2, index).record();
    let smaller = [table(3), route(2), table(2)];
    suite.bad("tables-smaller-replaces", &smaller, stranger(2, 2));
    suite.good("tables-smaller-enough", &[&smaller[..], &[route(1)]].concat());
    let larger = [table(1), table(3), route(2)];
    suite.good("tables-larger-replaces", &larger);
    suite.bad("tables-empty-replaces", &[table(3), table(0)], stranger(5, 0));
    let no_entries = empty_rib(5).record();
    suite.good("tables-empty-replaces-no-entries", &[table(3), table(0), no_entries]);
    let broken = plain_table(2).too_long(&[9]).then(&route(0));
    suite.bad("tables-second-broken", &[table(1)], broken);
}

/// Whatever stands between, the table stays in force.
fn between(suite: &mut Suite) {
    let strays = [
        ("11", unread(11, 0, b"lsa").record()),
        ("12", table_dump(V6, &EXTENDED_PATH).record()),
        ("16", keepalive(16, 4, V6).record()),
        ("17", state_change(17, 5, V6).record()),
        ("33", unread(33, 0, b"pdu").record()),
        ("49", unread(49, 0, b"lsa").record()),
    ];
    for (name, stray) in &strays {
        let before = [plain_table(2).record(), stray.clone()];
        suite.bad(format!("between-type-{name}-index2-of-2"), &before, stranger(4, 2));
    }
    let mut all = vec![plain_table(2).record()];
    for (_, stray) in strays {
        all.push(stray);
        all.push(route_of(2, 1).record());
    }
    suite.good("between-all-types", &all);
}

fn many_entries(suite: &mut Suite) {
    let routes: Vec<_> = (0..300).map(|index| Route(index, &[])).collect();
    let record = rib(2, 8, &[10], &routes);
    suite.good("13-2-300-entries-of-300", &[plain_table(300).record(), record.record()]);
    let before = [plain_table(299).record()];
    suite.bad("13-2-300-entries-of-299", &before, record.wrong(13, "entry299-index"));
}

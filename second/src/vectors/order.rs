//! Two faults in one record: the earlier check has to win.

use super::shapes::{
    generic_rib, keepalive, peer_table, plain_table, rib, state_change, table_dump, unread, Route,
    PATH,
};
use super::slip::Slip;
use super::Suite;
use crate::net::Family::{V4, V6};

/// Octets that no attributes tile.
const UNTILED: [u8; 3] = [0x40, 1, 1];

pub fn add(suite: &mut Suite) {
    headers(suite);
    missing_table(suite);
    bgp4mp(suite);
    bgp_messages(suite);
    table_dumps(suite);
    ribs(suite);
}

fn headers(suite: &mut Suite) {
    let change = state_change(16, 0, V4);
    let typed = |code, subtype| change.retyped(code, subtype);
    let longer = |octets: &[u8]| Slip::whole(2, octets);
    suite.bad("order-2-before-3", &[], longer(&typed(99, 0).claiming(21)));
    suite.bad("order-2-before-4", &[], longer(&typed(16, 3).claiming(21)));
    suite.bad("order-2-before-5", &[], longer(&change.claiming(u32::MAX)[..20]));
    suite.bad("order-2-before-9", &[], longer(&change.set_n("new-state", 9).claiming(21)));
    suite.bad("order-2-before-12", &[], longer(&rib(2, 0, &[], &[]).claiming(8)));
    suite.bad("order-2-unread", &[], longer(&unread(11, 0, b"lsa").claiming(4)));
    suite.bad("order-3-before-5-no-message", &[], typed(15, 0).ending_at(0).wrong_type());
    suite.bad("order-3-before-4", &[], typed(14, 99).wrong_type());
    suite.bad("order-4-before-5-no-message", &[], typed(16, 2).ending_at(0).wrong_subtype(4));
    suite.bad("order-4-before-5-type-17", &[], typed(17, 2).ending_at(3).wrong_subtype(4));
    suite.bad("order-4-before-6", &[], typed(12, 3).wrong_subtype(4));
    suite.bad("order-4-before-12-subtype-0", &[], typed(13, 0).wrong_subtype(4));
    suite.bad("order-4-before-12-subtype-7", &[], typed(13, 7).wrong_subtype(4));
}

fn missing_table(suite: &mut Suite) {
    let route = rib(2, 33, &[0; 5], &[Route(9, &UNTILED)]);
    suite.bad("order-12-before-5", &[], route.ending_at(0).wrong_subtype(12));
    let longer = rib(4, 0, &[], &[]).followed_by(&[0]);
    suite.bad("order-12-before-6", &[], longer.wrong_subtype(12));
    let stranger = generic_rib(9, 9, 0, &[], &[]);
    suite.bad("order-12-before-7", &[], stranger.wrong_subtype(12));
    suite.bad("order-12-before-8", &[], route.wrong_subtype(12));
}

fn bgp4mp(suite: &mut Suite) {
    let change = state_change(16, 0, V4);
    let stranger = change.set_n("family", 3);
    let no_addresses = stranger.up_to("family");
    suite.bad("order-7-before-5", &[], no_addresses.wrong(7, "family"));
    let longer = stranger.followed_by(&[0; 40]);
    suite.bad("order-7-before-6", &[], longer.wrong(7, "family"));
    let bad_state = stranger.set_n("old-state", 0);
    suite.bad("order-7-before-9", &[], bad_state.wrong(7, "family"));
    suite.bad("order-5-before-7", &[], stranger.cut_short(7));
    let timed = state_change(17, 5, V6).set_n("family", 0);
    suite.bad("order-5-before-7-type-17", &[], timed.cut_short(15));
    suite.bad("order-7-before-5-type-17", &[], timed.ending_at(16).wrong(7, "family"));
    states(suite);
}

fn states(suite: &mut Suite) {
    let change = state_change(16, 0, V4);
    let old = change.set_n("old-state", 7);
    let no_new = old.up_to("old-state");
    suite.bad("order-9-before-5", &[], no_new.wrong(9, "old-state"));
    suite.bad("order-5-before-9-old", &[], old.cut_short(17));
    suite.bad("order-9-before-5-half-new", &[], old.ending_at(19).wrong(9, "old-state"));
    let new = change.set_n("new-state", 7);
    suite.bad("order-9-before-6", &[], new.followed_by(&[1]).wrong(9, "new-state"));
    suite.bad("order-5-before-9-new", &[], new.cut_short(19));
}

fn bgp_messages(suite: &mut Suite) {
    for (code, family) in [(16, V4), (17, V6)] {
        let alive = keepalive(code, 4, family);
        let whole = alive.message().len();
        let name = |what| format!("order-type-{code}-{what}");
        let small = alive.set_n("bgp-length", 18);
        suite.bad(name("5-before-10"), &[], small.cut_short(whole - 1));
        let longer = small.followed_by(&[0; 9]);
        suite.bad(name("10-before-6"), &[], longer.wrong(10, "bgp-length"));
        let large = alive.set_n("bgp-length", 4097);
        suite.bad(name("10-before-5"), &[], large.wrong(10, "bgp-length"));
        suite.bad(name("5-before-10-large"), &[], large.cut_short(whole - 1));
        let stranger = small.set_n("family", 5);
        suite.bad(name("7-before-10"), &[], stranger.wrong(7, "family"));
    }
}

fn table_dumps(suite: &mut Suite) {
    let route = table_dump(V4, &UNTILED);
    let wide = route.set_n("prefix-length", 33);
    let no_status = wide.up_to("prefix-length");
    suite.bad("order-type-12-8-before-5", &[], no_status.wrong(8, "prefix-length"));
    suite.bad("order-type-12-8-before-11", &[], wide.wrong(8, "prefix-length"));
    suite.bad("order-type-12-5-before-8", &[], wide.up_to("prefix").lacking("prefix length"));
    let more = route.followed_by(&[0]);
    suite.bad("order-type-12-11-before-6", &[], more.wrong(11, "attributes"));
    let longer = route.set_n("attribute-length", 4);
    suite.bad("order-type-12-5-before-11", &[], longer.wrong(5, "attributes"));
    let name = peer_table(b"name", &[0, 1]).set_n("peer-count", 3);
    suite.bad("order-type-13-1-5-before-6", &[], name.lacking("peer type"));
}

fn ribs(suite: &mut Suite) {
    let table = [plain_table(2).record()];
    let wide = rib(2, 33, &[0; 5], &[Route(2, &UNTILED)]);
    let no_prefix = wide.up_to("prefix-length");
    suite.bad("order-rib-8-before-5", &table, no_prefix.wrong(8, "prefix-length"));
    suite.bad("order-rib-8-before-13", &table, wide.wrong(8, "prefix-length"));
    suite.bad("order-rib-5-before-8", &table, wide.cut_short(4));
    let route = rib(4, 9, &[0, 0], &[Route(2, &UNTILED)]);
    let only_index = route.up_to("entry0-index");
    suite.bad("order-rib-13-before-5", &table, only_index.wrong(13, "entry0-index"));
    suite.bad("order-rib-5-before-13", &table, route.cut_short(10));
    suite.bad("order-rib-13-before-11", &table, route.wrong(13, "entry0-index"));
    let longer = route.followed_by(&[0]);
    suite.bad("order-rib-13-before-6", &table, longer.wrong(13, "entry0-index"));
    rib_attributes(suite, &table);
    generic_ribs(suite, &table);
}

fn rib_attributes(suite: &mut Suite, table: &[Vec<u8>]) {
    let untiled = "entry0-attributes";
    let first = rib(4, 9, &[0, 0], &[Route(1, &UNTILED), Route(2, &PATH)]);
    suite.bad("order-rib-11-before-13", table, first.wrong(11, untiled));
    suite.bad("order-rib-11-before-5", table, first.up_to(untiled).wrong(11, untiled));
    let last = rib(4, 9, &[0, 0], &[Route(1, &UNTILED)]);
    suite.bad("order-rib-11-before-6", table, last.followed_by(&[0]).wrong(11, untiled));
    let longer = last.set_n("entry0-attribute-length", 4);
    suite.bad("order-rib-5-before-11", table, longer.wrong(5, untiled));
}

fn generic_ribs(suite: &mut Suite, table: &[Vec<u8>]) {
    let odd = generic_rib(1, 3, 200, &[0; 25], &[Route(9, &UNTILED)]);
    suite.bad("order-generic-7-before-8", table, odd.wrong(7, "safi"));
    suite.bad("order-generic-7-before-5-safi", table, odd.up_to("safi").wrong(7, "safi"));
    let stranger = odd.set_n("family", 4);
    let no_safi = stranger.up_to("family");
    suite.bad("order-generic-7-before-5-family", table, no_safi.wrong(7, "family"));
    suite.bad("order-generic-5-before-7-family", table, stranger.cut_short(5));
    suite.bad("order-generic-5-before-7-safi", table, odd.cut_short(6));
    let wide = odd.set_n("safi", 2);
    suite.bad("order-generic-8-before-13", table, wide.wrong(8, "prefix-length"));
}

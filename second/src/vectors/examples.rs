//! Document 01's examples, those that are proved too, as dumps.

use super::shapes::{bgp_message, peer_table};
use super::shapes::{keepalive, plain_table, rib, state_change, table_dump, Route};
use super::sketch::Sketch;
use super::slip::Slip;
use super::Suite;
use crate::net::Family::V4;

pub fn add(suite: &mut Suite) {
    smallest(suite);
    state_changes(suite);
    times(suite);
    attributes(suite);
    indexes(suite);
    prefixes(suite);
    bgp_lengths(suite);
    cut(suite);
}

fn smallest(suite: &mut Suite) {
    suite.good("example-empty", &[]);
    suite.bad("example-11-zero-octets", &[], Slip::whole(1, &[0; 11]));
    suite.bad("example-12-zero-octets", &[], Sketch::new(0, 0).at(0).wrong_type());
    let route = rib(2, 0, &[], &[]);
    suite.bad("example-rib-no-entries-no-table", &[], route.wrong_subtype(12));
}

fn state_changes(suite: &mut Suite) {
    let change = state_change(16, 0, V4).at(1);
    suite.good("example-state-change", &[change.record()]);
    let seven = change.set_n("new-state", 7).wrong(9, "new-state");
    suite.bad("example-state-change-new-7", &[], seven);
    suite.good("example-state-change-new-6", &[change.set_n("new-state", 6).record()]);
    let short = change.cut_short(19);
    suite.bad("example-state-change-length-19", &[], short.clone());
    let one_behind = Slip { octets: change.claiming(19), ..short };
    suite.bad("example-state-change-length-19-of-20-there", &[], one_behind);
    suite.bad("example-state-change-length-21-of-21-there", &[], change.too_long(&[0]));
    let past_end = Slip::whole(2, &change.claiming(21));
    suite.bad("example-state-change-length-21-of-20-there", &[], past_end);
}

fn times(suite: &mut Suite) {
    let change = state_change(17, 0, V4).at(1).set_n("micro", 1_500_000);
    suite.good("example-time-2500000", &[change.record()]);
    let latest = change.at(u32::MAX).set_n("micro", u32::MAX.into());
    suite.good("example-time-largest", &[latest.record()]);
}

fn attributes(suite: &mut Suite) {
    let table = [plain_table(1).record()];
    let cases: [(&str, &[u8], u8); 4] = [
        ("none", &[], 0),
        ("40-01-01-00", &[0x40, 1, 1, 0], 0),
        ("40-01-01", &[0x40, 1, 1], 11),
        ("50-02-00", &[0x50, 2, 0], 11),
    ];
    for (name, octets, fault) in cases {
        let old = table_dump(V4, octets);
        let new = rib(2, 0, &[], &[Route(0, octets)]);
        let name = format!("example-attributes-{name}-type");
        suite.one(format!("{name}-12"), &[], &old, (fault, "attributes"));
        suite.one(format!("{name}-13"), &table, &new, (fault, "entry0-attributes"));
    }
}

fn indexes(suite: &mut Suite) {
    let table = [plain_table(2).record()];
    for (index, fault) in [(0, 0), (1, 0), (2, 13)] {
        let record = rib(2, 0, &[], &[Route(index, &[])]);
        let name = format!("example-two-peers-index-{index}");
        suite.one(name, &table, &record, (fault, "entry0-index"));
    }
}

fn prefixes(suite: &mut Suite) {
    let table = [plain_table(1).record()];
    let with = |bits, octets: &[u8]| rib(2, bits, octets, &[]);
    let good = |record: Sketch| [&table[..], &[record.record()]].concat();
    suite.good("example-prefix-9-in-2-octets", &good(with(9, &[10, 128])));
    // The prefix takes an octet of the count, or the count one of the prefix.
    let half_count = with(9, &[10, 0]).cut_short(4 + 1 + 2 + 1);
    suite.bad("example-prefix-9-in-1-octet", &table, half_count);
    suite.bad("example-prefix-9-in-3-octets", &table, with(9, &[0, 0]).too_long(&[0]));
    suite.good("example-prefix-32", &good(with(32, &[192, 0, 2, 1])));
    let wide = with(33, &[192, 0, 2, 1, 0]);
    suite.bad("example-prefix-33", &table, wide.wrong(8, "prefix-length"));
}

fn bgp_lengths(suite: &mut Suite) {
    let alive = keepalive(16, 1, V4);
    let long = |size: usize| bgp_message(16, 1, V4, 2, &vec![0; size - 19]);
    suite.good("example-bgp-length-19-keepalive", &[alive.record()]);
    let shorter = alive.set_n("bgp-length", 18);
    suite.bad("example-bgp-length-18", &[], shorter.wrong(10, "bgp-length"));
    suite.good("example-bgp-length-4096", &[long(4096).record()]);
    suite.bad("example-bgp-length-4097", &[], long(4097).wrong(10, "bgp-length"));
}

/// Before and after the muting of AS 20, and the dump of an empty window.
fn cut(suite: &mut Suite) {
    let routes = [Route(0, &[]), Route(1, &[]), Route(2, &[])];
    let record = |routes: &[Route]| rib(2, 0, &[], routes).at(5).record();
    let all = three_peers();
    let kept = plain_table(2).at(3).set_n("peer0-as", 10).set_n("peer1-as", 30);
    suite.good("example-cut-before", &[all.record(), record(&routes)]);
    suite.good("example-cut-after-muting-20", &[kept.record(), record(&routes[..2])]);
    suite.good("example-cut-only-tables", &[all.record()]);
}

fn three_peers() -> Sketch {
    peer_table(b"", &[2, 2, 2])
        .at(3)
        .set_n("peer0-as", 10)
        .set_n("peer1-as", 20)
        .set_n("peer2-as", 30)
}

//! Where a fault lies: after other records, at the end, at the size limit.

use super::rng::Rng;
use super::shapes::{
    bgp_message, generic_rib, keepalive, peer_table, plain_table, rib, state_change, table_dump,
    unread, withdrawal, Route, PATH,
};
use super::slip::Slip;
use super::Suite;
use crate::net::Family::{V4, V6};

pub fn add(suite: &mut Suite) {
    short_files(suite);
    later_records(suite);
    first_fault_wins(suite);
    size_limit(suite);
}

/// Files of 1 to 11 octets, and as many behind a good record.
fn short_files(suite: &mut Suite) {
    let record = withdrawal(17, 4, V4).record();
    for size in 1..=11 {
        suite.bad(format!("short-{size}-octets"), &[], Slip::whole(1, &record[..size]));
    }
    for size in [1, 4, 11] {
        let name = format!("short-{size}-octets-second");
        suite.bad(name, std::slice::from_ref(&record), Slip::whole(1, &vec![0xff; size]));
    }
    let change = state_change(16, 0, V4);
    suite.bad("short-header-only-length-20", &[], Slip::whole(2, &change.record()[..12]));
    suite.good("short-header-only-length-0", &[unread(32, 9, b"").record()]);
    suite.bad("short-header-only-length-0-type-16", &[], change.cut_short(0));
}

/// Every fault once in a second and once in a third record.
fn later_records(suite: &mut Suite) {
    let table = plain_table(2).record();
    let third = [withdrawal(16, 7, V6).record(), table.clone()];
    for slip in one_of_each() {
        let fault = slip.fault;
        let second = match fault {
            12 => vec![keepalive(17, 6, V4).record()],
            _ => vec![table.clone()],
        };
        suite.bad(format!("second-record-fault{fault}"), &second, slip.clone());
        if fault != 12 {
            suite.bad(format!("third-record-fault{fault}"), &third, slip);
        }
    }
    let no_table = [third[0].clone(), unread(48, 1, b"lsa").record()];
    let route = generic_rib(2, 1, 0, &[], &[]);
    suite.bad("third-record-fault12", &no_table, route.wrong_subtype(12));
}

pub fn one_of_each() -> Vec<Slip> {
    let change = state_change(17, 5, V6);
    vec![
        Slip::whole(1, &change.record()[..7]),
        Slip::whole(2, &change.claiming(1000)),
        change.retyped(7, 1).wrong_type(),
        change.retyped(17, 2).wrong_subtype(4),
        change.cut_short(30),
        change.too_long(&[0, 0]),
        generic_rib(1, 5, 0, &[], &[]).wrong(7, "safi"),
        table_dump(V6, &PATH).set_n("prefix-length", 129).wrong(8, "prefix-length"),
        change.set_n("old-state", 0).wrong(9, "old-state"),
        keepalive(16, 6, V4).set_n("bgp-length", 18).wrong(10, "bgp-length"),
        rib(5, 0, &[], &[Route(0, &[0x50, 2, 0])]).wrong(11, "entry0-attributes"),
        rib(3, 0, &[], &[]).wrong_subtype(12),
        rib(3, 0, &[], &[Route(2, &PATH)]).wrong(13, "entry0-index"),
        peer_table(b"\xc0\xaf", &[2]).wrong(17, "name"),
    ]
}

fn first_fault_wins(suite: &mut Suite) {
    let state = state_change(16, 0, V4).set_n("new-state", 0).wrong(9, "new-state");
    let unknown = state_change(16, 0, V4).retyped(2, 2).wrong_type();
    suite.bad("first-of-two-faults-9-3", &[], state.clone().then(&unknown.octets));
    suite.bad("first-of-two-faults-3-9", &[], unknown.then(&state.octets));
    let good = state_change(16, 0, V4).record();
    let tail = state.then(&good).then(&[0; 5]);
    suite.bad("first-of-two-faults-9-1", std::slice::from_ref(&good), tail);
    // A Length that reaches over the next record hides it.
    let swallowing = unread(11, 0, b"lsa").claiming(3 + good.len() as u32);
    let hidden = [swallowing, good].concat();
    suite.good("length-covers-next-record", &[hidden]);
}

/// The largest dump that is listed, and one octet more.
fn size_limit(suite: &mut Suite) {
    let table = plain_table(1).record();
    let room = 65_536 - table.len();
    let full = filling(room);
    let mut more = [table.clone(), full.clone()].concat();
    suite.good("size-65536", &[table, full]);
    more.push(0);
    suite.chance("size-65537", more);
    let mut rng = Rng::seeded(4096);
    let largest = bgp_message(16, 1, V4, 2, &rng.octets(4077)).record();
    suite.good("size-two-largest-messages", &[largest.clone(), largest]);
}

/// A RIB record of exactly so many octets, nearly all one attribute.
fn filling(size: usize) -> Vec<u8> {
    let around = rib(2, 0, &[], &[Route(0, &[0x50, 99, 0, 0])]).record().len();
    let value = size - around;
    let mut attribute = vec![0x50, 99, (value >> 8) as u8, value as u8];
    attribute.extend(vec![0x11; value]);
    rib(2, 0, &[], &[Route(0, &attribute)]).record()
}

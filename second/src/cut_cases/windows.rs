//! Windows of all sizes over records of all times, and windows backward.

use super::parts::{change, octets, old_route, picked, rib, table_of};
use super::{Ask, Book};
use crate::net::Family::V4;
use crate::vectors::shapes::unread;

const LAST: u64 = 4_294_971_589_967_295;
const LAST_SECOND: u64 = 4_294_967_295_000_000;

pub fn add(book: &mut Book) {
    forward(book);
    backward(book);
    backward_over_faults(book);
    out_of_order(book);
}

/// Records 0 and 9 are tables, at times that most windows do not hold.
fn timeline() -> Vec<Vec<u8>> {
    octets(&[
        table_of(&[10, 20]).at(9),
        change(17, 0, 10).at(0).set_n("micro", 0),
        change(17, 5, 20).at(0).set_n("micro", 5),
        change(16, 5, 20).at(1),
        rib(2, &[(1, 1), (0, 2)]).at(1),
        old_route(V4, 10).at(2),
        unread(33, 7, b"pdu").at(1).set_n("micro", 1_000_001),
        unread(49, 7, b"lsa").at(u32::MAX).set_n("micro", u32::MAX.into()),
        unread(48, 7, b"lsa").at(u32::MAX),
        table_of(&[20, 10]).at(0),
    ])
}

fn forward(book: &mut Book) {
    let dump = timeline();
    let high = 1_u64 << 32;
    let cases: [(&str, u64, u64, &[usize]); 24] = [
        ("0-0", 0, 0, &[]),
        ("5-5", 5, 5, &[]),
        ("last-last", LAST, LAST, &[]),
        ("max-max", u64::MAX, u64::MAX, &[]),
        ("0-1", 0, 1, &[1]),
        ("1-5", 1, 5, &[]),
        ("0-6", 0, 6, &[1, 2]),
        ("5-6", 5, 6, &[2]),
        ("1s-1s1", 1_000_000, 1_000_001, &[3, 4]),
        ("1s1-2s", 1_000_001, 2_000_000, &[]),
        ("1s-2s1", 1_000_000, 2_000_001, &[3, 4, 5]),
        ("2s-2s2", 2_000_000, 2_000_002, &[5, 6]),
        ("2s1-3s", 2_000_001, 3_000_000, &[6]),
        ("0-max", 0, u64::MAX, &[1, 2, 3, 4, 5, 6, 7, 8]),
        ("0-last", 0, LAST, &[1, 2, 3, 4, 5, 6, 8]),
        ("0-past-last", 0, LAST + 1, &[1, 2, 3, 4, 5, 6, 7, 8]),
        ("last", LAST, LAST + 1, &[7]),
        ("past-last-max", LAST + 1, u64::MAX, &[]),
        ("last-second", LAST_SECOND, LAST, &[8]),
        ("0-32bits", 0, high, &[1, 2, 3, 4, 5, 6]),
        ("32bits-max", high, u64::MAX, &[7, 8]),
        ("32bits-and-1s", high + 1_000_000, high + 1_000_001, &[]),
        ("63bits-max", 1 << 63, u64::MAX, &[]),
        ("0-63bits", 0, 1 << 63, &[1, 2, 3, 4, 5, 6, 7, 8]),
    ];
    for (name, start, end, kept) in cases {
        let left = picked(&dump, &[&[0], kept, &[9]].concat());
        book.left(format!("window-{name}"), &Ask::window(start, end), &dump, &left);
    }
}

fn backward_windows() -> Vec<(&'static str, Ask)> {
    vec![
        ("1-0", Ask::window(1, 0)),
        ("5-4", Ask::window(5, 4)),
        ("1s-before", Ask::window(1_000_000, 999_999)),
        ("32bits-1", Ask::window(1 << 32, 1)),
        ("63bits-before", Ask::window(1 << 63, (1 << 63) - 1)),
        ("max-before", Ask::window(u64::MAX, u64::MAX - 1)),
        ("max-0", Ask::window(u64::MAX, 0)),
    ]
}

fn backward(book: &mut Book) {
    let dump = timeline().concat();
    for (name, ask) in backward_windows() {
        book.refused(format!("backward-{name}"), &ask, dump.len(), &dump, (14, 0));
    }
    let ask = Ask::window(9, 8).muting(&[10, 20]);
    book.refused("backward-muting", &ask, dump.len(), &dump, (14, 0));
    book.refused("backward-no-room", &ask, 0, &dump, (14, 0));
    book.refused("backward-empty-dump", &ask, 0, &[], (14, 0));
    book.refused("backward-empty-dump-some-room", &ask, 40, &[], (14, 0));
}

/// The window is looked at before the dump is.
fn backward_over_faults(book: &mut Book) {
    let good = timeline().concat();
    let ask = Ask::window(2, 1);
    let broken: [(&str, Vec<u8>); 5] = [
        ("header", good[..good.len() - 1].to_vec()),
        ("half-record", good[..40].to_vec()),
        ("zeros", vec![0; 30]),
        ("no-table", rib(2, &[(0, 1)]).record()),
        ("bad-state", change(16, 0, 10).set_n("new-state", 7).record()),
    ];
    for (name, dump) in broken {
        book.refused(format!("backward-broken-{name}"), &ask, dump.len(), &dump, (14, 0));
    }
}

/// Times that fall and rise again: each record counts for itself.
fn out_of_order(book: &mut Book) {
    let dump = octets(&[9, 2, 8, 3, 7, 4, 2, 9].map(|second| change(16, 0, 10).at(second)));
    let left = picked(&dump, &[1, 3, 6]);
    book.left("window-out-of-order", &Ask::window(2_000_000, 4_000_000), &dump, &left);
    let left = picked(&dump, &[0, 2, 4, 5, 7]);
    book.left("window-out-of-order-late", &Ask::window(3_000_001, 9_000_001), &dump, &left);
}

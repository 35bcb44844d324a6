//! Document 01's examples of the cut, and their neighbours.

use super::parts::{change, members, octets, rib, table, table_of};
use super::{Ask, Book};
use crate::sample;
use crate::vectors::shapes::unread;

pub fn add(book: &mut Book) {
    empty(book);
    three_peers(book);
    five_to_five(book);
    incident(book);
}

fn empty(book: &mut Book) {
    book.left("example-empty", &Ask::whole().muting(&[10]), &[], &[]);
    book.left("example-empty-window-empty", &Ask::window(0, 0), &[], &[]);
    book.refused("example-11-zero-octets", &Ask::whole(), 11, &[0; 11], (1, 0));
}

/// A name, the numbers listed, those kept, and the entries that are left.
type Muting = (&'static str, &'static [u32], &'static [u32], &'static [(u16, u8)]);

/// Peers 10, 20, 30 and one record with an entry of each. The table is older
/// than the window.
fn three_peers(book: &mut Book) {
    let peers = members(&[10, 20, 30]);
    let dump = [table(&peers).at(3), rib(2, &[(0, 1), (1, 2), (2, 3)]).at(5)];
    let ask = Ask::window(5_000_000, 6_000_000);
    let cases: [Muting; 7] = [
        ("none", &[], &[10, 20, 30], &[(0, 1), (1, 2), (2, 3)]),
        ("10", &[10], &[20, 30], &[(0, 2), (1, 3)]),
        ("20", &[20], &[10, 30], &[(0, 1), (1, 3)]),
        ("30", &[30], &[10, 20], &[(0, 1), (1, 2)]),
        ("10-20", &[10, 20], &[30], &[(0, 3)]),
        ("10-30", &[10, 30], &[20], &[(0, 2)]),
        ("20-30", &[20, 30], &[10], &[(0, 1)]),
    ];
    for (name, list, kept, entries) in cases {
        let left = [table_of(kept).at(3), rib(2, entries).at(5)];
        let ask = ask.clone().muting(list);
        book.left(format!("example-mute-{name}"), &ask, &octets(&dump), &octets(&left));
    }
    let all = ask.muting(&[10, 20, 30]);
    book.left("example-mute-all", &all, &octets(&dump), &octets(&[table(&[]).at(3)]));
}

fn five_to_five(book: &mut Book) {
    let before = table_of(&[10, 20]).at(0);
    let after = table_of(&[30]).at(9);
    let dump = [
        before.clone(),
        rib(2, &[(1, 1)]).at(5),
        change(17, 0, 10).at(0).set_n("micro", 5),
        unread(33, 0, b"pdu").at(0).set_n("micro", 5),
        after.clone(),
        rib(6, &[]).at(0),
    ];
    let left = [before, after];
    book.left("example-window-5-5", &Ask::window(5, 5), &octets(&dump), &octets(&left));
    let seconds = Ask::window(5_000_000, 5_000_000);
    book.left("example-window-5s-5s", &seconds, &octets(&dump), &octets(&left));
}

/// The made-up incident: whole, its first second, and without two peers.
fn incident(book: &mut Book) {
    let dump = sample::octets();
    let noon = 1_772_366_400_000_000;
    let room = dump.len();
    let whole = std::slice::from_ref(&dump);
    book.left("sample-whole", &Ask::whole(), whole, whole);
    let second = Ask::window(noon + 11_000, noon + 1_011_000);
    book.chance("sample-second", &second, room, dump.clone());
    let quiet = Ask::window(noon - 300_000_000, noon + 11_001).muting(&[65_536, 64_505]);
    book.chance("sample-muted", &quiet, room, dump);
}

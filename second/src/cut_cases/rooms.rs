//! Output buffers that are too small, just right, and larger.

use super::parts::{change, octets, picked, rib, table_of};
use super::{Ask, Book};
use std::collections::BTreeSet;

pub fn add(book: &mut Book) {
    let dump = records();
    let late = Ask::window(2_000_000, 9_000_000);
    let muted = octets(&[table_of(&[20]).at(0), rib(2, &[(0, 2)]).at(3)]);
    let first_goes = &dump[1..];
    rooms(book, "no-records", &late, &[], &[]);
    rooms(book, "all-left", &Ask::whole(), &dump, &dump);
    rooms(book, "first-goes", &late, &dump, first_goes);
    rooms(book, "last-goes", &Ask::window(0, 3_000_000), &dump, &picked(&dump, &[0, 1]));
    rooms(book, "muted", &late.clone().muting(&[10]), &dump, &muted);
    rooms(book, "only-table", &Ask::window(7, 7), &dump, &dump[1..2]);
    rooms(book, "nothing-left", &late, &dump[..1], &[]);
    let size = dump.concat().len();
    book.left_in("room-largest", &late, 65_536, &dump, first_goes);
    book.left_in("room-twice", &late, 2 * size, &dump, first_goes);
}

fn records() -> Vec<Vec<u8>> {
    octets(&[
        change(16, 0, 10).at(1),
        table_of(&[10, 20]).at(0),
        rib(2, &[(0, 1), (1, 2)]).at(3),
        change(17, 5, 10).at(3),
    ])
}

/// Sizes around those of the result and of the dump.
fn rooms(book: &mut Book, name: &str, ask: &Ask, dump: &[Vec<u8>], left: &[Vec<u8>]) {
    let (before, after) = (dump.concat().len(), left.concat().len());
    let sizes = [0, 1, 12, after.saturating_sub(1), after, after + 1, before.saturating_sub(1)];
    let sizes: BTreeSet<usize> = sizes.into_iter().chain([before, before + 1]).collect();
    for size in sizes {
        book.left_in(format!("room-{name}-{size}-of-{after}"), ask, size, dump, left);
    }
}

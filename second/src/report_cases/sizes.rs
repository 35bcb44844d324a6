//! Dumps about the size that is printed: larger ones are counted all the same.

use super::parts::{all, changes, counted, own, routes, states};
use super::Book;
use crate::net::Family::V4;
use crate::report::Report;
use crate::vectors::shapes::{state_change, unread};

pub fn add(book: &mut Book) {
    for size in [65_535, 65_536, 65_537] {
        good(book, size);
        faulty(book, size);
    }
    many(book);
}

/// Two changes, a break and a record that is carried, so many octets in all.
fn filled(size: usize) -> Vec<Vec<u8>> {
    let mut dump = [changes(&[(2, 3), (3, 4)]), routes(&[9, 8])].concat();
    let around = dump.concat().len() + unread(32, 1, b"").record().len();
    dump.push(unread(32, 1, &vec![0x5a; size - around]).record());
    dump
}

fn good(book: &mut Book, size: usize) {
    let dump = filled(size);
    let meant = own(5, 1, &[(2, 3), (3, 4)]);
    book.adds(format!("size-{size}"), &counted(), &dump, &meant);
    book.refused(format!("size-{size}-no-room"), &all(u64::MAX), &dump.concat(), (16, 0));
}

/// A state change too short for its new state ends it.
fn faulty(book: &mut Book, size: usize) {
    let change = states(&state_change(16, 0, V4), 1, 1);
    let last = change.cut_short(change.message().len() - 1);
    let before = filled(size - last.octets.len()).concat();
    let dump = [&before[..], &last.octets].concat();
    book.refused(format!("size-{size}-fault"), &counted(), &dump, last.after(before.len()));
}

/// As many as a printed dump can have, and more.
fn many(book: &mut Book) {
    let none = Report::default();
    for count in [2_048, 2_049] {
        let dump = changes(&vec![(1, 6); count]);
        let meant = own(count, 0, &vec![(1, 6); count]);
        book.adds(format!("size-{count}-changes"), &none, &dump, &meant);
    }
    for count in [5_461, 5_462] {
        let dump = vec![unread(11, 1, b"").record(); count];
        book.adds(format!("size-{count}-records"), &none, &dump, &own(count, 0, &[]));
    }
}

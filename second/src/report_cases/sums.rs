//! Sums about 64 bits: each number at its edge, some together.

use super::cells::all_cells;
use super::parts::{all, change, changes, counted, own, routes};
use super::Book;
use crate::report::{Report, NUMBERS};
use crate::vectors::shapes::unread;

pub fn add(book: &mut Book) {
    totals(book);
    cells(book);
    together(book);
    full(book);
    halves(book);
}

/// A counted report with one number at 2^64 - 1 less so many.
fn near(place: usize, less: u64) -> Report {
    let mut numbers = counted().numbers();
    numbers[place] = u64::MAX - less;
    Report::of_numbers(&numbers)
}

/// A dump that adds so much to the number at this place: once it just fits,
/// once it is one too many.
fn edges(book: &mut Book, name: &str, place: usize, dump: &[Vec<u8>], own: &Report) {
    let more = own.numbers()[place];
    book.adds(format!("sum-{name}-fits"), &near(place, more), dump, own);
    let lent = near(place, more - 1);
    book.refused(format!("sum-{name}-past"), &lent, &dump.concat(), (16, 0));
}

fn totals(book: &mut Book) {
    let carried = [unread(11, 0, b"lsa").record(), unread(49, 0, b"lsa").record()];
    edges(book, "records", 0, &carried, &own(2, 0, &[]));
    let states = [(1, 2), (2, 3), (3, 1)];
    edges(book, "changes", 1, &changes(&states), &own(3, 0, &states));
    edges(book, "breaks", 2, &routes(&[1, 1, 1, 2]), &own(4, 2, &[]));
}

fn cells(book: &mut Book) {
    for (place, (old, new)) in (3..NUMBERS).zip(all_cells()) {
        let states = [(old, new), (7 - old, new), (old, new)];
        let meant = own(3, 0, &states);
        edges(book, &format!("cell-{old}-{new}"), place, &changes(&states), &meant);
    }
}

/// Several past 64 bits, and one of several.
fn together(book: &mut Book) {
    let dump = [changes(&[(1, 1), (6, 6)]), routes(&[3, 3])].concat();
    let meant = own(4, 1, &[(1, 1), (6, 6)]);
    let room = |spare: [u64; 5]| {
        let mut numbers = counted().numbers();
        for (place, spare) in [0, 1, 2, 3, 38].into_iter().zip(spare) {
            numbers[place] = u64::MAX - spare;
        }
        Report::of_numbers(&numbers)
    };
    book.adds("sum-five-fit", &room([4, 2, 1, 1, 1]), &dump, &meant);
    let past = [
        ("five-past", [3, 1, 0, 0, 0]),
        ("five-first-past", [3, 2, 1, 1, 1]),
        ("five-second-past", [4, 1, 1, 1, 1]),
        ("five-third-past", [4, 2, 0, 1, 1]),
        ("five-first-cell-past", [4, 2, 1, 0, 1]),
        ("five-last-cell-past", [4, 2, 1, 1, 0]),
    ];
    for (name, spare) in past {
        book.refused(format!("sum-{name}"), &room(spare), &dump.concat(), (16, 0));
    }
}

/// No number has room.
fn full(book: &mut Book) {
    let full = all(u64::MAX);
    book.adds("sum-full-empty-dump", &full, &[], &own(0, 0, &[]));
    let carried = unread(48, 9, b"").record();
    book.refused("sum-full-one-record", &full, &carried, (16, 0));
    book.refused("sum-full-one-change", &full, &change(2, 5), (16, 0));
    // Room for the record and no cell's room taken.
    let lent = Report { records: u64::MAX - 1, ..full };
    book.adds("sum-full-but-records", &lent, &[carried], &own(1, 0, &[]));
    book.adds("sum-full-but-records-first-route", &lent, &routes(&[7]), &own(1, 0, &[]));
    book.refused("sum-full-but-records-change", &lent, &change(4, 4), (16, 0));
}

/// Past 32 bits and into the topmost bit there is room.
fn halves(book: &mut Book) {
    let dump = [changes(&[(5, 2)]), routes(&[8, 8])].concat();
    let meant = own(3, 1, &[(5, 2)]);
    for (name, number) in [("32", u64::from(u32::MAX)), ("63", u64::MAX / 2)] {
        book.adds(format!("sum-past-{name}-bits"), &all(number), &dump, &meant);
    }
}

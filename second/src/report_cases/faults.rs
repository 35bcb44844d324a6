//! Dumps that are refused: none of their records counts.

use super::parts::{all, changes, counted, own, routes};
use super::Book;
use crate::cut_cases::faults::one_of_each;
use crate::vectors::sequences::MIXED;
use crate::vectors::shapes::{peer_table, plain_table};
use crate::vectors::slip::Slip;

pub fn add(book: &mut Book) {
    for slip in one_of_each() {
        alone(book, &slip);
        later(book, &slip);
    }
    names(book);
}

/// View names that are not text, with counts before them; and a name of as many
/// octets as there can be, good and not.
fn names(book: &mut Book) {
    let counts = [changes(&[(1, 2), (6, 1)]), routes(&[1, 3])].concat();
    let table = |name: &[u8]| peer_table(name, &[2, 3]);
    let all = |name: &[u8]| [&counts[..], &[table(name).record()]].concat();
    let refused = |name: &[u8]| {
        let at = table(name).wrong(17, "name").after(counts.concat().len());
        (all(name).concat(), at)
    };
    let spoiled: [(&str, &[u8]); 5] = [
        ("tail-first", b"\x80desk"),
        ("overlong", b"\xc1\xbf"),
        ("surrogate", b"desk\xed\xa0\x80"),
        ("above", b"\xf4\x90\x80\x80"),
        ("cut-off", b"desk\xe2\x82"),
    ];
    for (what, name) in spoiled {
        let (dump, at) = refused(name);
        book.refused(format!("fault-17-{what}"), &counted(), &dump, at);
    }
    let meant = own(5, 1, &[(1, 2), (6, 1)]);
    book.adds("name-mixed", &counted(), &all(MIXED.as_bytes()), &meant);
    let mut name = MIXED.repeat(6_553).into_bytes();
    name.resize(65_535, b'z');
    book.adds("name-65535", &counted(), &all(&name), &meant);
    name[65_534] = 0xc3;
    let (dump, at) = refused(&name);
    book.refused("name-65535-last-octet", &counted(), &dump, at);
}

/// Right at the front, or behind just the table that it needs.
fn alone(book: &mut Book, slip: &Slip) {
    let needed = matches!(slip.fault, 7 | 11 | 13);
    let before = if needed { plain_table(3).record() } else { Vec::new() };
    let dump = [&before[..], &slip.octets].concat();
    book.refused(format!("fault-{}", slip.fault), &counted(), &dump, slip.after(before.len()));
}

/// Behind changes and breaks, with more of them behind; and in a report that
/// has no room for any of it, where the fault comes first.
fn later(book: &mut Book, slip: &Slip) {
    let fault = slip.fault;
    let counts = [changes(&[(1, 2), (6, 1)]), routes(&[1, 3])].concat().concat();
    let mut before = counts.clone();
    if fault != 12 {
        before.extend(plain_table(3).record());
    }
    let mut dump = [&before[..], &slip.octets].concat();
    if !matches!(fault, 1 | 2) {
        dump.extend(counts);
    }
    let at = slip.after(before.len());
    book.refused(format!("fault-{fault}-later"), &counted(), &dump, at);
    book.refused(format!("fault-{fault}-no-room"), &all(u64::MAX), &dump, at);
}

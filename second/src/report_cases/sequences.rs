//! Breaks of type 12's sequence.

use super::parts::{change, counted, own, route, routes};
use super::Book;
use crate::net::Family::{V4, V6};
use crate::report::Report;
use crate::vectors::shapes::{
    generic_rib, keepalive, peer_table, plain_table, rib, state_change, unread, Route,
};
use crate::vectors::sketch::Sketch;

pub fn add(book: &mut Book) {
    first(book);
    chains(book);
    subtypes(book);
    views(book);
    between(book);
}

/// A dump's first has no previous, in a report that has breaks too.
fn first(book: &mut Book) {
    for sequence in [0, 1, 42, 65_535] {
        let name = format!("sequence-first-{sequence}");
        book.adds(name, &counted(), &routes(&[sequence]), &own(1, 0, &[]));
    }
    let late = [change(1, 2), plain_table(1).record(), route(V6, 9).record()];
    book.adds("sequence-first-late", &Report::default(), &late, &own(3, 0, &[(1, 2)]));
}

fn chains(book: &mut Book) {
    let cases: [(&str, &[u16], u64); 26] = [
        ("rising", &[1, 2, 3, 4], 0),
        ("rising-from-0", &[0, 1, 2], 0),
        ("to-the-last", &[65_533, 65_534, 65_535], 0),
        ("65535-to-0", &[65_535, 0], 0),
        ("wrapping", &[65_534, 65_535, 0, 1], 0),
        ("wrapping-twice", &[65_535, 0, 65_535, 0], 1),
        ("0-to-65535", &[0, 65_535], 1),
        ("65535-to-1", &[65_535, 1], 1),
        ("65534-to-0", &[65_534, 0], 1),
        ("65535-to-65535", &[65_535, 65_535], 1),
        ("0-to-0", &[0, 0], 1),
        ("0-to-1", &[0, 1], 0),
        ("1-to-0", &[1, 0], 1),
        ("repeats", &[5, 5, 5], 2),
        ("down", &[7, 6], 1),
        ("down-and-down", &[3, 2, 1, 0], 3),
        ("by-two", &[4, 6, 8], 2),
        ("gap-and-on", &[1, 2, 9, 10, 11], 1),
        ("back-and-on", &[1, 2, 3, 1, 2, 3], 1),
        ("255-to-256", &[255, 256], 0),
        ("255-to-0", &[255, 0], 1),
        ("511-to-256", &[511, 256], 1),
        ("1-to-258", &[1, 258], 1),
        ("32767-to-32768", &[32_767, 32_768], 0),
        ("32767-to-0", &[32_767, 0], 1),
        ("32768-to-1", &[32_768, 1], 1),
    ];
    for (name, sequences, breaks) in cases {
        let name = format!("sequence-{name}");
        let meant = own(sequences.len(), breaks, &[]);
        book.adds(name, &counted(), &routes(sequences), &meant);
    }
}

/// One chain over both subtypes.
fn subtypes(book: &mut Book) {
    let cases = [
        ("both-rising", [(V4, 10), (V6, 11), (V4, 12), (V6, 13)], 0),
        ("both-alone-rising", [(V4, 10), (V6, 20), (V4, 11), (V6, 21)], 3),
        ("both-in-step", [(V4, 10), (V6, 10), (V4, 11), (V6, 11)], 2),
        ("both-wrapping", [(V6, 65_534), (V4, 65_535), (V6, 0), (V4, 1)], 0),
        ("second-subtype", [(V6, 1), (V6, 2), (V6, 2), (V6, 3)], 1),
    ];
    for (name, chain, breaks) in cases {
        let dump = chain.map(|(family, sequence)| route(family, sequence).record());
        let name = format!("sequence-{name}");
        book.adds(name, &Report::default(), &dump, &own(4, breaks, &[]));
    }
}

/// One chain over all views.
fn views(book: &mut Book) {
    let dump = |chain: [(u64, u16); 3]| {
        chain.map(|(view, sequence)| route(V4, sequence).set_n("view", view).record())
    };
    let rising = dump([(0, 1), (1, 2), (0, 3)]);
    book.adds("sequence-views-rising", &Report::default(), &rising, &own(3, 0, &[]));
    let each = dump([(1, 1), (2, 1), (3, 1)]);
    book.adds("sequence-views-each", &Report::default(), &each, &own(3, 2, &[]));
}

/// Whatever stands between, even records with a sequence of their own.
fn between(book: &mut Book) {
    let strays = [
        ("11", unread(11, 0, b"lsa")),
        ("13-1", peer_table(b"", &[2, 3])),
        ("13-2", rib(2, 0, &[], &[Route(0, &[])])),
        ("13-5", rib(5, 0, &[], &[]).set_n("sequence", 500)),
        ("13-6", generic_rib(1, 1, 0, &[], &[])),
        ("16-0", state_change(16, 0, V4)),
        ("16-1", keepalive(16, 1, V4)),
        ("17-5", state_change(17, 5, V6)),
        ("17-7", keepalive(17, 7, V6)),
        ("32", unread(32, 1, b"pdu")),
        ("33", unread(33, 2, b"pdu")),
        ("48", unread(48, 1, b"lsa")),
        ("49", unread(49, 2, b"lsa")),
    ];
    for (name, stray) in &strays {
        one_between(book, name, stray);
    }
    let mut all = vec![plain_table(1).record()];
    for (sequence, (_, stray)) in (65_530..=65_535).chain(0..).zip(&strays) {
        all.extend([route(V4, sequence).record(), stray.record()]);
    }
    let meant = own(1 + 2 * strays.len(), 0, &[(3, 4), (3, 4)]);
    book.adds("between-all", &counted(), &all, &meant);
}

fn one_between(book: &mut Book, name: &str, stray: &Sketch) {
    let states: &[(u16, u16)] = if matches!(name, "16-0" | "17-5") { &[(3, 4)] } else { &[] };
    for (word, next, breaks) in [("goes-on", 43, 0), ("breaks", 44, 1)] {
        let chain = [route(V6, 42).record(), stray.record(), route(V4, next).record()];
        let dump = [&[plain_table(1).record()][..], &chain].concat();
        let name = format!("between-{name}-{word}");
        book.adds(name, &counted(), &dump, &own(4, breaks, states));
    }
}

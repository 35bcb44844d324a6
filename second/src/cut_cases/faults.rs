//! Dumps that are refused, under windows and lists of all kinds.

use super::parts::{change, members, named_table, octets, old_route, rib, table_of};
use super::{Ask, Book};
use crate::net::Family::{V4, V6};
use crate::vectors::shapes::{generic_rib, keepalive, Route};
use crate::vectors::slip::Slip;

pub fn add(book: &mut Book) {
    for slip in one_of_each() {
        alone(book, &slip);
        later(book, &slip);
    }
    indexes(book);
    half_records(book);
}

/// All are from AS 10 where they tell a peer at all, and at second 5.
pub fn one_of_each() -> Vec<Slip> {
    let change = change(17, 5, 10).at(5);
    let keepalive = keepalive(16, 6, V4).set_n("peer-as", 10).at(5);
    let untiled = [Route(0, &[0x40, 1, 1])];
    vec![
        Slip::whole(1, &change.record()[..11]),
        Slip::whole(2, &change.claiming(4_000_000_000)),
        change.retyped(15, 5).wrong_type(),
        change.retyped(17, 8).wrong_subtype(4),
        change.cut_short(27),
        change.too_long(&[0]),
        generic_rib(3, 1, 0, &[], &[]).at(5).wrong(7, "family"),
        old_route(V6, 10).set_n("prefix-length", 129).at(5).wrong(8, "prefix-length"),
        change.set_n("new-state", 0).wrong(9, "new-state"),
        keepalive.set_n("bgp-length", 4097).wrong(10, "bgp-length"),
        generic_rib(1, 2, 0, &[], &untiled).at(5).wrong(11, "entry0-attributes"),
        rib(4, &[]).at(5).wrong_subtype(12),
        rib(4, &[(0, 1), (3, 2)]).at(5).wrong(13, "entry1-index"),
        named_table(b"de\xed\xa0\x80sk", &members(&[10])).at(5).wrong(17, "name"),
    ]
}

fn table() -> Vec<u8> {
    table_of(&[10, 20, 30]).at(1).record()
}

/// Right at the front, or behind just the table that it needs.
fn alone(book: &mut Book, slip: &Slip) {
    let fault = slip.fault;
    let before = if matches!(fault, 7 | 11 | 13) { table() } else { Vec::new() };
    let dump = [&before[..], &slip.octets].concat();
    let at = slip.after(before.len());
    book.refused(format!("fault-{fault}"), &Ask::whole(), dump.len(), &dump, at);
    let never = Ask::window(0, 0);
    book.refused(format!("fault-{fault}-no-room"), &never, 0, &dump, at);
}

/// Behind records that stay and records that go, with more records behind.
fn later(book: &mut Book, slip: &Slip) {
    let fault = slip.fault;
    let mut before = octets(&[change(16, 0, 20).at(5), change(16, 5, 10).at(1)]).concat();
    if fault != 12 {
        before.extend(table());
    }
    let mut dump = [&before[..], &slip.octets].concat();
    if !matches!(fault, 1 | 2) {
        dump.extend(table());
    }
    let at = slip.after(before.len());
    let outside = Ask::window(1_000_000, 2_000_000);
    let muted = Ask::whole().muting(&[10, 20, 30]);
    let backward = Ask::window(5_000_000, 4_999_999);
    book.refused(format!("fault-{fault}-outside"), &outside, dump.len(), &dump, at);
    book.refused(format!("fault-{fault}-muted"), &muted, dump.len(), &dump, at);
    book.refused(format!("fault-{fault}-backward"), &backward, dump.len(), &dump, (14, 0));
}

/// An index is held against the table as it came, not as it goes out.
fn indexes(book: &mut Book) {
    let ask = Ask::whole().muting(&[10]);
    let dump = octets(&[table_of(&[10, 20, 30]), rib(2, &[(2, 1)])]);
    let left = octets(&[table_of(&[20, 30]), rib(2, &[(1, 1)])]);
    book.left("fault-none-index-past-kept", &ask, &dump, &left);
    let before = [&dump[0][..], &table_of(&[20, 30]).record()].concat();
    let stranger = rib(2, &[(2, 1)]).wrong(13, "entry0-index");
    refused(book, "fault-13-shorter-table", &ask, &before, &stranger);
    // What is wrong is the entry of a peer that nobody would see.
    let cut_short = rib(2, &[(0, 1)]).cut_short(18);
    refused(book, "fault-5-muted-entry", &ask, &table_of(&[10]).record(), &cut_short);
}

fn refused(book: &mut Book, name: &str, ask: &Ask, before: &[u8], slip: &Slip) {
    let dump = [before, &slip.octets].concat();
    book.refused(name, ask, dump.len(), &dump, slip.after(before.len()));
}

/// The last record ends too soon, as when a file was still being written.
fn half_records(book: &mut Book) {
    let first = change(16, 0, 10).at(5).record();
    let last = old_route(V4, 20).at(5).record();
    let ask = Ask::window(5_000_000, 5_000_001).muting(&[20]);
    for (size, fault) in [(1, 1), (4, 1), (11, 1), (12, 2), (13, 2), (last.len() - 1, 2)] {
        let dump = [&first, &last[..size]].concat();
        let at = (fault, first.len());
        book.refused(format!("fault-half-record-{size}"), &ask, dump.len(), &dump, at);
    }
    let dump = [first.clone(), last];
    book.left("fault-half-record-none", &ask, &dump, &[first]);
}

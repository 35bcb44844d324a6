//! View names that are text, and names that are not.

use super::sequences::{self, Piece, MIXED};
use super::shapes::{keepalive, peer_table, rib, state_change, Route, PATH};
use super::sketch::Sketch;
use super::slip::Slip;
use super::Suite;
use crate::net::Family::V4;

/// The number of a name that is not text.
const NOT_TEXT: u8 = 17;

/// The longest name of a dump that is listed: 20 octets are header, collector,
/// the name's length and the peer count.
const LONGEST: usize = 65_536 - 20;

pub fn add(suite: &mut Suite) {
    good(suite);
    for (what, pieces) in sequences::bad() {
        pieces.iter().for_each(|piece| bad(suite, what, piece));
    }
    last_in_text(suite);
    boundaries(suite);
    longest(suite);
    order(suite);
    later_tables(suite);
}

fn table(name: &[u8]) -> Sketch {
    peer_table(name, &[2, 3])
}

fn not_text(table: &Sketch) -> Slip {
    table.wrong(NOT_TEXT, "name")
}

/// The piece alone, within ASCII, and within characters of every size.
fn around(octets: &[u8]) -> [(&'static str, Vec<u8>); 3] {
    let between = |text: &str| [text.as_bytes(), octets, text.as_bytes()].concat();
    [("alone", octets.to_vec()), ("ascii", between("rrc-9")), ("mixed", between(MIXED))]
}

fn good(suite: &mut Suite) {
    for piece in sequences::good() {
        let records = around(&piece.octets).map(|(_, name)| table(&name).record());
        suite.good(format!("name-good-{}", piece.label), &records);
    }
    let all: Vec<u8> = sequences::good().into_iter().flat_map(|piece| piece.octets).collect();
    let route = rib(2, 0, &[], &[Route(1, &PATH)]).record();
    suite.good("name-good-all-in-one", &[table(&all).record(), route]);
    suite.good("name-good-none", &[table(b"").record()]);
}

fn bad(suite: &mut Suite, what: &str, piece: &Piece) {
    for (place, name) in around(&piece.octets) {
        let name_of_file = format!("name-{what}-{}-{place}", piece.label);
        suite.bad(name_of_file, &[], not_text(&table(&name)));
    }
}

/// Text before it, but the name ends inside the sequence. What stands behind the
/// name would end it: the peer count starts like a tail.
fn last_in_text(suite: &mut Suite) {
    for piece in sequences::cut_off() {
        let name = [MIXED.as_bytes(), &piece.octets].concat();
        let record = peer_table(&name, &[2]).set_n("peer-count", 0x8080);
        suite.bad(format!("name-cut-off-{}-last", piece.label), &[], not_text(&record));
    }
    // The name's length counts only the first of two octets.
    let half = peer_table("\u{e9}".as_bytes(), &[]).set_n("name-length", 1);
    suite.bad("name-length1-of-2-octets", &[], not_text(&half));
}

/// A character at each place about the borders of machine words, and an octet
/// that is none at some of them.
fn boundaries(suite: &mut Suite) {
    let with = |place: usize, octets: &[u8]| {
        let text = [b'a'; 33];
        [&text[..place], octets, &text[place..]].concat()
    };
    let at = |place| table(&with(place, MIXED.as_bytes())).record();
    let records: Vec<_> = (0..=33).map(at).collect();
    suite.good("name-good-at-each-place", &records);
    for place in [7, 8, 15, 16, 31, 32] {
        let record = table(&with(place, &[0x80]));
        suite.bad(format!("name-tail-first-at-{place}"), &[], not_text(&record));
    }
    let ends = |size: usize| [&vec![b'a'; size - 1][..], &[0xc2]].concat();
    for size in [8, 16] {
        suite.bad(format!("name-cut-off-at-{size}"), &[], not_text(&table(&ends(size))));
    }
}

fn longest(suite: &mut Suite) {
    let bare = |name: &[u8]| peer_table(name, &[]);
    let mut text = MIXED.repeat(LONGEST / MIXED.len()).into_bytes();
    text.resize(LONGEST, b'z');
    suite.good("name-longest-good", &[bare(&text).record()]);
    text[LONGEST - 1] = 0xc2;
    suite.bad("name-longest-last-octet", &[], not_text(&bare(&text)));
}

/// Once the name's octets are there, and before the peer count.
fn order(suite: &mut Suite) {
    let spoiled = peer_table(b"\xff\xc0\x80", &[2, 3]);
    let name_ends = 4 + 2 + 3;
    suite.bad("order-name-5-before-17", &[], spoiled.cut_short(name_ends - 1));
    let longer = spoiled.set_n("name-length", 65_535);
    suite.bad("order-name-5-before-17-longer", &[], longer.wrong(5, "name"));
    suite.bad("order-name-5-before-17-no-octets", &[], spoiled.cut_short(name_ends - 3));
    let no_count = spoiled.ending_at(name_ends);
    suite.bad("order-name-17-before-5-no-count", &[], not_text(&no_count));
    let half_count = spoiled.ending_at(name_ends + 1);
    suite.bad("order-name-17-before-5-half-count", &[], not_text(&half_count));
    let peers = spoiled.set_n("peer-count", 3);
    suite.bad("order-name-17-before-5-peers", &[], not_text(&peers));
    suite.bad("order-name-17-before-6", &[], not_text(&spoiled.followed_by(&[0])));
    let no_peers = spoiled.set_n("peer-count", 0);
    suite.bad("order-name-17-before-6-count", &[], not_text(&no_peers));
    let message = spoiled.message().len() as u32;
    suite.bad("order-name-2-before-17", &[], Slip::whole(2, &spoiled.claiming(message + 1)));
    suite.bad("order-name-4-before-17", &[], spoiled.retyped(13, 7).wrong_subtype(4));
    let text = peer_table(MIXED.as_bytes(), &[]);
    suite.bad("order-name-text-no-count", &[], text.up_to("name").lacking("peer count"));
}

/// The table that is refused is not the first record, or not the last.
fn later_tables(suite: &mut Suite) {
    let route = rib(2, 0, &[], &[Route(1, &PATH)]).record();
    let before = [table(b"first").record(), route.clone()];
    let spoiled = not_text(&table(b"sec\xed\xa0\x80ond"));
    let behind = spoiled.clone().then(&route);
    suite.bad("tables-name-of-second", &before, spoiled.clone());
    suite.bad("tables-name-of-second-and-rib", &before, behind.clone());
    suite.bad("tables-name-of-first-and-rib", &[], behind);
    let others = [keepalive(16, 1, V4).record(), state_change(17, 5, V4).record()];
    suite.bad("tables-name-after-others", &others, spoiled);
    // Behind a name that is text, the table in force is its table.
    let stranger = rib(2, 0, &[], &[Route(2, &[])]).wrong(13, "entry0-index");
    let before = [table(MIXED.as_bytes()).record(), route];
    suite.bad("tables-name-text-index2-of-2", &before, stranger);
}

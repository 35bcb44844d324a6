//! View names that are text, and names that are not.

use super::parts::{table, table_sketch};
use super::Book;
use crate::vectors::sequences::{self, MIXED};
use crate::vectors::shapes;
use crate::writers::{Given, PeerTable};

/// The number of a name that is not text.
const NOT_TEXT: u8 = 17;

pub fn add(book: &mut Book) {
    good(book);
    bad(book);
    order(book);
}

fn named(name: &[u8]) -> PeerTable {
    PeerTable { name: name.to_vec(), ..table() }
}

/// The piece between characters of every size.
fn within(octets: &[u8]) -> Vec<u8> {
    [MIXED.as_bytes(), octets, MIXED.as_bytes()].concat()
}

fn good(book: &mut Book) {
    for piece in sequences::good() {
        for (place, name) in [("alone", piece.octets.clone()), ("mixed", within(&piece.octets))] {
            let record = shapes::peer_table(&name, &[0, 3, 0xfe]).record();
            let given = Given::PeerTable(named(&name));
            book.good(format!("name-good-{}-{place}", piece.label), given, record.len(), &record);
        }
    }
}

/// All kinds alone; what is all there, but no character, between others too.
fn bad(book: &mut Book) {
    for (what, pieces) in sequences::bad() {
        for piece in pieces {
            let name = |place| format!("name-{what}-{}-{place}", piece.label);
            let given = |name: &[u8]| Given::PeerTable(named(name));
            book.bad(name("alone"), given(&piece.octets), 256, NOT_TEXT);
            if what == "outside" {
                book.bad(name("mixed"), given(&within(&piece.octets)), 256, NOT_TEXT);
            }
        }
    }
}

/// After the header and the collector, before the count and the peers, and
/// before the room.
fn order(book: &mut Book) {
    let spoiled = || named(b"desk\xe2\x82");
    let cases: [(&str, PeerTable, u8); 6] = [
        ("and-timestamp", PeerTable { timestamp: 1 << 32, ..spoiled() }, 6),
        ("and-collector", PeerTable { collector: 1 << 32, ..spoiled() }, 6),
        ("and-count-65536", PeerTable { count: 65_536, ..spoiled() }, NOT_TEXT),
        ("and-count-4-of-3", PeerTable { count: 4, ..spoiled() }, NOT_TEXT),
        ("and-count-2-of-3", PeerTable { count: 2, ..spoiled() }, NOT_TEXT),
        ("and-no-peers", PeerTable { peers: Vec::new(), ..spoiled() }, NOT_TEXT),
    ];
    for (what, given, fault) in cases {
        book.bad(format!("name-spoiled-{what}"), Given::PeerTable(given), 256, fault);
    }
    let size = table_sketch().set("name", &spoiled().name).record().len();
    for room in [0, 12, size - 1, size] {
        let name = format!("name-spoiled-room-{room}-of-{size}");
        book.bad(name, Given::PeerTable(spoiled()), room, NOT_TEXT);
    }
    // Peers that start like the tail that is missing.
    let tail = PeerTable { count: 0x8080, peers: vec![0x82; 11], ..spoiled() };
    book.bad("name-spoiled-tail-behind", Given::PeerTable(tail), 256, NOT_TEXT);
}

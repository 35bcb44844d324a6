//! Parts at the bounds of their length fields, and others that are large. The
//! largest are tried without room, so that no octets have to be listed.

use super::parts::{old_route, table};
use super::Book;
use crate::net::Family::V4;
use crate::vectors::shapes;
use crate::writers::{Given, PeerTable, TableDump, Time, Unread};

pub fn add(book: &mut Book) {
    names(book);
    attributes(book);
    many_peers(book);
    contents(book);
}

fn names(book: &mut Book) {
    for size in [0, 1, 255, 256, 300] {
        // Octets that no text has, where there are any.
        let (name, text) = (vec![0xff; size], vec![0x7f; size]);
        let record = |name: &[u8]| shapes::peer_table(name, &[0, 3, 0xfe]).record();
        let room = record(&text).len();
        if size == 0 {
            book.good("name-0", named(name), room, &record(&text));
            continue;
        }
        book.bad(format!("name-{size}"), named(name), room, 17);
        book.good(format!("name-{size}-ascii"), named(text.clone()), room, &record(&text));
    }
    book.bad("name-65535-no-room", named(vec![7; 65_535]), 65_535, 15);
    let mut last_octet = vec![7; 65_535];
    last_octet[65_534] = 0xc2;
    book.bad("name-65535-last-octet", named(last_octet), 65_535, 17);
    // A length that has no place in its field comes first.
    book.bad("name-65536-not-text", named(vec![0xff; 65_536]), 131_072, 6);
    // Were its length 0 to the writer, the peers would be too few.
    let short = PeerTable { name: vec![7; 65_536], peers: Vec::new(), ..table() };
    book.bad("name-65536-and-no-peers", Given::PeerTable(short), 0, 6);
}

fn named(name: Vec<u8>) -> Given {
    Given::PeerTable(PeerTable { name, ..table() })
}

/// One attribute with a length of two octets, of so many octets in all.
fn attribute(size: usize) -> Vec<u8> {
    let mut octets = vec![0x50, 2];
    octets.extend(((size - 4) as u16).to_be_bytes());
    octets.resize(size, 0);
    octets
}

fn old(attributes: Vec<u8>) -> Given {
    Given::TableDump(TableDump { attributes, ..old_route(V4) })
}

fn attributes(book: &mut Book) {
    for size in [4, 255, 256, 259, 300] {
        let record = shapes::table_dump(V4, &attribute(size)).record();
        book.good(format!("attributes-{size}"), old(attribute(size)), record.len(), &record);
    }
    let none = shapes::table_dump(V4, &[]).record();
    book.good("attributes-none", old(Vec::new()), none.len(), &none);
    book.bad("attributes-65535-no-room", old(attribute(65_535)), 65_535, 15);
    // They tile, but their length has no place in its field.
    let more = [attribute(65_532), attribute(4)].concat();
    book.bad("attributes-65536", old(more), 65_535, 6);
    book.bad("attributes-65536-do-not-tile", old(vec![0x40; 65_536]), 0, 6);
}

fn many_peers(book: &mut Book) {
    let peer = [2, 192, 0, 2, 1, 192, 0, 2, 1, 0, 1, 0, 5];
    let with = |count, there| {
        let peers = peer.repeat(there);
        Given::PeerTable(PeerTable { count, name: Vec::new(), peers, ..table() })
    };
    let head = shapes::peer_table(b"", &[]).set_n("peer-count", 300);
    let record = head.raw("peers", &peer.repeat(300)).record();
    book.good("peers-300", with(300, 300), record.len(), &record);
    book.bad("peers-300-count-44", with(44, 300), 8_192, 6);
    book.bad("peers-300-count-301", with(301, 300), 8_192, 5);
    book.bad("peers-2-count-65535", with(65_535, 2), 8_192, 5);
    book.bad("peers-2-count-65538", with(65_538, 2), 8_192, 6);
}

fn contents(book: &mut Book) {
    let with = |size| {
        let time = Time::Seconds(1_300_475_700);
        Given::Unread(Unread { time, code: 48, subtype: 3, contents: vec![9; size] })
    };
    let record = shapes::unread(48, 3, &[9; 300]).record();
    book.good("contents-300", with(300), record.len(), &record);
    book.bad("contents-70000-no-room", with(70_000), 4_476, 15);
}

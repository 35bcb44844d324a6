//! What stands inside a RIB record: prefixes, tables and entries.

use super::parts::{generic, generic_sketch, rib, rib_sketch};
use super::Book;
use crate::net::Family::{V4, V6};
use crate::vectors::shapes;
use crate::writers::{Given, Rib, RibGeneric, Routes};

pub fn add(book: &mut Book) {
    prefixes(book);
    generic_prefixes(book);
    tables(book);
    no_entries(book);
    counts(book);
    faulty(book);
    many(book);
}

/// How many octets so many bits take, by document 01's words.
fn octets_for(bits: u64) -> usize {
    (0..).find(|octets| 8 * octets >= bits).expect("octets enough") as usize
}

/// Every octet of a prefix has all bits set.
fn with_prefix(subtype: u16, bits: u64, octets: usize) -> Given {
    let good = rib(subtype);
    let routes = Routes { bits, prefix: vec![255; octets], count: 0, entries: Vec::new() };
    Given::Rib(Rib { routes, ..good })
}

fn prefixes(book: &mut Book) {
    for (subtype, most) in [(2, 32), (4, 128)] {
        for bits in [0, 1, 7, 8, 9, 16, 31, 32, 33, 127, 128] {
            if bits > most {
                continue;
            }
            let size = octets_for(bits);
            let name = |what| format!("prefix-{subtype}-{bits}-{what}");
            let record = shapes::rib(subtype, bits as u8, &vec![255; size], &[]).record();
            book.good(name("good"), with_prefix(subtype, bits, size), record.len(), &record);
            book.bad(name("long"), with_prefix(subtype, bits, size + 1), 99, 6);
            if size > 0 {
                book.bad(name("short"), with_prefix(subtype, bits, size - 1), 99, 5);
            }
        }
        // Refused for its length before its octets are looked at.
        book.bad(format!("prefix-{subtype}-past"), with_prefix(subtype, most + 1, 0), 99, 8);
        book.bad(format!("prefix-{subtype}-far-past"), with_prefix(subtype, 256, 0), 99, 6);
    }
}

/// The family stated decides what is too long.
fn generic_prefixes(book: &mut Book) {
    for (family, name) in [(V4, "v4"), (V6, "v6")] {
        for (bits, fault) in [(32, 0), (33, 8), (128, 8), (129, 8), (255, 8), (256, 6)] {
            let fault = if family == V6 && bits <= 128 { 0 } else { fault };
            let prefix = vec![255; octets_for(bits)];
            let routes = Routes { bits, prefix: prefix.clone(), count: 0, entries: Vec::new() };
            let given = Given::RibGeneric(RibGeneric { routes, ..generic(family, 1) });
            let name = format!("prefix-6-{name}-{bits}");
            if fault == 0 {
                let sketch = shapes::generic_rib(family.code().into(), 1, bits as u8, &prefix, &[]);
                book.good(name, given, 99, &sketch.record());
            } else {
                book.bad(name, given, 99, fault);
            }
        }
    }
}

fn rib_with(table: Option<u64>, count: u64, entries: Vec<u8>) -> Given {
    let good = rib(2);
    let routes = Routes { count, entries, ..good.routes.clone() };
    Given::Rib(Rib { table, routes, ..good })
}

fn generic_with(table: Option<u64>, count: u64, entries: Vec<u8>) -> Given {
    let good = generic(V4, 1);
    let routes = Routes { count, entries, ..good.routes.clone() };
    Given::RibGeneric(RibGeneric { table, routes, ..good })
}

/// The records with these entries in place of their own.
fn records(count: u64, entries: &[u8]) -> [Vec<u8>; 2] {
    [rib_sketch(2), generic_sketch(V4, 1)].map(|sketch| {
        let head = sketch.up_to("entry-count").set_n("entry-count", count);
        head.raw("entries", entries).record()
    })
}

/// The same entries in both kinds of record; a fault of 0 is none.
fn both(book: &mut Book, name: &str, table: Option<u64>, count: u64, entries: &[u8], fault: u8) {
    let givens = [rib_with, generic_with].map(|with| with(table, count, entries.to_vec()));
    for ((given, record), kind) in givens.into_iter().zip(records(count, entries)).zip(["2", "6"]) {
        let name = format!("{name}-{kind}");
        match fault {
            0 => book.good(name, given, record.len(), &record),
            _ => book.bad(name, given, record.len() + 9, fault),
        }
    }
}

/// An entry without attributes.
fn entry(index: u16) -> Vec<u8> {
    let [high, low] = index.to_be_bytes();
    vec![high, low, 0, 0, 0, 5, 0, 0]
}

/// Tables of many sizes, some of them with nothing in their lower bits.
fn tables(book: &mut Book) {
    let cases = [
        (0, 0, 13),
        (0, 65_535, 13),
        (1, 0, 0),
        (1, 1, 13),
        (2, 1, 0),
        (2, 2, 13),
        (256, 255, 0),
        (256, 256, 13),
        (65_535, 65_534, 0),
        (65_535, 65_535, 13),
        (65_536, 65_535, 0),
        (65_536, 0, 0),
        (1 << 32, 1, 0),
        (u64::MAX, 65_535, 0),
    ];
    for (peers, index, fault) in cases {
        let name = format!("table-of-{peers}-index-{index}");
        both(book, &name, Some(peers), 1, &entry(index), fault);
    }
    both(book, "table-none-index-0", None, 1, &entry(0), 12);
}

fn no_entries(book: &mut Book) {
    both(book, "no-entries-no-table", None, 0, &[], 12);
    both(book, "no-entries-table-of-0", Some(0), 0, &[], 0);
    both(book, "no-entries-table-of-9", Some(9), 0, &[], 0);
    both(book, "no-entries-one-octet", Some(9), 0, &[0], 6);
    both(book, "no-entries-one-there", Some(9), 0, &entry(1), 6);
}

fn counts(book: &mut Book) {
    let two = [entry(1), entry(0)].concat();
    for (count, fault) in [(1, 6), (2, 0), (3, 5), (65_535, 5), (65_538, 6)] {
        if count > 65_535 {
            for (with, kind) in [(rib_with as fn(_, _, _) -> _, "2"), (generic_with, "6")] {
                book.bad(
                    format!("count-{count}-of-2-{kind}"),
                    with(Some(2), count, two.clone()),
                    99,
                    6,
                );
            }
        } else {
            both(book, &format!("count-{count}-of-2"), Some(2), count, &two, fault);
        }
    }
}

/// Faults inside an entry, in each of its fields and in two at once. The
/// entry before it is good.
fn faulty(book: &mut Book) {
    let cases: [(&str, &[u8], u8); 16] = [
        ("no-octet", &[], 5),
        ("half-index", &[9], 5),
        ("index", &[0, 9], 13),
        ("index-low-octet-good", &[1, 0, 0, 0, 0, 5, 0, 0], 13),
        ("good-index-alone", &[0, 0], 5),
        ("index-and-short", &[0, 9, 0, 0], 13),
        ("half-originated", &[0, 0, 0, 0, 0], 5),
        ("no-attribute-length", &[0, 0, 0, 0, 0, 5], 5),
        ("half-attribute-length", &[0, 0, 0, 0, 0, 5, 0], 5),
        ("attributes-short", &[0, 0, 0, 0, 0, 5, 0, 4, 0x40, 1, 1], 5),
        ("attributes-do-not-tile", &[0, 0, 0, 0, 0, 5, 0, 3, 0x40, 1, 1], 11),
        ("short-and-do-not-tile", &[0, 0, 0, 0, 0, 5, 0, 5, 0x40, 1, 9], 5),
        ("do-not-tile-and-left", &[0, 0, 0, 0, 0, 5, 0, 1, 0x40, 1], 11),
        ("left", &[0, 0, 0, 0, 0, 5, 0, 0, 0x40], 6),
        ("extended-short", &[0, 0, 0, 0, 0, 5, 0, 3, 0x50, 2, 0], 11),
        ("good", &[0, 0, 0, 0, 0, 5, 0, 4, 0x50, 2, 0, 0], 0),
    ];
    for (name, octets, fault) in cases {
        let entries = [&entry(1), octets].concat();
        both(book, &format!("entry-{name}"), Some(2), 2, &entries, fault);
    }
}

/// A count and indexes that need their second octet.
fn many(book: &mut Book) {
    let entries: Vec<u8> = (0..300).flat_map(entry).collect();
    both(book, "many-300", Some(300), 300, &entries, 0);
    both(book, "many-300-of-299", Some(299), 300, &entries, 13);
    both(book, "many-300-count-44", Some(300), 44, &entries, 6);
}

//! View names: UTF-8 text as RFC 3629 has it, in every call that reads or writes a peer table. The
//! standard library says what is text.

use dagsumilat::{
    check, cut_into, read, records, Fault, Fields, PeerTable, Refusal, Report, Window,
};
use std::str;

/// Where a name stands in its record.
const NAME: usize = 18;

fn named(name: &[u8]) -> PeerTable<'_> {
    PeerTable { timestamp: 1, collector_id: 0xc000_02fe, name, count: 0, peers: &[] }
}

/// The record of such a table, laid out by hand: nothing is refused.
fn laid(name: &[u8]) -> Vec<u8> {
    let length = (8 + name.len()) as u32;
    let size = (name.len() as u16).to_be_bytes();
    [&[0, 0, 0, 1, 0, 13, 0, 1], &length.to_be_bytes()[..], &[192, 0, 2, 254], &size, name, &[0, 0]]
        .concat()
}

fn assert_judged(name: &[u8]) {
    let octets = laid(name);
    let mut out = vec![7; octets.len()];
    let (found, written) = (read(&octets, None), named(name).write(&mut out));
    match str::from_utf8(name) {
        Ok(text) => {
            let found = found.unwrap().unwrap();
            let Fields::PeerTable(table) = found.fields else { panic!("{text:?}") };
            assert_eq!((table, table.name_text()), (named(name), Ok(text)));
            assert_eq!((written, out), (Ok(octets.len()), octets));
        }
        Err(_) => {
            assert_eq!(found, Err(Refusal { fault: Fault::ViewName, place: NAME }), "{name:x?}");
            assert_eq!(written, Err(Fault::ViewName), "{name:x?}");
            assert!(out.iter().all(|octet| *octet == 7), "{name:x?}");
        }
    }
}

/// Octets at both sides of every bound of RFC 3629's grammar.
const BOUNDS: [u8; 24] = [
    0x00, 0x7f, 0x80, 0x8f, 0x90, 0x9f, 0xa0, 0xbf, 0xc0, 0xc1, 0xc2, 0xdf, 0xe0, 0xe1, 0xec, 0xed,
    0xee, 0xef, 0xf0, 0xf1, 0xf3, 0xf4, 0xf5, 0xff,
];

/// All names of up to two octets, and all of three and four at the bounds.
#[test]
fn short_names() {
    assert_judged(&[]);
    for first in 0..=255 {
        assert_judged(&[first]);
        (0..=255).for_each(|second| assert_judged(&[first, second]));
    }
    for first in BOUNDS {
        for second in BOUNDS {
            for third in BOUNDS {
                assert_judged(&[first, second, third]);
                BOUNDS.iter().for_each(|last| assert_judged(&[first, second, third, *last]));
            }
        }
    }
}

/// What RFC 3629's grammar lets through passes, however odd.
#[test]
fn odd_text() {
    for text in ["\0", "\u{ffff}", "\u{feff}noon", "\u{10ffff}", "\u{d7ff}\u{e000}", "\u{1b}[2J"] {
        assert_eq!(read(&laid(text.as_bytes()), None).unwrap().unwrap().size, 20 + text.len());
        assert_judged(text.as_bytes());
    }
}

/// A bad octet anywhere, and a sequence cut off at the end, in short and long names.
#[test]
fn bad_octets_anywhere() {
    let text = "noon Zürich 日本 \u{10348}".repeat(3);
    for at in 0..text.len() {
        let mut name = text.clone().into_bytes();
        assert_judged(&name[..at]);
        name[at] = 0xff;
        assert_judged(&name);
    }
    let mut longest = vec![b'a'; 65_535];
    assert_judged(&longest);
    for at in [0, 32_767, 65_534] {
        longest[at] = 0xe9;
        assert_judged(&longest);
        longest[at] = b'a';
    }
}

/// Once the name's octets are there, and before the peer count.
#[test]
fn the_order_of_faults() {
    let octets = laid(b"caf\xe9");
    for (by, fault, place) in [
        (1, Fault::ViewName, NAME),
        (2, Fault::ViewName, NAME),
        (3, Fault::FieldIncomplete, NAME),
        (7, Fault::FieldIncomplete, NAME - 2),
    ] {
        let mut short = octets[..octets.len() - by].to_vec();
        short[11] -= by as u8;
        assert_eq!(read(&short, None), Err(Refusal { fault, place }), "{by}");
    }
    let mut out = [7; 30];
    let bad = named(b"\xff");
    assert_eq!(PeerTable { count: 1, ..bad }.write(&mut out), Err(Fault::ViewName));
    assert_eq!(bad.write(&mut []), Err(Fault::ViewName));
    assert_eq!(named(&[0xff; 65_536]).write(&mut out), Err(Fault::OctetsLeft));
    assert_eq!(named(&[b'a'; 65_536]).write(&mut out), Err(Fault::OctetsLeft));
    assert_eq!(out, [7; 30]);
}

#[test]
fn a_dump_with_a_bad_name_is_refused_at_the_name() {
    let dump = [laid("café".as_bytes()), laid(b"caf\xe9")].concat();
    let refusal = Refusal { fault: Fault::ViewName, place: 25 + NAME };
    let found = check(&dump);
    assert_eq!((found.records, found.refusal), (1, Some(refusal)));
    assert_eq!(records(&dump).nth(1).unwrap().unwrap_err(), refusal);

    let mut out = vec![7; dump.len()];
    let (all, backward) = (Window { from: 0, to: u64::MAX }, Window { from: 1, to: 0 });
    assert_eq!(cut_into(&dump, all, &[], &mut out), Err(refusal));
    assert_eq!(cut_into(&dump, all, &[], &mut out[..1]), Err(refusal));
    assert_eq!(cut_into(&dump, backward, &[], &mut out).unwrap_err().fault, Fault::Window);
    assert!(out.iter().all(|octet| *octet == 7));

    let mut report = Report { records: 5, ..Report::default() };
    assert_eq!(report.add(&dump), Err(refusal));
    assert_eq!(report, Report { records: 5, ..Report::default() });
}

/// A name is looked at only where it stands.
#[test]
fn other_octets_need_not_be_text() {
    let mut octets = laid("café".as_bytes());
    octets[12..16].fill(0xff);
    octets[24] = 1;
    octets[11] += 13;
    octets.extend([2, 0xff, 0xfe, 0xfd, 0xfc, 0xc0, 0x80, 0xff, 0xff, 0xed, 0xa0, 0x80, 0xff]);
    assert_eq!(check(&octets).refusal, None);
}

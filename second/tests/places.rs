//! Where a fault lies, and what its field is called. Octets and places are typed in
//! from the layouts.

use second::dump::Dump;
use second::fault::Spot;
use second::peer_table::TableInForce;
use second::reader::Reader;
use second::record::Record;

/// Octets from hexadecimal text, a space between them.
fn hex(text: &str) -> Vec<u8> {
    text.split_whitespace().map(|octet| u8::from_str_radix(octet, 16).unwrap()).collect()
}

/// A record at second 1 with the Length that it has.
fn record(code: u8, subtype: u8, message: &str) -> Vec<u8> {
    let message = hex(message);
    let mut octets = vec![0, 0, 0, 1, 0, code, 0, subtype, 0, 0, 0, message.len() as u8];
    octets.extend(message);
    octets
}

/// Fault, place, the record's place, and the field.
fn end(octets: &[u8]) -> (u8, usize, usize, &'static str) {
    let end = Dump::read(octets).end;
    (end.number(), end.place, end.record, end.field.unwrap_or("none"))
}

/// Two IPv4 peers with 2-octet AS numbers and no view name, 42 octets in all.
fn two_peers() -> Vec<u8> {
    let peer = "00 c0 00 02 01 c0 00 02 01 fb f0";
    record(13, 1, &format!("c6 33 64 04 00 00 00 02 {peer} {peer}"))
}

/// The record behind a table of two peers: its answer, counted from its header.
fn behind_table(octets: &[u8]) -> (u8, usize, &'static str) {
    let (fault, place, record, field) = end(&[&two_peers()[..], octets].concat());
    assert_eq!(record, 42);
    (fault, place - 42, field)
}

const SESSION: &str = "fb f0 fb f1 00 00 00 01 c0 00 02 55 c6 33 64 04";

#[test]
fn good_dumps() {
    assert_eq!(end(&[]), (0, 0, 0, "none"));
    assert_eq!(end(&two_peers()), (0, 42, 42, "none"));
}

#[test]
fn headers() {
    assert_eq!(end(&[0; 11]), (1, 0, 0, "record"));
    let change = record(16, 0, &format!("{SESSION} 00 03 00 04"));
    assert_eq!(end(&change[..31]), (2, 0, 0, "record"));
    assert_eq!(end(&[&change[..], &change[..31]].concat()), (2, 32, 32, "record"));
    assert_eq!(end(&record(99, 0, "")), (3, 4, 0, "Type"));
    assert_eq!(end(&[&change[..], &record(16, 9, "")].concat()), (4, 38, 32, "Subtype"));
    assert_eq!(end(&record(13, 4, "")), (12, 6, 0, "Subtype"));
}

/// A field that is not there at all lies just past the message, whatever follows.
#[test]
fn missing_fields() {
    let table = two_peers();
    assert_eq!(end(&record(33, 0, "")), (5, 12, 0, "microseconds"));
    assert_eq!(end(&[record(49, 0, ""), table.clone()].concat()), (5, 12, 0, "microseconds"));
    assert_eq!(end(&record(17, 0, "00 00 00 01")), (5, 16, 0, "peer AS"));
    let no_count = [record(13, 1, "c6 33 64 04 00 00"), table].concat();
    assert_eq!(end(&no_count), (5, 18, 0, "peer count"));
    assert_eq!(behind_table(&record(13, 2, "00 00 00 01 08")), (5, 17, "prefix"));
    let no_entry = record(13, 2, "00 00 00 01 08 0a 00 01");
    assert_eq!(behind_table(&no_entry), (5, 20, "peer index"));
}

#[test]
fn entries() {
    let head = "00 00 00 01 00 00 02";
    let first = "00 00 00 00 00 09 00 04 40 01 01 00";
    let with = |second: &str| behind_table(&record(13, 5, &format!("{head} {first} {second}")));
    assert_eq!(with("00 02"), (13, 31, "peer index"));
    assert_eq!(with("00 01 00 00"), (5, 33, "originated time"));
    assert_eq!(with("00 01 00 00 00 09 00"), (5, 37, "attribute length"));
    assert_eq!(with("00 01 00 00 00 09 00 07 40 01 01 00"), (5, 39, "attributes"));
    assert_eq!(with("00 01 00 00 00 09 00 07 40 01 01 00 40 02 01"), (11, 39, "attributes"));
    assert_eq!(with("00 01 00 00 00 09 00 00 00"), (6, 39, "octets left over"));
}

#[test]
fn peers() {
    let with = |peer: &str| end(&record(13, 1, &format!("c6 33 64 04 00 01 7a 00 01 {peer}")));
    assert_eq!(with(""), (5, 21, 0, "peer type"));
    assert_eq!(with("03 c0 00 02"), (5, 22, 0, "peer BGP ID"));
    assert_eq!(with("01 c0 00 02 01 c0 00 02 01"), (5, 26, 0, "peer address"));
    assert_eq!(with("02 c0 00 02 01 c0 00 02 01 00 00 00"), (5, 30, 0, "peer AS"));
    assert_eq!(with("00 c0 00 02 01 c0 00 02 01 00 00 00"), (6, 32, 0, "octets left over"));
    assert_eq!(end(&record(13, 1, "c6 33 64 04 00 03 61 62 ff")), (17, 18, 0, "view name"));
}

#[test]
fn families_and_prefix_lengths() {
    let with = |fields: &str| behind_table(&record(13, 6, &format!("00 00 00 01 {fields}")));
    assert_eq!(with("00 03"), (7, 16, "address family"));
    assert_eq!(with("00 02"), (5, 18, "SAFI"));
    assert_eq!(with("00 02 03"), (7, 18, "SAFI"));
    assert_eq!(with("00 02 02 81"), (8, 19, "prefix length"));
    let old = record(12, 1, "00 00 00 01 0a 00 00 00 21");
    assert_eq!(end(&old), (8, 20, 0, "prefix length"));
    let session = record(17, 1, "00 00 00 01 fb f0 fb f1 00 00 01 00");
    assert_eq!(end(&session), (7, 22, 0, "address family"));
}

#[test]
fn states() {
    let with = |states: &str| end(&record(16, 0, &format!("{SESSION} {states}")));
    assert_eq!(with("00 07 00"), (9, 28, 0, "old state"));
    assert_eq!(with("00 06 00"), (5, 30, 0, "new state"));
    assert_eq!(with("00 06 00 00"), (9, 30, 0, "new state"));
}

/// A BGP length that disagrees with the record is the field that failed.
#[test]
fn bgp_messages() {
    let marker = "ff ff ff ff ff ff ff ff ff ff ff ff ff ff ff ff";
    let with = |rest: &str| end(&record(16, 1, &format!("{SESSION} {rest}")));
    let marked = |rest: &str| with(&format!("{marker} {rest}"));
    assert_eq!(with(""), (5, 28, 0, "BGP marker"));
    assert_eq!(with(&marker[..44]), (5, 28, 0, "BGP marker"));
    assert_eq!(marked(""), (5, 44, 0, "BGP length"));
    assert_eq!(marked("00"), (5, 44, 0, "BGP length"));
    assert_eq!(marked("00 12"), (5, 46, 0, "BGP type"));
    assert_eq!(marked("00 12 04"), (10, 44, 0, "BGP length"));
    assert_eq!(marked("00 14 04"), (5, 44, 0, "BGP length"));
    assert_eq!(marked("00 13 04 00"), (6, 44, 0, "BGP length"));
}

/// A record that is read alone counts from its own header.
#[test]
fn one_record() {
    let octets = record(13, 3, "00 00 00 01 00 00 01 00 02");
    let read = |peers| Record::read(&mut Reader::over(&octets), peers).unwrap_err();
    let spot = |place, field| Spot { place, field };
    assert_eq!((read(None).number(), read(None).spot), (12, spot(6, "Subtype")));
    let two = Some(TableInForce { peers: 2 });
    assert_eq!((read(two).number(), read(two).spot), (13, spot(19, "peer index")));
    let three = Some(TableInForce { peers: 3 });
    assert_eq!((read(three).number(), read(three).spot), (5, spot(21, "originated time")));
}

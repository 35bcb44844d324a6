//! Document 01's examples. Octets and answers are typed in from its text.

use second::dump::Dump;
use second::listing::listing;
use second::record::Body;

/// Octets from hexadecimal text, a space between them.
fn hex(text: &str) -> Vec<u8> {
    text.split_whitespace().map(|octet| u8::from_str_radix(octet, 16).unwrap()).collect()
}

/// A record at second 1.
fn record(code: u8, subtype: u8, length: u16, message: &str) -> Vec<u8> {
    let [high, low] = length.to_be_bytes();
    let mut octets = vec![0, 0, 0, 1, 0, code, 0, subtype, 0, 0, high, low];
    octets.extend(hex(message));
    octets
}

fn fault(octets: &[u8]) -> (u8, usize) {
    let end = Dump::read(octets).end;
    (end.number(), end.place)
}

const SESSION_V4: &str = "fb f0 fb f1 00 00 00 01 c0 00 02 55 c6 33 64 04";

fn state_change(length: u16, states: &str) -> Vec<u8> {
    record(16, 0, length, &format!("{SESSION_V4} {states}"))
}

/// Two IPv4 peers with 4-octet AS numbers and no view name.
fn two_peers() -> Vec<u8> {
    let peer = "02 c0 00 02 01 c0 00 02 01 00 01 00 05";
    record(13, 1, 34, &format!("c6 33 64 04 00 00 00 02 {peer} {peer}"))
}

/// One entry without attributes, prefix length 0.
fn one_entry(index: &str) -> Vec<u8> {
    record(13, 2, 15, &format!("00 00 00 2a 00 00 01 {index} 00 00 00 05 00 00"))
}

fn bgp_message(length: usize, there: usize) -> Vec<u8> {
    let mut octets = record(16, 1, 16 + there as u16, SESSION_V4);
    octets.extend([0xff; 16]);
    octets.extend((length as u16).to_be_bytes());
    octets.push(4);
    octets.extend(vec![0; there - 19]);
    octets
}

/// Type 12, subtype 1 with these attribute octets.
fn old_route(attributes: &str) -> Vec<u8> {
    let count = hex(attributes).len() as u16;
    let fixed = "00 00 00 01 c0 00 02 00 18 01 00 00 00 05 c0 00 02 09 fb f3 00";
    record(12, 1, 22 + count, &format!("{fixed} {count:02x} {attributes}"))
}

#[test]
fn listing_of_one_state_change() {
    let text = "at=0 time=1000000 type=16 subtype=0 length=20\nfault=0 place=32\n";
    assert_eq!(listing(&state_change(20, "00 03 00 04")), text);
}

#[test]
fn empty_dump() {
    assert_eq!(listing(&[]), "fault=0 place=0\n");
}

#[test]
fn eleven_zero_octets() {
    assert_eq!(listing(&[0; 11]), "fault=1 place=0\n");
}

#[test]
fn too_large() {
    assert_eq!(listing(&[0; 65_537]), "too large\n");
    assert_eq!(listing(&[0; 65_536]), "fault=3 place=4\n");
}

#[test]
fn state_changes() {
    assert_eq!(fault(&state_change(20, "00 03 00 04")), (0, 32));
    assert_eq!(fault(&state_change(20, "00 03 00 07")), (9, 30));
    assert_eq!(fault(&state_change(20, "00 03 00 06")), (0, 32));
    assert_eq!(fault(&state_change(20, "00 00 00 04")), (9, 28));
    assert_eq!(fault(&state_change(20, "00 01 00 04")), (0, 32));
    assert_eq!(fault(&state_change(19, "00 03 00 04")), (5, 30));
    assert_eq!(fault(&state_change(19, "00 03 00")), (5, 30));
    let longer = state_change(21, "00 03 00 04 00");
    assert_eq!(longer.len(), 33);
    assert_eq!(fault(&longer), (6, 32));
    assert_eq!(fault(&state_change(21, "00 03 00 04")), (2, 0));
}

#[test]
fn rib_without_entries_or_table() {
    assert_eq!(fault(&record(13, 2, 7, "00 00 00 2a 00 00 00")), (12, 6));
}

#[test]
fn microseconds_past_a_second() {
    let micros = "00 16 e3 60";
    let octets = record(17, 0, 24, &format!("{micros} {SESSION_V4} 00 03 00 04"));
    let text = "at=0 time=2500000 type=17 subtype=0 length=24\nfault=0 place=36\n";
    assert_eq!(listing(&octets), text);
}

#[test]
fn largest_time() {
    let octets = hex("ff ff ff ff 00 21 00 00 00 00 00 04 ff ff ff ff");
    let text = "at=0 time=4294971589967295 type=33 subtype=0 length=4\nfault=0 place=16\n";
    assert_eq!(listing(&octets), text);
}

#[test]
fn attributes() {
    assert_eq!(fault(&old_route("")), (0, 34));
    assert_eq!(fault(&old_route("40 01 01 00")), (0, 38));
    assert_eq!(fault(&old_route("40 01 01")), (11, 34));
    assert_eq!(fault(&old_route("50 02 00")), (11, 34));
}

#[test]
fn indexes_of_two_peers() {
    let with = |index| [two_peers(), one_entry(index)].concat();
    let text = "at=0 time=1000000 type=13 subtype=1 length=34\n\
                at=46 time=1000000 type=13 subtype=2 length=15\n\
                fault=0 place=73\n";
    assert_eq!(listing(&with("00 01")), text);
    assert_eq!(fault(&with("00 02")), (13, 65));
}

#[test]
fn prefix_lengths() {
    let with = |length, fields: &str| {
        let record = record(13, 2, length, &format!("00 00 00 2a {fields} 00 00"));
        fault(&[two_peers(), record].concat())
    };
    assert_eq!(with(9, "09 0a 80"), (0, 67));
    assert_eq!(with(8, "09 0a"), (5, 65));
    assert_eq!(with(11, "20 c0 00 02 01"), (0, 69));
    assert_eq!(with(12, "21 c0 00 02 01 00"), (8, 62));
}

#[test]
fn bgp_lengths() {
    let text = "at=0 time=1000000 type=16 subtype=1 length=35\nfault=0 place=47\n";
    assert_eq!(listing(&bgp_message(19, 19)), text);
    assert_eq!(fault(&bgp_message(18, 19)), (10, 44));
    assert_eq!(fault(&bgp_message(4096, 4096)), (0, 4124));
    assert_eq!(fault(&bgp_message(4097, 4097)), (10, 44));
    assert_eq!(fault(&bgp_message(20, 19)), (5, 44));
    assert_eq!(fault(&bgp_message(19, 20)), (6, 44));
}

#[test]
fn fields_are_those_in_the_octets() {
    let octets = [two_peers(), one_entry("00 01")].concat();
    let dump = Dump::read(&octets);
    let Body::PeerTable(table) = &dump.records[0].record.body else { panic!("no table") };
    assert_eq!(table.peers.len(), 2);
    assert_eq!(table.peers[0].asn.number(), 65_541);
    let Body::Rib(rib) = &dump.records[1].record.body else { panic!("no RIB") };
    assert_eq!((rib.sequence, rib.prefix.bits), (42, 0));
    assert_eq!((rib.entries[0].peer_index, rib.entries[0].originated), (1, 5));
    assert_eq!(dump.to_octets(), octets);
}

#[test]
fn subtypes_four_and_five_are_not_swapped() {
    let session = "00 00 fb f0 00 00 fb f1 00 00 00 01 c0 00 02 55 c6 33 64 04";
    let change = format!("{session} 00 03 00 04");
    assert_eq!(fault(&record(16, 5, 24, &change)), (0, 36));
    assert_eq!(fault(&record(16, 4, 24, &change)), (5, 32));
}

/// A table without peers, and so many octets behind its name as `rest` has.
fn named(name: &str, rest: &str) -> Vec<u8> {
    let size = hex(name).len();
    let message = format!("c6 33 64 04 00 {size:02x} {name} {rest}");
    record(13, 1, hex(&message).len() as u16, &message)
}

#[test]
fn view_names() {
    for name in ["", "00", "64 65 73 6b", "c3 a9", "e4 b8 ad", "f0 9f 98 80", "ef bb bf"] {
        let octets = named(name, "00 00");
        assert_eq!(fault(&octets), (0, octets.len()), "{name}");
    }
    for name in ["80", "c0 af", "e0 9f bf", "ed a0 80", "f4 90 80 80", "f5", "ff", "64 e4 b8"] {
        assert_eq!(fault(&named(name, "00 00")), (17, 18), "{name}");
        // Before a peer count that is not there, and before octets that are left.
        assert_eq!(fault(&named(name, "")), (17, 18), "{name}");
        assert_eq!(fault(&named(name, "00")), (17, 18), "{name}");
        assert_eq!(fault(&named(name, "00 00 00")), (17, 18), "{name}");
        assert_eq!(fault(&named(name, "00 01 02")), (17, 18), "{name}");
    }
    assert_eq!(fault(&named("64", "00")), (5, 19));
}

#[test]
fn view_names_that_the_message_ends_in() {
    assert_eq!(fault(&record(13, 1, 8, "c6 33 64 04 00 03 ff ff")), (5, 18));
    assert_eq!(fault(&record(13, 1, 9, "c6 33 64 04 00 03 ff ff ff")), (17, 18));
    assert_eq!(fault(&record(13, 1, 9, "c6 33 64 04 00 04 ff ff ff")), (5, 18));
}

/// The first fault decides, and its place is the name's.
#[test]
fn view_names_of_later_tables() {
    let octets = [two_peers(), named("ff", "00 00"), one_entry("00 01")].concat();
    let text = "at=0 time=1000000 type=13 subtype=1 length=34\nfault=17 place=64\n";
    assert_eq!(listing(&octets), text);
    assert_eq!(fault(&[named("ff", "00 00"), one_entry("00 01")].concat()), (17, 18));
}

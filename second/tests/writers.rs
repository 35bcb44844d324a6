//! The writers: octets and numbers typed in from document 01's text.

use second::cut::Answer;
use second::dump::Dump;
use second::writers::{
    Change, Given, Message, PeerTable, Rib, RibGeneric, Routes, Session, TableDump, Time, Unread,
};

/// Octets from hexadecimal text, a space between them.
fn hex(text: &str) -> Vec<u8> {
    text.split_whitespace().map(|octet| u8::from_str_radix(octet, 16).unwrap()).collect()
}

/// The record, with just as much room as it needs.
fn written(given: &Given, text: &str) {
    let octets = hex(text);
    assert_eq!(given.write(octets.len()), Answer { fault: 0, place: 0, octets: octets.clone() });
    assert_eq!(number(given, octets.len() - 1), 15);
}

/// The number of a refusal, whose place is 0 and which writes nothing.
fn number(given: &Given, room: usize) -> u8 {
    let answer = given.write(room);
    assert_eq!((answer.place, answer.octets.len()), (0, 0));
    answer.fault
}

/// Refused for its fields, whatever the room.
fn refused(given: &Given, fault: u8) {
    assert_eq!((number(given, 1 << 20), number(given, 0)), (fault, fault));
}

fn session(time: Time, subtype: u64) -> Session {
    Session {
        time,
        subtype,
        peer_as: 64_496,
        local_as: 64_497,
        interface: 0,
        family: 1,
        peer_address: vec![192, 0, 2, 85],
        local_address: vec![198, 51, 100, 4],
    }
}

fn change(time: Time, subtype: u64, (old, new): (u64, u64)) -> Given {
    Given::Change(Change { session: session(time, subtype), old, new })
}

const MICRO: Time = Time::Micro { seconds: 1, micro: 1_500_000 };

#[test]
fn state_changes() {
    written(
        &change(Time::Seconds(1), 0, (3, 4)),
        "00 00 00 01 00 10 00 00 00 00 00 14 \
         fb f0 fb f1 00 00 00 01 c0 00 02 55 c6 33 64 04 00 03 00 04",
    );
    // The microseconds are counted in Length.
    written(
        &change(MICRO, 5, (6, 1)),
        "00 00 00 01 00 11 00 05 00 00 00 1c 00 16 e3 60 \
         00 00 fb f0 00 00 fb f1 00 00 00 01 c0 00 02 55 c6 33 64 04 00 06 00 01",
    );
    refused(&change(MICRO, 0, (3, 7)), 9);
    refused(&change(MICRO, 0, (0, 65_536)), 9);
    refused(&change(MICRO, 0, (65_536, 0)), 6);
    // The subtypes of messages, and one of nothing.
    for subtype in [1, 2, 4, 6, 7, 65_535] {
        refused(&change(Time::Seconds(1), subtype, (3, 4)), 4);
    }
    refused(&change(Time::Seconds(1), 65_536, (3, 4)), 6);
    refused(&change(Time::Seconds(1 << 32), 1, (3, 4)), 6);
    refused(&change(Time::Micro { seconds: 1, micro: 1 << 32 }, 5, (3, 4)), 6);
    refused(&change(Time::Micro { seconds: 1, micro: 1 << 32 }, 1, (3, 4)), 4);
}

#[test]
fn sessions() {
    let with = |change: &dyn Fn(&mut Session)| {
        let mut session = session(Time::Seconds(1), 0);
        change(&mut session);
        Given::Change(Change { session, old: 0, new: 0 })
    };
    refused(&with(&|_| ()), 9);
    refused(&with(&|session| session.peer_as = 65_536), 6);
    refused(&with(&|session| (session.subtype, session.peer_as) = (5, 65_536)), 9);
    refused(&with(&|session| (session.subtype, session.local_as) = (5, 1 << 32)), 6);
    refused(&with(&|session| session.interface = 65_536), 6);
    refused(&with(&|session| session.family = 3), 7);
    refused(&with(&|session| session.family = 65_537), 6);
    refused(&with(&|session| session.family = 2), 5);
    refused(&with(&|session| session.peer_address.clear()), 5);
    refused(&with(&|session| session.peer_address.push(0)), 6);
    refused(&with(&|session| session.local_address.truncate(3)), 5);
    refused(&with(&|session| session.local_address.push(0)), 6);
}

fn message(length: u16, there: usize) -> Given {
    let mut message = vec![0xff; 16];
    message.extend(length.to_be_bytes());
    message.push(4);
    message.resize(there, 0);
    Given::Message(Message { session: session(Time::Seconds(1), 1), message })
}

#[test]
fn messages() {
    // A KEEPALIVE has Length 35.
    written(
        &message(19, 19),
        "00 00 00 01 00 10 00 01 00 00 00 23 \
         fb f0 fb f1 00 00 00 01 c0 00 02 55 c6 33 64 04 \
         ff ff ff ff ff ff ff ff ff ff ff ff ff ff ff ff 00 13 04",
    );
    assert_eq!(message(4_096, 4_096).write(5_000).octets.len(), 12 + 16 + 4_096);
    refused(&message(19, 18), 5);
    refused(&message(18, 19), 10);
    refused(&message(4_097, 4_097), 10);
    refused(&message(20, 19), 5);
    refused(&message(19, 20), 6);
    let to_change = Message { session: session(Time::Seconds(1), 0), message: Vec::new() };
    refused(&Given::Message(to_change), 4);
}

fn unread(time: Time, code: u64, subtype: u64) -> Given {
    Given::Unread(Unread { time, code, subtype, contents: vec![1, 2, 3] })
}

#[test]
fn unread_contents() {
    written(&unread(Time::Seconds(1), 48, 65_535), "00 00 00 01 00 30 ff ff 00 00 00 03 01 02 03");
    written(&unread(MICRO, 33, 1), "00 00 00 01 00 21 00 01 00 00 00 07 00 16 e3 60 01 02 03");
    for code in [0, 12, 13, 16, 17, 33, 49, 65_535] {
        refused(&unread(Time::Seconds(1), code, 1), 3);
    }
    for code in [11, 12, 13, 16, 17, 32, 48] {
        refused(&unread(MICRO, code, 65_536), 3);
    }
    refused(&unread(Time::Seconds(1), 65_547, 1), 6);
    refused(&unread(Time::Seconds(1), 11, 65_536), 6);
    refused(&unread(Time::Micro { seconds: 1, micro: 1 << 32 }, 49, 1), 6);
}

fn old_route() -> TableDump {
    TableDump {
        timestamp: 1,
        subtype: 1,
        view: 0,
        sequence: 1,
        prefix: vec![192, 0, 2, 0],
        bits: 24,
        status: 1,
        originated: 5,
        address: vec![192, 0, 2, 9],
        peer_as: 64_499,
        attributes: hex("40 01 01 00"),
    }
}

#[test]
fn old_routes() {
    // The fixed part is 22 or 46 octets.
    written(
        &Given::TableDump(old_route()),
        "00 00 00 01 00 0c 00 01 00 00 00 1a \
         00 00 00 01 c0 00 02 00 18 01 00 00 00 05 c0 00 02 09 fb f3 00 04 40 01 01 00",
    );
    let with = |change: &dyn Fn(&mut TableDump)| {
        let mut route = old_route();
        change(&mut route);
        Given::TableDump(route)
    };
    let v6 = with(&|route| {
        (route.subtype, route.bits, route.attributes) = (2, 128, Vec::new());
        (route.prefix, route.address) = (vec![7; 16], vec![9; 16]);
    });
    assert_eq!(v6.write(58).octets.len(), 12 + 46);
    refused(&with(&|route| route.subtype = 3), 4);
    refused(&with(&|route| route.subtype = 2), 5);
    refused(&with(&|route| route.bits = 33), 8);
    refused(&with(&|route| route.bits = 256), 6);
    refused(&with(&|route| (route.prefix, route.bits) = (vec![192, 0, 2], 33)), 5);
    refused(&with(&|route| route.attributes = hex("40 01 01")), 11);
    refused(&with(&|route| route.attributes = hex("50 02 00")), 11);
    assert_eq!(with(&|route| route.attributes = tiles(65_535)).write(1 << 20).fault, 0);
    refused(&with(&|route| route.attributes = tiles(65_536)), 6);
    refused(&with(&|route| route.attributes = vec![0x40; 65_536]), 6);
}

/// So many octets, at least seven, that attributes tile.
fn tiles(size: usize) -> Vec<u8> {
    let mut octets = hex("40 01 00 50 02");
    // What is too much for one attribute goes into small ones in front.
    while size - octets.len() - 2 > 65_535 {
        octets.splice(..0, [0x40, 1, 0]);
    }
    let value = size - octets.len() - 2;
    octets.extend((value as u16).to_be_bytes());
    octets.resize(size, 0);
    octets
}

fn table(count: u64, peers: &str) -> PeerTable {
    PeerTable { timestamp: 1, collector: 0xc633_6404, name: Vec::new(), count, peers: hex(peers) }
}

const PEER: &str = "02 c0 00 02 01 c0 00 02 01 00 01 00 05";

#[test]
fn tables() {
    // Two IPv4 peers with 4-octet AS and no view name: Length 34.
    written(
        &Given::PeerTable(table(2, &format!("{PEER} {PEER}"))),
        &format!("00 00 00 01 00 0d 00 01 00 00 00 22 c6 33 64 04 00 00 00 02 {PEER} {PEER}"),
    );
    refused(&Given::PeerTable(table(2, PEER)), 5);
    refused(&Given::PeerTable(table(0, PEER)), 6);
    refused(&Given::PeerTable(table(1, &format!("{PEER} 00"))), 6);
    refused(&Given::PeerTable(table(65_537, PEER)), 6);
    let named = |size| Given::PeerTable(PeerTable { name: vec![7; size], ..table(2, "") });
    refused(&named(65_535), 5);
    refused(&named(65_536), 6);
}

#[test]
fn names_of_tables() {
    let named = |name: &str| PeerTable { name: hex(name), ..table(1, PEER) };
    let told = "00 00 00 01 00 0d 00 01 00 00 00 1a c6 33 64 04";
    let good = ["00 00 00 00 00", "c3 a9 e4 b8 ad", "ef bb bf c2 80", "f4 8f bf bf 41"];
    for name in good {
        written(&Given::PeerTable(named(name)), &format!("{told} 00 05 {name} 00 01 {PEER}"));
    }
    for name in ["80", "c0 80", "ed a0 80", "f4 90 80 80", "e2 82", "41 ff"] {
        refused(&Given::PeerTable(named(name)), 17);
        refused(&Given::PeerTable(PeerTable { count: 65_537, ..named(name) }), 17);
        refused(&Given::PeerTable(PeerTable { peers: Vec::new(), ..named(name) }), 17);
        refused(&Given::PeerTable(PeerTable { collector: 1 << 32, ..named(name) }), 6);
    }
    // Too long for its length field comes before what it holds.
    refused(&Given::PeerTable(PeerTable { name: vec![0xff; 65_535], ..table(1, PEER) }), 17);
    refused(&Given::PeerTable(PeerTable { name: vec![0xff; 65_536], ..table(1, PEER) }), 6);
}

fn routes(entries: &str) -> Routes {
    Routes { bits: 0, prefix: Vec::new(), count: 1, entries: hex(entries) }
}

fn rib(table: Option<u64>, entries: &str) -> Rib {
    Rib { timestamp: 1, subtype: 2, table, sequence: 42, routes: routes(entries) }
}

#[test]
fn ribs() {
    // Prefix length 0, one entry without attributes: Length 15.
    let entry = "00 01 00 00 00 05 00 00";
    written(
        &Given::Rib(rib(Some(2), entry)),
        &format!("00 00 00 01 00 0d 00 02 00 00 00 0f 00 00 00 2a 00 00 01 {entry}"),
    );
    refused(&Given::Rib(rib(Some(1), entry)), 13);
    refused(&Given::Rib(rib(Some(0), "00 00")), 13);
    refused(&Given::Rib(rib(Some(u64::MAX), "ff ff 00")), 5);
    refused(&Given::Rib(rib(Some(2), "00 01 00 00 00 05 00 03 40 01 01")), 11);
    refused(&Given::Rib(Rib { sequence: 1 << 32, ..rib(None, entry) }), 12);
    refused(&Given::Rib(Rib { sequence: 1 << 32, ..rib(Some(2), entry) }), 6);
    for subtype in [0, 1, 6, 7] {
        refused(&Given::Rib(Rib { subtype, ..rib(None, entry) }), 4);
    }
    let with = |bits, octets| {
        let routes = Routes { bits, prefix: vec![255; octets], ..routes(entry) };
        Given::Rib(Rib { routes, ..rib(Some(2), entry) })
    };
    // Trailing bits are carried; prefix length 9 takes 2 octets.
    assert_eq!(with(9, 2).write(99).octets[16..19], [9, 255, 255]);
    assert_eq!(with(32, 4).write(99).fault, 0);
    refused(&with(9, 1), 5);
    refused(&with(9, 3), 6);
    refused(&with(33, 5), 8);
    refused(&with(256, 32), 6);
}

#[test]
fn generic_ribs() {
    let with = |table, family, safi| {
        let routes = Routes { bits: 9, prefix: vec![10, 255], count: 0, entries: Vec::new() };
        Given::RibGeneric(RibGeneric { timestamp: 1, table, sequence: 42, family, safi, routes })
    };
    written(
        &with(Some(0), 2, 1),
        "00 00 00 01 00 0d 00 06 00 00 00 0c 00 00 00 2a 00 02 01 09 0a ff 00 00",
    );
    refused(&with(None, 3, 3), 12);
    refused(&with(Some(9), 3, 256), 7);
    refused(&with(Some(9), 65_536, 3), 6);
    refused(&with(Some(9), 1, 3), 7);
    refused(&with(Some(9), 1, 256), 6);
}

/// What is written is read again, without a fault.
#[test]
fn read_again() {
    let records = [
        Given::PeerTable(table(1, PEER)),
        Given::Rib(rib(Some(1), "00 00 00 00 00 05 00 00")),
        Given::TableDump(old_route()),
        change(MICRO, 5, (1, 6)),
        message(19, 19),
        unread(MICRO, 49, 0),
    ];
    let octets: Vec<u8> = records.iter().flat_map(|given| given.record().unwrap()).collect();
    let dump = Dump::read(&octets);
    assert_eq!((dump.end.number(), dump.records.len()), (0, records.len()));
    assert_eq!(dump.to_octets(), octets);
}

//! Unread contents, old routes, peer tables and RIB records, field by field.

use super::fields::{shorten, Call, Field};
use super::parts::{
    from, generic, generic_sketch, old_route, rib, rib_sketch, table, table_sketch, time, SECONDS,
};
use super::Book;
use crate::net::Family::{self, V4, V6};
use crate::vectors::shapes::{self, PATH};
use crate::writers::{Given, PeerTable, Rib, RibGeneric, Routes, TableDump, Time, Unread};
use std::cmp::Ordering;

pub fn add(book: &mut Book) {
    unread("unread-11", 11, &[12, 13, 16, 33]).add(book);
    unread("unread-33", 33, &[17, 32, 11, 48]).add(book);
    unread("unread-32", 32, &[0, 49, 65_535, 33]).add_short(book);
    unread("unread-48", 48, &[10, 14, 31, 50]).add_short(book);
    unread("unread-49", 49, &[48, 12, 13, 16]).add_short(book);
    no_contents(book);
    old("old-v4", V4).add(book);
    old("old-v6", V6).add_short(book);
    peers().add(book);
    peer_types(book);
    fixed("rib-2", 2).add(book);
    fixed("rib-3", 3).add_short(book);
    fixed("rib-4", 4).add_short(book);
    fixed("rib-5", 5).add_short(book);
    stated("rib-6-v4", V4, 1).add(book);
    stated("rib-6-v6", V6, 2).add_short(book);
}

/// The timestamp, wherever there may be microseconds.
pub fn seconds(time: &mut Time) -> &mut u64 {
    match time {
        Time::Seconds(seconds) | Time::Micro { seconds, .. } => seconds,
    }
}

pub fn micro(time: &mut Time) -> &mut u64 {
    match time {
        Time::Seconds(_) => panic!("no microseconds"),
        Time::Micro { micro, .. } => micro,
    }
}

fn unread(name: &'static str, code: u16, others: &[u64]) -> Call<Unread> {
    let timed = matches!(code, 33 | 49);
    let contents = vec![2, 1, 0, 44, 192];
    let mut fields = vec![
        Field::carried("timestamp", 4, SECONDS, |given: &mut Unread| seconds(&mut given.time)),
        Field::number("type", 2, code.into(), |given: &mut Unread| &mut given.code).not(others, 3),
        Field::carried("subtype", 2, 1, |given| &mut given.subtype),
    ];
    if timed {
        fields.push(Field::carried("micro", 4, 250_000, |given| micro(&mut given.time)));
    }
    Call {
        name,
        sketch: shapes::unread(code, 1, &contents),
        good: Unread {
            time: time(timed.then_some(250_000)),
            code: code.into(),
            subtype: 1,
            contents,
        },
        fields,
        given: Given::Unread,
    }
}

fn no_contents(book: &mut Book) {
    for code in [11, 33] {
        let timed = code == 33;
        let time = time(timed.then_some(250_000));
        let given = Unread { time, code: code.into(), subtype: 0, contents: Vec::new() };
        let record = shapes::unread(code, 0, &[]).record();
        for room in [record.len() - 1, record.len()] {
            let name = format!("unread-{code}-nothing-room-{room}");
            book.good(name, Given::Unread(given.clone()), room, &record);
        }
    }
}

fn old(name: &'static str, family: Family) -> Call<TableDump> {
    let most = u64::from(family.bits());
    Call {
        name,
        good: old_route(family),
        sketch: shapes::table_dump(family, &PATH),
        fields: vec![
            Field::carried("timestamp", 4, SECONDS, |given: &mut TableDump| &mut given.timestamp),
            Field::number("subtype", 2, 1, |given: &mut TableDump| &mut given.subtype)
                .not(&[0, 3, 257, 65_535], 4),
            Field::carried("view", 2, 0, |given| &mut given.view),
            Field::carried("sequence", 2, 42, |given| &mut given.sequence),
            Field::sized("prefix", |given: &mut TableDump| &mut given.prefix),
            Field::number("prefix-length", 1, 24, |given: &mut TableDump| &mut given.bits)
                .not(&[most + 1, 255], 8)
                .or(&[0, 1, most]),
            Field::carried("status", 1, 1, |given| &mut given.status),
            Field::carried("originated", 4, 9, |given| &mut given.originated),
            Field::sized("peer-address", |given: &mut TableDump| &mut given.address),
            Field::carried("peer-as", 2, 64_499, |given| &mut given.peer_as),
            attributes(),
        ],
        given: Given::TableDump,
    }
}

fn attributes() -> Field<TableDump> {
    Field::part("attributes")
        .slip("short", 11, |given: &mut TableDump| given.attributes.truncate(27))
        .slip("long", 11, |given| given.attributes.push(0x40))
        .slip("one", 11, |given| given.attributes = vec![0x40])
        .slip("two", 11, |given| given.attributes = vec![0x40, 1])
        .slip("three", 11, |given| given.attributes = vec![0x40, 1, 1])
        .slip("half-length", 11, |given| given.attributes = vec![0x50, 2, 0])
        .slip("wrong-size-of-length", 11, |given| given.attributes = vec![0x50, 1, 1, 0])
}

fn peers() -> Call<PeerTable> {
    Call {
        name: "table",
        good: table(),
        sketch: table_sketch(),
        fields: vec![
            Field::carried("timestamp", 4, SECONDS, |given: &mut PeerTable| &mut given.timestamp),
            Field::carried("collector", 4, 7, |given| &mut given.collector),
            name(),
            Field::number("peer-count", 2, 3, |given| &mut given.count),
            Field::part("peers")
                .slip("short", 5, |given: &mut PeerTable| shorten(&mut given.peers))
                .slip("long", 6, |given| given.peers.push(0))
                .slip("none", 5, |given| given.peers.clear())
                .slip("one-type-more", 6, |given| given.peers.push(2))
                .slip("two", 5, |given| given.peers.truncate(11 + 25))
                .slip("twice", 6, |given| given.peers.extend_from_within(..)),
        ],
        given: Given::PeerTable,
    }
}

/// Other names that are not text are in `names.rs`, one that is too long in
/// `large.rs`.
fn name() -> Field<PeerTable> {
    Field::part("name")
        .slip("tail-first", 17, |given: &mut PeerTable| given.name.insert(0, 0x80))
        .slip("cut-off", 17, |given| given.name.push(0xc3))
        .slip("overlong", 17, |given| given.name.extend([0xc0, 0xaf]))
        .slip("surrogate", 17, |given| given.name.extend([0xed, 0xa0, 0x80]))
        .slip("above", 17, |given| given.name.extend([0xf4, 0x90, 0x80, 0x80]))
}

/// One peer under each type octet, in the octets of each: those too few, just
/// enough or left over.
fn peer_types(book: &mut Book) {
    let sizes = [11, 23, 13, 25];
    for octet in [0, 1, 2, 3, 0xfd] {
        for size in sizes {
            let sketch = shapes::peer_table(b"", &[octet]);
            let needed = sizes[usize::from(octet & 3)];
            let mut peers = from(&sketch, "peer0-type");
            peers.resize(size, 0);
            let given =
                Given::PeerTable(PeerTable { name: Vec::new(), count: 1, peers, ..table() });
            let name = format!("peer-{octet:02x}-of-{size}");
            match size.cmp(&needed) {
                Ordering::Less => book.bad(name, given, 99, 5),
                Ordering::Equal => book.good(name, given, 99, &sketch.record()),
                Ordering::Greater => book.bad(name, given, 99, 6),
            }
        }
    }
}

/// A writer's fields that end with a prefix and routes.
trait WithRoutes: Clone + 'static {
    fn timestamp(&mut self) -> &mut u64;
    fn table(&mut self) -> &mut Option<u64>;
    fn sequence(&mut self) -> &mut u64;
    fn routes(&mut self) -> &mut Routes;
}

impl WithRoutes for Rib {
    fn timestamp(&mut self) -> &mut u64 {
        &mut self.timestamp
    }

    fn table(&mut self) -> &mut Option<u64> {
        &mut self.table
    }

    fn sequence(&mut self) -> &mut u64 {
        &mut self.sequence
    }

    fn routes(&mut self) -> &mut Routes {
        &mut self.routes
    }
}

impl WithRoutes for RibGeneric {
    fn timestamp(&mut self) -> &mut u64 {
        &mut self.timestamp
    }

    fn table(&mut self) -> &mut Option<u64> {
        &mut self.table
    }

    fn sequence(&mut self) -> &mut u64 {
        &mut self.sequence
    }

    fn routes(&mut self) -> &mut Routes {
        &mut self.routes
    }
}

fn timestamp<T: WithRoutes>() -> Field<T> {
    Field::carried("timestamp", 4, SECONDS, |given: &mut T| given.timestamp())
}

/// No table: a fault of the header, before any field.
fn in_force<T: WithRoutes>() -> Field<T> {
    Field::part("table").slip("none", 12, |given: &mut T| *given.table() = None)
}

fn sequence<T: WithRoutes>() -> Field<T> {
    Field::carried("sequence", 4, 42, |given: &mut T| given.sequence())
}

fn prefix_and_entries<T: WithRoutes>(family: Family) -> Vec<Field<T>> {
    let most = u64::from(family.bits());
    let fine: &[u64] = if family == V4 { &[17, 24] } else { &[34, 40] };
    vec![
        Field::number("prefix-length", 1, fine[0], |given: &mut T| &mut given.routes().bits)
            .not(&[most + 1, 255], 8)
            .or(fine),
        Field::sized("prefix", |given: &mut T| &mut given.routes().prefix),
        Field::number("entry-count", 2, 2, |given: &mut T| &mut given.routes().count),
        Field::part("entries")
            .slip("short", 5, |given: &mut T| shorten(&mut given.routes().entries))
            .slip("index", 13, |given| given.routes().entries[1] = 3)
            .slip("long", 6, |given| given.routes().entries.push(0))
            .slip("attributes", 11, |given| given.routes().entries[10] = 2)
            .slip("none", 5, |given| given.routes().entries.clear()),
    ]
}

fn fixed(name: &'static str, subtype: u16) -> Call<Rib> {
    let family = if subtype < 4 { V4 } else { V6 };
    let mut fields = vec![
        timestamp(),
        Field::number("subtype", 2, subtype.into(), |given: &mut Rib| &mut given.subtype)
            .not(&[0, 1, 6, 7, 258], 4),
        in_force(),
        sequence(),
    ];
    fields.extend(prefix_and_entries(family));
    Call { name, good: rib(subtype), sketch: rib_sketch(subtype), fields, given: Given::Rib }
}

fn stated(name: &'static str, family: Family, safi: u64) -> Call<RibGeneric> {
    let mut fields = vec![
        timestamp(),
        in_force(),
        sequence(),
        Field::number("family", 2, family.code().into(), |given: &mut RibGeneric| {
            &mut given.family
        })
        .not(&[0, 3, 257, 65_535], 7),
        Field::number("safi", 1, safi, |given: &mut RibGeneric| &mut given.safi)
            .not(&[0, 3, 255], 7)
            .or(&[3 - safi]),
    ];
    fields.extend(prefix_and_entries(family));
    let (good, sketch) = (generic(family, safi), generic_sketch(family, safi));
    Call { name, good, sketch, fields, given: Given::RibGeneric }
}

//! Calls of the writers made up for comparing two programs.

mod entries;
mod fields;
mod large;
mod names;
mod parts;
mod sessions;
mod tables;

use crate::cut::Answer;
use crate::cut_cases::text;
use crate::files;
use crate::writers::{Given, Routes, Session, Time};
use std::collections::BTreeMap;
use std::io;
use std::path::Path;

/// How many numbers and parts every file has, used or not.
const NUMBERS: usize = 10;
const PARTS: usize = 3;

pub struct Case {
    pub given: Given,
    /// How many octets the output buffer has.
    pub room: usize,
    /// What the maker of the case meant to come out.
    pub intent: Answer,
}

impl Case {
    pub fn answer(&self) -> Answer {
        self.given.write(self.room)
    }

    /// Writer 1, room 4, ten numbers of 8, the sizes of three parts (4 each),
    /// and the parts. What the writer does not take is zero or empty.
    pub fn to_octets(&self) -> Vec<u8> {
        let (writer, mut numbers, mut parts) = flat(&self.given);
        assert!(numbers.len() <= NUMBERS && parts.len() <= PARTS, "too much for the form");
        numbers.resize(NUMBERS, 0);
        parts.resize(PARTS, &[]);
        let mut octets = vec![writer];
        octets.extend(size(self.room));
        octets.extend(numbers.iter().flat_map(|number| number.to_be_bytes()));
        octets.extend(parts.iter().flat_map(|part| size(part.len())));
        octets.extend(parts.concat());
        octets
    }
}

fn size(count: usize) -> [u8; 4] {
    u32::try_from(count).expect("size above four octets").to_be_bytes()
}

/// Which writer, its numbers and its parts, both in the order of its fields.
fn flat(given: &Given) -> (u8, Vec<u64>, Vec<&[u8]>) {
    match given {
        Given::Unread(g) => {
            (0, [flat_time(g.time), vec![g.code, g.subtype]].concat(), vec![&g.contents])
        }
        Given::TableDump(g) => {
            let first = vec![g.timestamp, g.subtype, g.view, g.sequence];
            let last = vec![g.bits, g.status, g.originated, g.peer_as];
            (1, [first, last].concat(), vec![&g.prefix, &g.address, &g.attributes])
        }
        Given::PeerTable(g) => {
            (2, vec![g.timestamp, g.collector, g.count], vec![&g.name, &g.peers])
        }
        Given::Rib(g) => {
            let first = [vec![g.timestamp, g.subtype], flat_table(g.table)].concat();
            (3, [first, vec![g.sequence], flat_routes(&g.routes)].concat(), route_parts(&g.routes))
        }
        Given::RibGeneric(g) => {
            let first = [vec![g.timestamp], flat_table(g.table)].concat();
            let last = [vec![g.sequence, g.family, g.safi], flat_routes(&g.routes)].concat();
            (4, [first, last].concat(), route_parts(&g.routes))
        }
        Given::Change(g) => {
            let numbers = [flat_session(&g.session), vec![g.old, g.new]].concat();
            (5, numbers, session_parts(&g.session))
        }
        Given::Message(g) => {
            let parts = [session_parts(&g.session), vec![&g.message]].concat();
            (6, flat_session(&g.session), parts)
        }
    }
}

/// Whether there are microseconds, the seconds, and the microseconds or 0.
fn flat_time(time: Time) -> Vec<u64> {
    match time {
        Time::Seconds(seconds) => vec![0, seconds, 0],
        Time::Micro { seconds, micro } => vec![1, seconds, micro],
    }
}

/// Whether there is a table, and its peers or 0.
fn flat_table(table: Option<u64>) -> Vec<u64> {
    table.map_or(vec![0, 0], |peers| vec![1, peers])
}

fn flat_routes(routes: &Routes) -> Vec<u64> {
    vec![routes.bits, routes.count]
}

fn route_parts(routes: &Routes) -> Vec<&[u8]> {
    vec![&routes.prefix, &routes.entries]
}

fn flat_session(session: &Session) -> Vec<u64> {
    let first = vec![session.subtype, session.peer_as, session.local_as];
    [flat_time(session.time), first, vec![session.interface, session.family]].concat()
}

fn session_parts(session: &Session) -> Vec<&[u8]> {
    vec![&session.peer_address, &session.local_address]
}

/// Cases by name, in the order of their names.
#[derive(Default)]
pub struct Book {
    cases: BTreeMap<String, Case>,
}

impl Book {
    /// All cases; the same at every call.
    pub fn generate() -> Book {
        let mut book = Book::default();
        tables::add(&mut book);
        sessions::add(&mut book);
        entries::add(&mut book);
        large::add(&mut book);
        names::add(&mut book);
        book
    }

    pub fn iter(&self) -> impl Iterator<Item = (&str, &Case)> {
        self.cases.iter().map(|(name, case)| (name.as_str(), case))
    }

    pub fn get(&self, name: &str) -> &Case {
        &self.cases[name]
    }

    /// Fields that make this record, and some room.
    fn good(&mut self, name: impl Into<String>, given: Given, room: usize, record: &[u8]) {
        if record.len() > room {
            return self.bad(name, given, room, 15);
        }
        let intent = Answer { fault: 0, place: 0, octets: record.to_vec() };
        self.insert(name.into(), Case { given, room, intent });
    }

    /// Fields or room that are refused.
    fn bad(&mut self, name: impl Into<String>, given: Given, room: usize, fault: u8) {
        let intent = Answer { fault, place: 0, octets: Vec::new() };
        self.insert(name.into(), Case { given, room, intent });
    }

    fn insert(&mut self, name: String, case: Case) {
        let earlier = self.cases.insert(name.clone(), case);
        assert!(earlier.is_none(), "two cases named {name}");
    }

    /// Writes `data/NAME`, `args` and `stdout` below the directory.
    pub fn write_to(&self, directory: &Path) -> io::Result<()> {
        let data = self.iter().map(|(name, case)| (name, case.to_octets())).collect();
        files::write_set(directory, &data, &self.stdout())
    }

    pub fn stdout(&self) -> String {
        self.iter().map(|(name, case)| text(name, &case.answer())).collect()
    }
}

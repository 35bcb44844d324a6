//! Cuts made up for comparing two programs.

mod chains;
mod examples;
pub(crate) mod faults;
mod large;
mod lists;
mod long_lists;
mod micros;
mod numbers;
mod parts;
pub mod random;
mod rooms;
mod tables;
mod types;
mod windows;

use crate::cut::{cut, Answer};
use crate::files;
use std::collections::BTreeMap;
use std::io;
use std::path::Path;

/// A window and a list of AS numbers.
#[derive(Clone, Debug, PartialEq, Eq)]
pub struct Ask {
    pub start: u64,
    pub end: u64,
    pub list: Vec<u32>,
}

impl Ask {
    pub fn window(start: u64, end: u64) -> Ask {
        Ask { start, end, list: Vec::new() }
    }

    /// The window that holds every time there is.
    pub fn whole() -> Ask {
        Ask::window(0, u64::MAX)
    }

    pub fn muting(self, list: &[u32]) -> Ask {
        Ask { list: list.to_vec(), ..self }
    }

    pub fn cut(&self, dump: &[u8], room: usize) -> Answer {
        cut(dump, self.start, self.end, &self.list, room)
    }
}

pub struct Case {
    pub ask: Ask,
    /// How many octets the output buffer has.
    pub room: usize,
    pub dump: Vec<u8>,
    /// What the maker of the case meant to come out; absent where chance made
    /// the dump.
    pub intent: Option<Answer>,
}

impl Case {
    pub fn answer(&self) -> Answer {
        self.ask.cut(&self.dump, self.room)
    }

    /// Start 8, end 8, room 4, list count 2, each number 4, and the dump.
    pub fn to_octets(&self) -> Vec<u8> {
        let room = u32::try_from(self.room).expect("room above four octets");
        let count = u16::try_from(self.ask.list.len()).expect("list above two octets of count");
        let mut octets = self.ask.start.to_be_bytes().to_vec();
        octets.extend(self.ask.end.to_be_bytes());
        octets.extend(room.to_be_bytes());
        octets.extend(count.to_be_bytes());
        octets.extend(self.ask.list.iter().flat_map(|asn| asn.to_be_bytes()));
        octets.extend(&self.dump);
        octets
    }
}

/// More octets than this are told by their Adler-32 alone.
const LISTED: usize = 65_536;

/// The lines that another program shall print for a case.
pub fn text(name: &str, answer: &Answer) -> String {
    let Answer { fault, place, octets } = answer;
    let first = format!("{name}\nfault={fault} place={place} octets={}\n", octets.len());
    let middle: String = if octets.len() > LISTED {
        format!("adler32={}\n", adler32(octets))
    } else {
        octets.chunks(32).map(hex_line).collect()
    };
    first + &middle + "rest=ok\n"
}

/// RFC 1950's checksum.
pub fn adler32(octets: &[u8]) -> u32 {
    let (mut low, mut high) = (1, 0);
    for octet in octets {
        low = (low + u32::from(*octet)) % 65_521;
        high = (high + low) % 65_521;
    }
    high << 16 | low
}

fn hex_line(octets: &[u8]) -> String {
    let digits: String = octets.iter().map(|octet| format!("{octet:02x}")).collect();
    digits + "\n"
}

/// Cases by name, in the order of their names.
#[derive(Default)]
pub struct Book {
    cases: BTreeMap<String, Case>,
}

impl Book {
    /// All cases; the same at every call.
    pub fn generate() -> Book {
        let mut book = Book::default();
        examples::add(&mut book);
        types::add(&mut book);
        windows::add(&mut book);
        micros::add(&mut book);
        numbers::add(&mut book);
        lists::add(&mut book);
        chains::add(&mut book);
        long_lists::add(&mut book);
        tables::add(&mut book);
        rooms::add(&mut book);
        faults::add(&mut book);
        large::add(&mut book);
        random::add(&mut book);
        book
    }

    /// Cases whose lists are longer than a case file can count, and so are not stored.
    pub fn past_files() -> Book {
        let mut book = Book::default();
        long_lists::add_longer(&mut book);
        book
    }

    pub fn iter(&self) -> impl Iterator<Item = (&str, &Case)> {
        self.cases.iter().map(|(name, case)| (name.as_str(), case))
    }

    pub fn get(&self, name: &str) -> &Case {
        &self.cases[name]
    }

    /// A good dump, and the records that are left of it.
    fn left(&mut self, name: impl Into<String>, ask: &Ask, dump: &[Vec<u8>], left: &[Vec<u8>]) {
        self.left_in(name, ask, dump.concat().len(), dump, left);
    }

    /// The same for an output buffer of any size.
    fn left_in(
        &mut self,
        name: impl Into<String>,
        ask: &Ask,
        room: usize,
        dump: &[Vec<u8>],
        left: &[Vec<u8>],
    ) {
        let octets = left.concat();
        let intent = if octets.len() > room {
            Answer { fault: 15, place: 0, octets: Vec::new() }
        } else {
            Answer { fault: 0, place: 0, octets }
        };
        self.insert(name.into(), ask, room, dump.concat(), Some(intent));
    }

    /// A cut that is refused for its window or for what the dump is.
    fn refused(
        &mut self,
        name: impl Into<String>,
        ask: &Ask,
        room: usize,
        dump: &[u8],
        (fault, place): (u8, usize),
    ) {
        let intent = Answer { fault, place, octets: Vec::new() };
        self.insert(name.into(), ask, room, dump.to_vec(), Some(intent));
    }

    /// A cut that nobody meant anything by.
    fn chance(&mut self, name: impl Into<String>, ask: &Ask, room: usize, dump: Vec<u8>) {
        self.insert(name.into(), ask, room, dump, None);
    }

    fn insert(
        &mut self,
        name: String,
        ask: &Ask,
        room: usize,
        dump: Vec<u8>,
        intent: Option<Answer>,
    ) {
        let case = Case { ask: ask.clone(), room, dump, intent };
        let earlier = self.cases.insert(name.clone(), case);
        assert!(earlier.is_none(), "two cases named {name}");
    }

    /// Writes `data/NAME`, `args` and `stdout` below the directory.
    pub fn write_to(&self, directory: &Path) -> io::Result<()> {
        let data = self.iter().map(|(name, case)| (name, case.to_octets())).collect();
        files::write_set(directory, &data, &self.stdout())
    }

    pub fn stdout(&self) -> String {
        self.iter().map(|(name, case)| text(name, &case.answer())).collect()
    }
}

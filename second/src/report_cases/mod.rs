//! Reports to add dumps to, made up for comparing two programs.

mod cells;
mod examples;
mod faults;
mod parts;
pub mod random;
mod sequences;
mod sizes;
mod sums;

use crate::files;
use crate::report::{self, Answer, Report};
use std::collections::BTreeMap;
use std::io;
use std::path::Path;

pub struct Case {
    /// The report that the dump is added to.
    pub lent: Report,
    pub dump: Vec<u8>,
    /// What the maker of the case meant to come out; absent where chance made
    /// the dump.
    pub intent: Option<Answer>,
}

impl Case {
    pub fn answer(&self) -> Answer {
        report::add(&self.dump, &self.lent)
    }

    /// The report's numbers, 8 octets each, and the dump.
    pub fn to_octets(&self) -> Vec<u8> {
        let mut octets: Vec<u8> =
            self.lent.numbers().into_iter().flat_map(u64::to_be_bytes).collect();
        octets.extend(&self.dump);
        octets
    }
}

/// The lines that another program shall print for a case.
pub fn text(name: &str, dump: &[u8], answer: &Answer) -> String {
    let own = report::text(dump);
    let numbers = answer.report.numbers().map(|number| number.to_string()).join(" ");
    format!("{name}\n{own}answer={} {}\n{numbers}\n", answer.fault, answer.place)
}

/// Cases by name, in the order of their names.
#[derive(Default)]
pub struct Book {
    cases: BTreeMap<String, Case>,
}

impl Book {
    /// All cases; the same at every call.
    pub fn generate() -> Book {
        let mut book = Book::default();
        examples::add(&mut book);
        cells::add(&mut book);
        sequences::add(&mut book);
        sums::add(&mut book);
        faults::add(&mut book);
        sizes::add(&mut book);
        random::add(&mut book);
        book
    }

    pub fn iter(&self) -> impl Iterator<Item = (&str, &Case)> {
        self.cases.iter().map(|(name, case)| (name.as_str(), case))
    }

    pub fn get(&self, name: &str) -> &Case {
        &self.cases[name]
    }

    /// A dump that adds this report of its own.
    fn adds(&mut self, name: impl Into<String>, lent: &Report, dump: &[Vec<u8>], own: &Report) {
        let (before, own) = (lent.numbers(), own.numbers());
        let after = std::array::from_fn(|place| before[place] + own[place]);
        let place = dump.concat().len();
        let intent = Answer { fault: 0, place, report: Report::of_numbers(&after) };
        self.insert(name.into(), lent, dump.concat(), Some(intent));
    }

    /// A call that is refused and leaves the report.
    fn refused(
        &mut self,
        name: impl Into<String>,
        lent: &Report,
        dump: &[u8],
        (fault, place): (u8, usize),
    ) {
        let intent = Answer { fault, place, report: lent.clone() };
        self.insert(name.into(), lent, dump.to_vec(), Some(intent));
    }

    /// A dump that nobody meant anything by.
    fn chance(&mut self, name: impl Into<String>, lent: &Report, dump: Vec<u8>) {
        self.insert(name.into(), lent, dump, None);
    }

    fn insert(&mut self, name: String, lent: &Report, dump: Vec<u8>, intent: Option<Answer>) {
        let case = Case { lent: lent.clone(), dump, intent };
        let earlier = self.cases.insert(name.clone(), case);
        assert!(earlier.is_none(), "two cases named {name}");
    }

    /// Writes `data/NAME`, `args` and `stdout` below the directory.
    pub fn write_to(&self, directory: &Path) -> io::Result<()> {
        let data = self.iter().map(|(name, case)| (name, case.to_octets())).collect();
        files::write_set(directory, &data, &self.stdout())
    }

    pub fn stdout(&self) -> String {
        self.iter().map(|(name, case)| text(name, &case.dump, &case.answer())).collect()
    }
}

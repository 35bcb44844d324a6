//! The session report: what the records of many dumps count up to.

use crate::bgp4mp::{Event, State};
use crate::dump::Dump;
use crate::listing::LARGEST;
use crate::record::{Body, Record};

/// The number of a sum past 64 bits.
const SUM_TOO_LARGE: u8 = 16;

/// How many numbers a report has.
pub const NUMBERS: usize = 39;

#[derive(Clone, Debug, Default, PartialEq, Eq)]
pub struct Report {
    pub records: u64,
    pub changes: u64,
    pub breaks: u64,
    /// How often each old state (the row) went to each new one.
    pub table: [[u64; 6]; 6],
}

impl Report {
    /// A dump's own; what is behind a fault does not count.
    pub fn of(dump: &Dump) -> Report {
        let records = || dump.records.iter().map(|located| &located.record);
        let changes: Vec<(State, State)> = records().filter_map(states).collect();
        let sequences: Vec<u16> = records().filter_map(sequence).collect();
        Report {
            records: records().count() as u64,
            changes: changes.len() as u64,
            breaks: sequences.windows(2).filter(|pair| !follows(pair[0], pair[1])).count() as u64,
            table: table(&changes),
        }
    }

    /// Records, changes, breaks and the table, row by row.
    pub fn numbers(&self) -> [u64; NUMBERS] {
        let totals = [self.records, self.changes, self.breaks];
        let all: Vec<u64> = totals.into_iter().chain(self.table.into_iter().flatten()).collect();
        all.try_into().expect("three and 36 numbers")
    }

    pub fn of_numbers(numbers: &[u64; NUMBERS]) -> Report {
        let row = |old: usize| std::array::from_fn(|new| numbers[3 + 6 * old + new]);
        let [records, changes, breaks, ..] = *numbers;
        Report { records, changes, breaks, table: std::array::from_fn(row) }
    }

    /// Both together, if each number fits 64 bits.
    fn sum(&self, other: &Report) -> Option<Report> {
        let (one, two) = (self.numbers(), other.numbers());
        let sums = one.iter().zip(two).map(|(one, two)| u128::from(*one) + u128::from(two));
        let fitting: Result<Vec<u64>, _> = sums.map(u64::try_from).collect();
        let numbers: [u64; NUMBERS] = fitting.ok()?.try_into().expect("as many as there were");
        Some(Report::of_numbers(&numbers))
    }
}

fn states(record: &Record) -> Option<(State, State)> {
    match &record.body {
        Body::Bgp4mp(event) => match event.event {
            Event::StateChange { old, new } => Some((old, new)),
            Event::Message(_) => None,
        },
        _ => None,
    }
}

fn sequence(record: &Record) -> Option<u16> {
    match &record.body {
        Body::TableDump(route) => Some(route.sequence),
        _ => None,
    }
}

fn follows(before: u16, after: u16) -> bool {
    (u32::from(before) + 1) % 65_536 == u32::from(after)
}

fn table(changes: &[(State, State)]) -> [[u64; 6]; 6] {
    let mut table = [[0; 6]; 6];
    for (old, new) in changes {
        table[*old as usize - 1][*new as usize - 1] += 1;
    }
    table
}

/// What adding a dump to a report answers, and the report afterwards.
#[derive(Clone, Debug, PartialEq, Eq)]
pub struct Answer {
    pub fault: u8,
    pub place: usize,
    pub report: Report,
}

/// Adds a dump's own report to one that is there.
pub fn add(octets: &[u8], report: &Report) -> Answer {
    let dump = Dump::read(octets);
    let (fault, place) = (dump.end.number(), dump.end.place);
    if dump.end.fault.is_some() {
        return Answer { fault, place, report: report.clone() };
    }
    match report.sum(&Report::of(&dump)) {
        Some(report) => Answer { fault, place, report },
        None => Answer { fault: SUM_TOO_LARGE, place: 0, report: report.clone() },
    }
}

/// All that is printed of one dump.
pub fn text(octets: &[u8]) -> String {
    if octets.len() > LARGEST {
        return "too large\n".to_string();
    }
    let dump = Dump::read(octets);
    if dump.end.fault.is_some() {
        return format!("fault={} place={}\n", dump.end.number(), dump.end.place);
    }
    lines(&Report::of(&dump))
}

/// A line for each of the three totals, and for each cell that is not zero.
pub fn lines(report: &Report) -> String {
    let Report { records, changes, breaks, table } = report;
    let mut text = format!("records={records}\nchanges={changes}\nbreaks={breaks}\n");
    for (old, row) in (1..).zip(table) {
        for (new, count) in (1..).zip(row).filter(|(_, count)| **count != 0) {
            text.push_str(&format!("change.{old}.{new}={count}\n"));
        }
    }
    text
}

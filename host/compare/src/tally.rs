//! What was compared, counted.

use crate::making::{Field, Kind, Writer};
use second::report::{Report, NUMBERS};
use std::collections::BTreeMap;
use std::fmt;

/// Answers are 0 to 17.
pub const ANSWERS: usize = 18;

/// Cuts are counted that have lists of so many numbers or more.
pub const LISTS: [usize; 4] = [100, 1_000, 65_536, 70_000];

/// How often each turn of a writer slipped together with each other one.
#[derive(Clone, Copy, Debug, Default, PartialEq, Eq)]
pub struct Pairs([[u64; Writer::MOST_TURNS]; Writer::MOST_TURNS]);

impl Pairs {
    pub fn count(&mut self, slipped: &[bool; Writer::MOST_TURNS]) {
        for (one, with) in self.0.iter_mut().enumerate() {
            for (other, count) in with.iter_mut().enumerate() {
                *count += u64::from(slipped[one] && slipped[other]);
            }
        }
    }

    /// For the two that it was seldomest.
    pub fn fewest(&self, writer: Writer) -> u64 {
        let turns = writer.turns();
        self.0[..turns].iter().flat_map(|with| &with[..turns]).copied().min().unwrap_or(0)
    }
}

#[derive(Clone, Debug, PartialEq, Eq)]
pub struct Tally {
    pub dumps: u64,
    /// In the order of [`Kind::ALL`].
    pub kinds: [u64; Kind::ALL.len()],
    /// Dumps by the number of their fault.
    pub faults: [u64; ANSWERS],
    /// Dumps by the number of their fault and the name of the field that failed.
    pub failed: BTreeMap<(u8, &'static str), u64>,
    /// Dumps in which this field is damaged, accepted and refused, in the order of [`Field::ALL`].
    pub fields: [[u64; 2]; Field::COUNT],
    /// Dumps whose check was held against going from record to record, without the second program.
    pub itself: u64,
    pub records: u64,
    /// Peers and entries.
    pub items: u64,
    /// Calls at places and with tables that need not belong together.
    pub stray: u64,
    /// Reads of one record, by the number of its fault.
    pub read: [u64; ANSWERS],
    /// Records that were read and written again, in the order of [`Writer::ALL`].
    pub back: [u64; Writer::ALL.len()],
    /// Made-up calls of each writer, by their answer.
    pub written: [[u64; ANSWERS]; Writer::ALL.len()],
    /// Which of each writer's fields were at fault together.
    pub slips: [Pairs; Writer::ALL.len()],
    /// Cuts by their answer.
    pub cuts: [u64; ANSWERS],
    /// Cuts that leave something, but not the dump as it was.
    pub changed: u64,
    /// Cuts with lists that reach each of [`LISTS`], and how many of them leave something, but not
    /// the dump as it was.
    pub lists: [[u64; 2]; LISTS.len()],
    /// Cuts of cuts.
    pub twice: u64,
    /// Cuts of two dumps laid end to end.
    pub joined: u64,
    /// Dumps added to a lent report, by the answer.
    pub reports: [u64; ANSWERS],
    /// What all accepted dumps that were counted count up to, as a report's words.
    pub counted: [u64; NUMBERS],
    /// Steps of a sequence from 65,535 to 0, and those that a break is not.
    pub wraps: u64,
    pub goes_on: u64,
    /// Two dumps added one after the other.
    pub sums: u64,
    /// Dumps of tables made for their names, by their fault, and calls of their writer, by the answer.
    pub named: [[u64; ANSWERS]; 2],
    /// Two dumps counted as one: no chain over the seam, one that goes on there, one that breaks.
    pub seams: [u64; 3],
}

impl Default for Tally {
    fn default() -> Tally {
        Tally {
            dumps: 0,
            kinds: [0; Kind::ALL.len()],
            faults: [0; ANSWERS],
            failed: BTreeMap::new(),
            fields: [[0; 2]; Field::COUNT],
            itself: 0,
            records: 0,
            items: 0,
            stray: 0,
            read: [0; ANSWERS],
            back: [0; Writer::ALL.len()],
            written: [[0; ANSWERS]; Writer::ALL.len()],
            slips: Default::default(),
            cuts: [0; ANSWERS],
            changed: 0,
            lists: [[0; 2]; LISTS.len()],
            twice: 0,
            joined: 0,
            reports: [0; ANSWERS],
            counted: [0; NUMBERS],
            wraps: 0,
            goes_on: 0,
            sums: 0,
            named: [[0; ANSWERS]; 2],
            seams: [0; 3],
        }
    }
}

impl Tally {
    pub fn kind(&mut self, kind: Kind) {
        self.kinds[kind as usize] += 1;
    }

    /// A dump of which this field is damaged.
    pub fn field(&mut self, field: Field, is_refused: bool) {
        self.fields[field as usize][usize::from(is_refused)] += 1;
    }

    /// A dump of which this field failed.
    pub fn failed(&mut self, number: u8, field: &'static str) {
        *self.failed.entry((number, field)).or_default() += 1;
    }

    /// A cut with a list of so many numbers.
    pub fn list(&mut self, numbers: usize, is_changed: bool) {
        for (size, [all, changed]) in LISTS.iter().zip(&mut self.lists) {
            *all += u64::from(numbers >= *size);
            *changed += u64::from(numbers >= *size && is_changed);
        }
    }

    /// How many dumps with one field damaged are accepted, and how many refused.
    pub fn of_fields(&self) -> [u64; 2] {
        self.fields.iter().fold([0; 2], |all, one| [all[0] + one[0], all[1] + one[1]])
    }

    /// What an accepted dump counts up to, and its steps from sequence to sequence.
    pub fn counted(&mut self, own: &Report, steps: &[[u16; 2]]) {
        self.counted.iter_mut().zip(own.numbers()).for_each(|(all, one)| *all += one);
        self.wraps += steps.iter().filter(|step| **step == [65_535, 0]).count() as u64;
        self.goes_on += steps.len() as u64 - own.breaks;
    }

    pub fn add(&mut self, other: &Tally) {
        fn all<const N: usize>(to: &mut [u64; N], from: &[u64; N]) {
            to.iter_mut().zip(from).for_each(|(to, from)| *to += from);
        }
        all(&mut self.kinds, &other.kinds);
        all(&mut self.faults, &other.faults);
        all(&mut self.read, &other.read);
        all(&mut self.back, &other.back);
        all(&mut self.cuts, &other.cuts);
        all(&mut self.reports, &other.reports);
        all(&mut self.counted, &other.counted);
        all(&mut self.seams, &other.seams);
        self.lists.iter_mut().zip(&other.lists).for_each(|(to, from)| all(to, from));
        self.named.iter_mut().zip(&other.named).for_each(|(to, from)| all(to, from));
        self.written.iter_mut().zip(&other.written).for_each(|(to, from)| all(to, from));
        for (to, from) in self.slips.iter_mut().zip(&other.slips) {
            to.0.iter_mut().zip(&from.0).for_each(|(to, from)| all(to, from));
        }
        self.fields.iter_mut().zip(&other.fields).for_each(|(to, from)| all(to, from));
        for (key, count) in &other.failed {
            *self.failed.entry(*key).or_default() += count;
        }
        self.itself += other.itself;
        self.dumps += other.dumps;
        self.records += other.records;
        self.items += other.items;
        self.stray += other.stray;
        self.changed += other.changed;
        self.twice += other.twice;
        self.joined += other.joined;
        self.wraps += other.wraps;
        self.goes_on += other.goes_on;
        self.sums += other.sums;
    }

    fn tell_cuts(&self, f: &mut fmt::Formatter) -> fmt::Result {
        writeln!(f, "cuts by answer, from 0 on: {:?}", self.cuts)?;
        writeln!(f, "{} cuts leave something else than all or nothing", self.changed)?;
        for (size, [all, changed]) in LISTS.iter().zip(self.lists) {
            writeln!(f, "  with lists of {size} numbers or more: {changed} of {all} cuts")?;
        }
        writeln!(f, "{} cuts of cuts, {} cuts of two dumps end to end", self.twice, self.joined)
    }
}

impl fmt::Display for Tally {
    fn fmt(&self, f: &mut fmt::Formatter) -> fmt::Result {
        writeln!(f, "{} dumps", self.dumps)?;
        for (kind, count) in Kind::ALL.iter().zip(self.kinds) {
            writeln!(f, "  {kind:?}: {count}")?;
        }
        writeln!(f, "dumps by fault, from 0 on: {:?}", self.faults)?;
        for ((number, field), count) in &self.failed {
            writeln!(f, "  {number} at {field}: {count}")?;
        }
        writeln!(f, "one field damaged: {:?}, accepted and refused", self.of_fields())?;
        for (field, counts) in Field::ALL.iter().zip(self.fields) {
            writeln!(f, "  {field:?}: {counts:?}")?;
        }
        writeln!(f, "{} more dumps, the library against itself", self.itself)?;
        writeln!(f, "{} records, {} peers and entries", self.records, self.items)?;
        writeln!(f, "{} calls at any place", self.stray)?;
        writeln!(f, "reads of one record, by fault, from 0 on: {:?}", self.read)?;
        for writer in Writer::ALL {
            let (back, counts) = (self.back[writer as usize], self.written[writer as usize]);
            let fewest = self.slips[writer as usize].fewest(writer);
            writeln!(f, "  {writer:?}: {back} written again; by answer, from 0 on: {counts:?}")?;
            writeln!(f, "    any two fields at fault together: {fewest} times or more")?;
        }
        self.tell_cuts(f)?;
        writeln!(f, "reports by answer, from 0 on: {:?}", self.reports)?;
        let [records, changes, breaks, cells @ ..] = self.counted;
        writeln!(f, "  {records} records, {changes} state changes, {breaks} breaks")?;
        writeln!(f, "  {} steps go on, {} of them from 65,535 to 0", self.goes_on, self.wraps)?;
        writeln!(f, "  cells, from 1 to 1 on: {cells:?}")?;
        let [dumps, calls] = self.named;
        writeln!(f, "dumps made for view names, by fault, from 0 on: {dumps:?}")?;
        writeln!(f, "  and calls of their writer, by answer: {calls:?}")?;
        let [none, goes_on, breaks] = self.seams;
        writeln!(f, "{} sums of two reports", self.sums)?;
        writeln!(
            f,
            "both dumps as one: {goes_on} chains go on at the seam, {breaks} break there,"
        )?;
        write!(f, "  and {none} times there is none over it")
    }
}

//! Dumps made up for comparing two programs, good ones and spoiled ones.

mod appendix_a;
mod bits;
mod checks;
mod cuts;
mod examples;
mod fields;
mod names;
mod order;
mod places;
pub(crate) mod random;
pub mod rng;
pub(crate) mod sequences;
pub(crate) mod shapes;
pub(crate) mod sketch;
pub(crate) mod slip;
mod tables;

use crate::files;
use crate::listing::listing;
use sketch::Sketch;
use slip::Slip;
use std::collections::{BTreeMap, BTreeSet};
use std::io;
use std::path::Path;

/// What the maker of a vector meant a reader to find.
#[derive(Clone, Copy, Debug, PartialEq, Eq)]
pub struct Intent {
    pub records: usize,
    pub fault: u8,
    pub place: usize,
    /// Where the faulty record starts; the dump's length if there is none.
    pub record: usize,
    /// What the field with the fault is called.
    pub field: Option<&'static str>,
}

pub struct Vector {
    pub octets: Vec<u8>,
    /// Absent where chance made the octets.
    pub intent: Option<Intent>,
}

/// Vectors by name, in the order of their names.
#[derive(Default)]
pub struct Suite {
    vectors: BTreeMap<String, Vector>,
}

impl Suite {
    /// All vectors; the same at every call.
    pub fn generate() -> Suite {
        let mut suite = Suite::default();
        appendix_a::add(&mut suite);
        examples::add(&mut suite);
        cuts::add(&mut suite);
        checks::add(&mut suite);
        tables::add(&mut suite);
        bits::add(&mut suite);
        names::add(&mut suite);
        order::add(&mut suite);
        places::add(&mut suite);
        fields::add(&mut suite);
        random::add(&mut suite);
        suite
    }

    /// Every layout cut short everywhere; tests try them, and nothing stores them.
    pub fn of_every_cut() -> Suite {
        let mut suite = Suite::default();
        cuts::at_every_octet(&mut suite);
        suite
    }

    pub fn iter(&self) -> impl Iterator<Item = (&str, &Vector)> {
        self.vectors.iter().map(|(name, vector)| (name.as_str(), vector))
    }

    pub fn get(&self, name: &str) -> &Vector {
        &self.vectors[name]
    }

    /// A dump of good records.
    fn good(&mut self, name: impl Into<String>, records: &[Vec<u8>]) {
        let octets = records.concat();
        let size = octets.len();
        let intent =
            Intent { records: records.len(), fault: 0, place: size, record: size, field: None };
        self.insert(name.into(), octets, Some(intent));
    }

    /// Good records, then one with a fault, and anything at all behind.
    fn bad(&mut self, name: impl Into<String>, before: &[Vec<u8>], slip: Slip) {
        let mut octets = before.concat();
        let record = octets.len();
        let intent = Intent {
            records: before.len(),
            fault: slip.fault,
            place: record + slip.place,
            record,
            field: Some(slip.field),
        };
        octets.extend(slip.octets);
        self.insert(name.into(), octets, Some(intent));
    }

    /// A dump that is good when the fault is zero; else the named field has it.
    fn one(
        &mut self,
        name: impl Into<String>,
        before: &[Vec<u8>],
        last: &Sketch,
        (fault, field): (u8, &str),
    ) {
        if fault == 0 {
            self.good(name, &[before, &[last.record()]].concat());
        } else {
            self.bad(name, before, last.wrong(fault, field));
        }
    }

    /// Octets that nobody meant anything by.
    fn chance(&mut self, name: impl Into<String>, octets: Vec<u8>) {
        self.insert(name.into(), octets, None);
    }

    fn insert(&mut self, name: String, octets: Vec<u8>, intent: Option<Intent>) {
        let earlier = self.vectors.insert(name.clone(), Vector { octets, intent });
        assert!(earlier.is_none(), "two vectors named {name}");
    }

    /// Writes `data/NAME`, `args` and `stdout` below the directory.
    pub fn write_to(&self, directory: &Path) -> io::Result<()> {
        let data = self.iter().map(|(name, vector)| (name, vector.octets.clone())).collect();
        files::write_set(directory, &data, &self.listings())
    }

    fn listings(&self) -> String {
        let text =
            |(name, vector): (&String, &Vector)| format!("{name}\n{}", listing(&vector.octets));
        self.vectors.iter().map(text).collect()
    }

    /// The fault numbers that are meant somewhere.
    pub fn faults_meant(&self) -> BTreeSet<u8> {
        self.vectors
            .values()
            .filter_map(|vector| vector.intent)
            .map(|intent| intent.fault)
            .collect()
    }
}

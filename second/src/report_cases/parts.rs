//! Short ways to say the records and the reports of a case.

use crate::net::Family::{self, V4};
use crate::report::Report;
use crate::vectors::shapes::{self, EXTENDED_PATH};
use crate::vectors::sketch::Sketch;

/// Numbers that all differ, so that none can be taken for another.
pub fn counted() -> Report {
    Report::of_numbers(&std::array::from_fn(|place| 1_000 + 7 * place as u64))
}

/// Every number the same.
pub fn all(number: u64) -> Report {
    Report::of_numbers(&[number; 39])
}

/// What so many records with these changes and breaks count up to.
pub fn own(records: usize, breaks: u64, changes: &[(u16, u16)]) -> Report {
    let mut table = [[0; 6]; 6];
    for (old, new) in changes {
        table[usize::from(*old) - 1][usize::from(*new) - 1] += 1;
    }
    Report { records: records as u64, changes: changes.len() as u64, breaks, table }
}

pub fn states(sketch: &Sketch, old: u16, new: u16) -> Sketch {
    sketch.set_n("old-state", old.into()).set_n("new-state", new.into())
}

/// A state change of type 16 subtype 0.
pub fn change(old: u16, new: u16) -> Vec<u8> {
    states(&shapes::state_change(16, 0, V4), old, new).record()
}

/// A state change each.
pub fn changes(states: &[(u16, u16)]) -> Vec<Vec<u8>> {
    states.iter().map(|(old, new)| change(*old, *new)).collect()
}

/// A route of type 12 with this sequence number.
pub fn route(family: Family, sequence: u16) -> Sketch {
    shapes::table_dump(family, &EXTENDED_PATH).set_n("sequence", sequence.into())
}

/// Routes of type 12 subtype 1.
pub fn routes(sequences: &[u16]) -> Vec<Vec<u8>> {
    sequences.iter().map(|sequence| route(V4, *sequence).record()).collect()
}

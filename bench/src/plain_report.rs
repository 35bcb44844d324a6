//! Document 02's session report of a dump in plain, safe Rust, written for speed: records are counted
//! where they are found good, and nothing is added before the last one is.

#![forbid(unsafe_code)]

use crate::plain::{self, Record};

/// Records, changes, breaks, and the cells row by row.
pub type Report = [u64; 39];

/// The number of a sum past 64 bits.
const SUM: u64 = 16;

#[derive(Clone, Copy, Debug, PartialEq, Eq)]
pub struct Answer {
    pub fault: u64,
    pub place: u64,
}

/// Adds what the dump counts up to, if it has no fault and every sum fits.
pub fn add(dump: &[u8], report: &mut Report) -> Answer {
    let mut own = Own { report: [0; 39], previous: None };
    let checked = plain::dump_with(dump, |record| own.count(record));
    if checked.fault != 0 {
        return Answer { fault: checked.fault, place: checked.place };
    }
    own.report[0] = checked.records;
    if report.iter().zip(own.report).any(|(one, more)| one.checked_add(more).is_none()) {
        return Answer { fault: SUM, place: 0 };
    }
    report.iter_mut().zip(own.report).for_each(|(one, more)| *one += more);
    Answer { fault: 0, place: checked.place }
}

/// What the records so far count up to, but for their number.
pub struct Own {
    pub report: Report,
    /// The sequence of the last type 12 record.
    previous: Option<u16>,
}

impl Own {
    #[inline(always)]
    fn count(&mut self, record: &Record) {
        match (record.kind, record.subtype) {
            (16 | 17, 0 | 5) => self.change(record.message),
            (12, _) => self.route(record.message),
            _ => {}
        }
    }

    fn change(&mut self, message: &[u8]) {
        if let [.., old @ 1..=6, _, new @ 1..=6] = *message {
            self.report[1] += 1;
            self.report[3 + 6 * usize::from(old - 1) + usize::from(new - 1)] += 1;
        }
    }

    fn route(&mut self, message: &[u8]) {
        if let [_, _, high, low, ..] = *message {
            let sequence = u16::from_be_bytes([high, low]);
            let is_break = self.previous.is_some_and(|last| last.wrapping_add(1) != sequence);
            self.report[2] += u64::from(is_break);
            self.previous = Some(sequence);
        }
    }
}

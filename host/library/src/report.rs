//! The session report over many dumps.

use crate::fault::Refusal;
use crate::{answered, calls};

/// What dumps count up to; begin with the empty one and [`add`](Report::add) dump after dump.
#[derive(Clone, Copy, Debug, Default, PartialEq, Eq)]
pub struct Report {
    pub records: u64,
    /// State changes: types 16 and 17, subtypes 0 and 5.
    pub changes: u64,
    /// Type 12 records whose sequence is not the previous one's plus one, with 0 after 65,535. Each
    /// dump is counted alone: its first has no previous.
    pub breaks: u64,
    /// How often each old state went to each new one: `cells[old - 1][new - 1]`.
    pub cells: [[u64; 6]; 6],
}

impl Report {
    /// Adds what this dump counts up to.
    ///
    /// A dump with a fault is refused, then a sum past 64 bits
    /// ([`Fault::Report`](crate::Fault::Report)). When refused, the report is as it was.
    ///
    /// ```
    /// use dagsumilat::Report;
    ///
    /// // A state change of AS 64500 at second 1: from Active to OpenSent.
    /// let mut dump = vec![0, 0, 0, 1, 0, 16, 0, 0, 0, 0, 0, 20];
    /// dump.extend([0xfb, 0xf4, 0xfb, 0xff, 0, 0, 0, 1, 192, 0, 2, 1, 192, 0, 2, 254, 0, 3, 0, 4]);
    ///
    /// let mut report = Report::default();
    /// report.add(&dump)?;
    /// report.add(&dump)?;
    /// assert_eq!((report.records, report.changes, report.cells[3 - 1][4 - 1]), (2, 2, 2));
    /// # Ok::<(), dagsumilat::Refusal>(())
    /// ```
    pub fn add(&mut self, dump: &[u8]) -> Result<(), Refusal> {
        let mut words = self.words();
        let [number, place] = answered(|answer| calls::report(dump, &mut words, answer));
        match Refusal::of_answer(number, place) {
            Some(refusal) => Err(refusal),
            None => {
                *self = Report::of_words(&words);
                Ok(())
            }
        }
    }

    /// The three totals, then the cells row by row, as the call takes them.
    fn words(&self) -> [u64; 39] {
        let mut words = [0; 39];
        words[..3].copy_from_slice(&[self.records, self.changes, self.breaks]);
        words[3..].copy_from_slice(self.cells.as_flattened());
        words
    }

    fn of_words(words: &[u64; 39]) -> Report {
        let mut cells = [[0; 6]; 6];
        cells.as_flattened_mut().copy_from_slice(&words[3..]);
        Report { records: words[0], changes: words[1], breaks: words[2], cells }
    }
}

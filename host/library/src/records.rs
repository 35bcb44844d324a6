//! From record to record through a dump.

use crate::fault::Refusal;
use crate::record::Record;
use crate::{answered, calls};

/// The records of a dump, then, if the dump is not good, its fault.
#[derive(Clone, Debug)]
pub struct Records<'a> {
    dump: &'a [u8],
    at: usize,
    table: u64,
}

/// Goes through a dump.
///
/// ```
/// use dagsumilat::{records, Fault, Kind};
///
/// // A KEEPALIVE of AS 64500, then half a header.
/// let mut dump = vec![0, 0, 0, 1, 0, 16, 0, 1, 0, 0, 0, 35];
/// dump.extend([0xfb, 0xf4, 0xfb, 0xff, 0, 0, 0, 1, 192, 0, 2, 1, 192, 0, 2, 254]);
/// dump.extend([255; 16]);
/// dump.extend([0, 19, 4]);
/// dump.extend([0; 6]);
///
/// let mut found = records(&dump);
/// let record = found.next().unwrap().unwrap();
/// assert_eq!((record.at, record.next, record.time), (0, 47, 1_000_000));
/// assert_eq!((record.kind(), record.peer_as()), (Kind::Message, Some(64500)));
///
/// let refusal = found.next().unwrap().unwrap_err();
/// assert_eq!((refusal.fault, refusal.place), (Fault::HeaderIncomplete, 47));
/// assert!(found.next().is_none());
/// ```
pub fn records(dump: &[u8]) -> Records<'_> {
    Records { dump, at: 0, table: calls::NONE }
}

impl<'a> Iterator for Records<'a> {
    type Item = Result<Record<'a>, Refusal>;

    fn next(&mut self) -> Option<Self::Item> {
        let at = self.at;
        if at >= self.dump.len() {
            return None;
        }
        let answer = answered(|answer| calls::record(self.dump, at, self.table, answer));
        if let Some(refusal) = Refusal::of_answer(answer[0], answer[1]) {
            // Nothing behind a fault is a record.
            self.at = self.dump.len();
            return Some(Err(refusal));
        }
        let record = Record::of_answer(self.dump, at, &answer);
        self.at = record.next;
        self.table = answer[2];
        Some(Ok(record))
    }
}

//! A dump's first fault, and the record that has it.

use crate::fault::Fault;
use crate::{answered, calls, field};

/// What is wrong with a dump, and where.
#[derive(Clone, Copy, Debug, PartialEq, Eq, Hash)]
pub struct FirstFault {
    pub fault: Fault,
    /// The first octet of the field that failed.
    pub place: usize,
    /// Where the faulty record starts: the dump's octets before it are a good dump.
    pub record: usize,
    /// How many good records stand before it.
    pub records: u64,
}

impl FirstFault {
    /// The name of the field that failed, where `dump` has a field at this place that can fail so.
    ///
    /// Fault, place and record are the proved library's. The word alone is found here, from the
    /// layout of the record's octets; it is not proved, but compared with the second program's.
    pub fn field(&self, dump: &[u8]) -> Option<&'static str> {
        field::name(dump, self)
    }
}

/// The first fault of a dump, with number and place as [`check`](crate::check) and
/// [`cut`](crate::cut) answer them; none if the dump is good.
///
/// ```
/// use dagsumilat::{check, first_fault, Fault};
///
/// // A state change of AS 64500 at second 1, from Active to OpenSent, and one to a state 7.
/// let mut dump = vec![0, 0, 0, 1, 0, 16, 0, 0, 0, 0, 0, 20];
/// dump.extend([0xfb, 0xf4, 0xfb, 0xff, 0, 0, 0, 1, 192, 0, 2, 1, 192, 0, 2, 254, 0, 3, 0, 4]);
/// dump.extend_from_within(..);
/// dump[63] = 7;
///
/// let found = first_fault(&dump).unwrap();
/// assert_eq!((found.fault, found.place, found.field(&dump)), (Fault::State, 62, Some("new state")));
/// assert_eq!((found.record, found.records), (32, 1));
/// assert_eq!(check(&dump[..found.record]).refusal, None);
/// assert_eq!(first_fault(&dump[..found.record]), None);
/// ```
pub fn first_fault(dump: &[u8]) -> Option<FirstFault> {
    let [number, place, records, record] = answered(|answer| calls::first_fault(dump, answer));
    let fault = Fault::of_answer(number)?;
    Some(FirstFault { fault, place: place as usize, record: record as usize, records })
}

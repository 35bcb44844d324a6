//! MRT dumps of route collectors (RFC 6396): checked, counted, gone through record by record, and
//! cut to a window of time without the peers that are to be muted; single records read and written.
//!
//! These are safe functions over a library proved in Rattle (include/dagsumilat.h). Any octets may
//! be handed over. Offsets count from the dump's first octet; times are microseconds since 1970.
//!
//! ```
//! // A state change of AS 64500 at second 1: from Active to OpenSent.
//! let mut dump = vec![0, 0, 0, 1, 0, 16, 0, 0, 0, 0, 0, 20];
//! dump.extend([0xfb, 0xf4, 0xfb, 0xff, 0, 0, 0, 1, 192, 0, 2, 1, 192, 0, 2, 254, 0, 3, 0, 4]);
//!
//! let check = dagsumilat::check(&dump);
//! assert_eq!((check.records, check.refusal), (1, None));
//!
//! let window = dagsumilat::Window { from: 1_000_000, to: 1_000_001 };
//! assert_eq!(dagsumilat::cut(&dump, window, &[64501]).unwrap(), dump);
//! assert_eq!(dagsumilat::cut(&dump, window, &[64500]).unwrap(), []);
//! ```

#![deny(unsafe_code)]

#[allow(unsafe_code)]
#[doc(hidden)]
pub mod calls;
mod fault;
mod faults;
mod field;
mod fields;
mod first_fault;
mod items;
mod reading;
mod record;
mod records;
mod report;
mod writing;

pub use fault::{Fault, Refusal};
pub use fields::{
    Fields, Message, PeerTable, Rib, RibGeneric, Session, StateChange, TableDump, Time, Unread,
};
pub use first_fault::{first_fault, FirstFault};
pub use items::{Entries, Entry, Peer, Peers};
pub use reading::{read, Read};
pub use record::{Kind, Record};
pub use records::{records, Records};
pub use report::Report;

/// What a check found.
#[derive(Clone, Copy, Debug, PartialEq, Eq)]
pub struct Check {
    /// How many good records stand before the fault, or in the dump.
    pub records: u64,
    /// None if the dump is good.
    pub refusal: Option<Refusal>,
}

/// Checks a whole dump.
pub fn check(dump: &[u8]) -> Check {
    let [number, place, records] = answered(|answer| calls::check(dump, answer));
    Check { records, refusal: Refusal::of_answer(number, place) }
}

/// Times from `from` up to but not including `to`, in microseconds since 1970.
#[derive(Clone, Copy, Debug, PartialEq, Eq)]
pub struct Window {
    pub from: u64,
    pub to: u64,
}

/// What is left of a dump inside the window, without the peers whose AS is among `mutes`.
///
/// Peer tables are kept at any time. A backward window is refused, then a dump with a fault. Needs
/// some 530 KB of stack, however long dump and list are.
pub fn cut(dump: &[u8], window: Window, mutes: &[u32]) -> Result<Vec<u8>, Refusal> {
    let mut out = vec![0; dump.len()];
    in_large_pages(&out);
    let size = cut_into(dump, window, mutes, &mut out)?;
    out.truncate(size);
    Ok(out)
}

/// As [`cut`], into the caller's room; answers how many octets it wrote, from `out[0]` on.
///
/// The dump's length is always room enough. Less may do; if it does not, that is
/// [`Fault::Room`]. When refused, `out` is as it was.
///
/// ```
/// use dagsumilat::{cut_into, Fault, Window};
///
/// let dump = [0, 0, 0, 9, 0, 11, 0, 0, 0, 0, 0, 1, 77]; // one unread record
/// let window = Window { from: 0, to: 10_000_000 };
/// let mut out = [1; 12];
/// assert_eq!(cut_into(&dump, window, &[], &mut out).unwrap_err().fault, Fault::Room);
/// assert_eq!(out, [1; 12]);
/// ```
pub fn cut_into(
    dump: &[u8],
    window: Window,
    mutes: &[u32],
    out: &mut [u8],
) -> Result<usize, Refusal> {
    let Window { from, to } = window;
    let [number, place, size] = answered(|answer| calls::cut(dump, from, to, mutes, out, answer));
    match Refusal::of_answer(number, place) {
        Some(refusal) => Err(refusal),
        None => Ok(size as usize),
    }
}

/// Asks the system to hold this memory in large pages, best before anything is written to it: for a
/// large dump most of the time of reading it goes into getting its memory page by page. Changes
/// nothing else; some systems do not listen.
pub fn in_large_pages<T>(memory: &[T]) {
    calls::advise_large_pages(memory);
}

/// A table in force, as the calls take it. An index has 16 bits, so that all tables of more peers
/// are alike.
fn table_word(table: Option<u64>) -> u64 {
    table.map_or(calls::NONE, |peers| peers.min(calls::NONE - 1))
}

/// The answer of a call that is lent a place for it.
fn answered<const N: usize>(call: impl FnOnce(&mut [u64; N])) -> [u64; N] {
    let mut answer = [0; N];
    call(&mut answer);
    answer
}

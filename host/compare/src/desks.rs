//! All memory that a thread lends.

use crate::desk::Desk;
use crate::writing::WritingDesk;

#[derive(Default)]
pub struct Desks {
    /// For the calls that take a dump.
    pub dump: Desk,
    /// For the calls that write a record.
    pub record: WritingDesk,
}

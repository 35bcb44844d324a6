//! The proved library against the second program: the same dumps and the same calls to both, and
//! every word and octet of the answers held against each other.

#![deny(unsafe_code)]

pub mod comparing;
pub mod cutting;
pub mod desk;
pub mod desks;
pub mod expected;
pub mod expected_fields;
pub mod itself;
pub mod lending;
pub mod making;
pub mod muting;
pub mod naming;
pub mod placing;
pub mod reading;
pub mod reporting;
pub mod running;
pub mod tally;
pub mod telling;
#[allow(unsafe_code)]
mod walls;
pub mod writing;

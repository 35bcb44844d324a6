//! A dump and its clip, as they were counted.

use crate::muting::Muting;
use crate::period::Period;
use crate::tally::{Of, Tally};
use std::collections::BTreeMap;

/// What was ordered, what stood in the dump, and what stands in the clip.
#[derive(Clone, Copy)]
pub struct Sides<'a> {
    pub period: Period,
    pub muting: &'a Muting,
    pub before: &'a Tally,
    pub after: &'a Tally,
    pub peers_before: &'a BTreeMap<u32, Of>,
    pub peers_after: &'a BTreeMap<u32, Of>,
}

//! Dumps and lists made for looking numbers up: many numbers are alike in 16 bits, and what is
//! listed stands where it is easily lost.

use super::asks::Known;
use super::records::{Maker, NUMBERS};
use crate::desk::Ask;
use second::dump::Dump;
use second::vectors::rng::Rng;
use std::collections::BTreeSet;

/// A look-up may keep so many numbers of a list and go through those behind them.
pub const KEPT: usize = 65_535;

/// How many numbers a list has.
#[derive(Clone, Copy, Debug, PartialEq, Eq)]
pub enum Length {
    /// Up to 40.
    Few,
    /// Hundreds to a few thousand.
    Many,
    /// 65,530 to 66,000.
    Edge,
    /// 70,000 to 140,000.
    Far,
}

impl Length {
    /// The longest are rare, since each takes as long as some hundred others.
    pub fn draw(rng: &mut Rng) -> Length {
        match rng.below(2000) {
            0 => Length::Edge,
            1 => Length::Far,
            2..=101 => Length::Many,
            _ => Length::Few,
        }
    }

    fn count(self, rng: &mut Rng) -> usize {
        match self {
            Length::Few => rng.below(41),
            Length::Many => 200 + rng.below(3_000),
            Length::Edge => 65_530 + rng.below(471),
            Length::Far => 70_000 + rng.below(70_001),
        }
    }

    /// Whether a list of this length can have numbers behind those that are kept.
    pub fn is_past_kept(self) -> bool {
        matches!(self, Length::Edge | Length::Far)
    }
}

/// A good dump, and a list for it.
pub fn muted(length: Length, rng: &mut Rng) -> (Vec<u8>, Ask) {
    let numbers = numbers(rng);
    let dump = dump(&numbers, rng);
    let known = Known::of(&Dump::read(&dump));
    let list = list(known.numbers(), length, rng);
    (dump, Ask { from: 0, to: u64::MAX, list })
}

/// One to four numbers, each with up to 20 others that end like it.
fn numbers(rng: &mut Rng) -> Vec<u32> {
    let mut numbers = Vec::new();
    for _ in 0..1 + rng.below(4) {
        let any = rng.word() as u32;
        let first = if rng.below(2) == 0 { any } else { *rng.pick(&NUMBERS) };
        numbers.push(first);
        for _ in 0..rng.below(21) {
            numbers.push(alike(first, rng));
        }
    }
    numbers
}

/// A number with the same last 16 bits; mostly all bits but one are the same.
fn alike(number: u32, rng: &mut Rng) -> u32 {
    match rng.below(8) {
        0 => number & 0xffff,
        1 | 2 => number ^ (rng.word() as u32) << 16,
        _ => number ^ 1 << (16 + rng.below(16)),
    }
}

/// Tables of up to 60 peers with their entries, and records of other types.
fn dump(numbers: &[u32], rng: &mut Rng) -> Vec<u8> {
    let mut maker = Maker::drawing(numbers, rng);
    for _ in 0..1 + maker.rng.below(2) {
        let (peers, entries) = (maker.rng.below(61), maker.rng.below(30));
        let subtype = 2 + maker.rng.below(5) as u16;
        maker.table(peers);
        maker.rib(subtype, entries);
    }
    for _ in 0..maker.rng.below(10) {
        match maker.rng.below(3) {
            0 => maker.change(),
            1 => maker.route(0),
            _ => maker.any(),
        }
    }
    maker.into_octets()
}

/// Numbers that are not known but end like such, and among them about half of those that are
/// known, most of them once: so each of these counts at its place.
pub fn list(known: &[u32], length: Length, rng: &mut Rng) -> Vec<u32> {
    let (count, told) = (length.count(rng), BTreeSet::from_iter(known.iter().copied()));
    let mut list = Vec::with_capacity(count);
    while list.len() < count {
        let drawn = stranger(known, &list, rng);
        if !told.contains(&drawn) {
            list.push(drawn);
        }
    }
    let mut left = Vec::from_iter(told);
    while !left.is_empty() {
        let number = left.swap_remove(rng.below(left.len()));
        for _ in 0..*rng.pick(&[0, 0, 0, 0, 1, 1, 1, 2]) {
            if let Some(spot) = list.get_mut(place(count, rng)) {
                *spot = number;
            }
        }
    }
    list
}

/// Alike to a number that is known, listed already, or any.
fn stranger(known: &[u32], list: &[u32], rng: &mut Rng) -> u32 {
    match rng.below(8) {
        0 if !list.is_empty() => *rng.pick(list),
        1 => rng.word() as u32,
        _ => alike(*rng.pick(known), rng),
    }
}

/// One end of the list, about the last that is kept, or anywhere.
fn place(count: usize, rng: &mut Rng) -> usize {
    match rng.below(8) {
        0 => 0,
        1 => count.saturating_sub(1),
        2..=4 if count > KEPT => KEPT - 3 + rng.below(6),
        _ => rng.below(count.max(1)),
    }
}

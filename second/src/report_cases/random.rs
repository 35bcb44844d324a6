//! Random dumps and reports, from fixed seeds. Sequences mostly go on, and the
//! numbers of a report are often near an edge.

use super::parts::{all, counted, route, states};
use super::Book;
use crate::report::Report;
use crate::vectors::random::spoiled;
use crate::vectors::rng::Rng;
use crate::vectors::shapes::{
    plain_table, rib, state_change, unread, withdrawal, Route, FAMILIES, MESSAGES, STATE_CHANGES,
};
use crate::vectors::sketch::Sketch;

pub fn add(book: &mut Book) {
    let mut rng = Rng::seeded(20_261_115);
    for number in 0..30 {
        let dump = dump(&mut rng);
        book.chance(format!("random-good-{number:02}"), &report(&mut rng), dump);
    }
    for number in 0..15 {
        let dump = dump(&mut rng);
        let dump = spoiled(dump, &mut rng);
        book.chance(format!("random-spoiled-{number:02}"), &report(&mut rng), dump);
    }
}

/// An empty report, one of any numbers, or one with few numbers near the edge.
pub fn report(rng: &mut Rng) -> Report {
    match rng.below(4) {
        0 => Report::default(),
        1 => Report::of_numbers(&std::array::from_fn(|_| rng.word() >> rng.below(64))),
        2 => near_edge(rng),
        _ => counted(),
    }
}

fn near_edge(rng: &mut Rng) -> Report {
    let mut numbers = all(u64::MAX - 40).numbers();
    for _ in 0..1 + rng.below(3) {
        numbers[rng.below(39)] = u64::MAX - rng.below(6) as u64;
    }
    Report::of_numbers(&numbers)
}

/// A good dump of one to 16 records.
pub fn dump(rng: &mut Rng) -> Vec<u8> {
    let count = 1 + rng.below(16);
    let start = *rng.pick(&[0, 1, 254, 65_530, 65_535]);
    let mut chance = Chance { rng, sequence: start };
    let table = plain_table(2).record();
    let records = (0..count).flat_map(|_| chance.any().record());
    table.into_iter().chain(records).collect()
}

struct Chance<'a> {
    rng: &'a mut Rng,
    /// What the next type 12 record has if nothing is broken.
    sequence: u16,
}

impl Chance<'_> {
    fn any(&mut self) -> Sketch {
        match self.rng.below(8) {
            0..=2 => self.change(),
            3..=5 => self.route(),
            6 => self.message(),
            _ => self.other(),
        }
    }

    fn change(&mut self) -> Sketch {
        let (code, subtype) = (*self.rng.pick(&[16, 17]), *self.rng.pick(&STATE_CHANGES));
        let sketch = state_change(code, subtype, *self.rng.pick(&FAMILIES));
        states(&sketch, self.state(), self.state())
    }

    fn state(&mut self) -> u16 {
        1 + self.rng.below(6) as u16
    }

    fn route(&mut self) -> Sketch {
        if self.rng.below(3) == 0 {
            let steps = [0, 1, 2, 256, 32_768, 65_534, 65_535];
            self.sequence = self.sequence.wrapping_add(*self.rng.pick(&steps));
        }
        let sequence = self.sequence;
        self.sequence = sequence.wrapping_add(1);
        route(*self.rng.pick(&FAMILIES), sequence)
    }

    fn message(&mut self) -> Sketch {
        let (code, subtype) = (*self.rng.pick(&[16, 17]), *self.rng.pick(&MESSAGES));
        withdrawal(code, subtype, *self.rng.pick(&FAMILIES))
    }

    fn other(&mut self) -> Sketch {
        match self.rng.below(3) {
            0 => plain_table(2),
            1 => rib(2, 8, &[10], &[Route(self.rng.below(2) as u16, &[])]),
            _ => unread(*self.rng.pick(&[11, 32, 33, 48, 49]), 0, b"carried"),
        }
    }
}

//! Numbers to be lent, with known numbers before and behind them that a call must leave alone.

use crate::walls::{Number, Walled};
use second::vectors::rng::Rng;

/// How many numbers on each side are known.
const FENCE: usize = 64;

/// The furthest that [`Spot::Amid`] goes.
const SHIFT: usize = 64;

/// Where in its memory a loan lies.
#[derive(Clone, Copy, Debug, PartialEq, Eq)]
pub enum Spot {
    /// Right behind a wall: reading before it ends the program.
    First,
    /// Right before a wall: reading past it ends the program.
    Last,
    /// Between two fences, this far from where it could begin; odd ones are not aligned.
    Amid(usize),
}

impl Spot {
    /// Mostly right before a wall, since reading past the end is the likelier mistake.
    pub fn draw(rng: &mut Rng) -> Spot {
        match rng.below(8) {
            0 => Spot::First,
            1..=3 => Spot::Amid(rng.below(16)),
            _ => Spot::Last,
        }
    }
}

/// A number that tells its place, so that a shifted copy of a fence is noticed too.
pub trait Item: Number + PartialEq {
    fn known(place: usize) -> Self;
}

impl Item for u8 {
    fn known(place: usize) -> u8 {
        (place as u8).wrapping_mul(151) ^ 0xa5
    }
}

impl Item for u32 {
    fn known(place: usize) -> u32 {
        (place as u32).wrapping_mul(0x9e37_79b1) ^ 0xa5a5_a5a5
    }
}

impl Item for u64 {
    fn known(place: usize) -> u64 {
        (place as u64).wrapping_mul(0x9e37_79b9_7f4a_7c15) ^ 0xa5a5_a5a5_a5a5_a5a5
    }
}

pub struct Loan<T> {
    memory: Walled<T>,
    from: usize,
    end: usize,
}

impl<T: Item> Loan<T> {
    pub fn new() -> Loan<T> {
        let mut loan = Loan { memory: Walled::new(1), from: 0, end: 0 };
        loan.clear(0, Spot::First);
        loan
    }

    /// So many known numbers to be lent, with new fences.
    pub fn clear(&mut self, size: usize, spot: Spot) {
        let wanted = size + 2 * FENCE + SHIFT;
        if self.memory.numbers().len() < wanted {
            self.memory = Walled::new(2 * wanted);
        }
        let all = self.memory.numbers().len();
        self.from = match spot {
            Spot::First => 0,
            Spot::Last => all - size,
            Spot::Amid(shift) => FENCE + shift.min(SHIFT),
        };
        self.end = self.from + size;
        let before = self.from.saturating_sub(FENCE);
        let behind = all.min(self.end + FENCE);
        for (place, item) in self.memory.numbers_mut()[before..behind].iter_mut().enumerate() {
            *item = T::known(before + place);
        }
    }

    /// These numbers to be lent.
    pub fn lay(&mut self, items: &[T], spot: Spot) {
        self.clear(items.len(), spot);
        self.lent_mut().copy_from_slice(items);
    }

    pub fn lent(&self) -> &[T] {
        &self.memory.numbers()[self.from..self.end]
    }

    pub fn lent_mut(&mut self) -> &mut [T] {
        &mut self.memory.numbers_mut()[self.from..self.end]
    }

    /// Whether both fences are as they were put.
    pub fn is_fenced(&self) -> bool {
        let all = self.memory.numbers().len();
        self.is_known(self.from.saturating_sub(FENCE), self.from)
            && self.is_known(self.end, all.min(self.end + FENCE))
    }

    /// Whether what was lent is still as [`Loan::clear`] made it, from this one on.
    pub fn is_clear_from(&self, size: usize) -> bool {
        self.is_known(self.from + size, self.end)
    }

    fn is_known(&self, from: usize, end: usize) -> bool {
        let mut items = self.memory.numbers()[from..end].iter().enumerate();
        items.all(|(place, item)| *item == T::known(from + place))
    }
}

impl<T: Item> Default for Loan<T> {
    fn default() -> Loan<T> {
        Loan::new()
    }
}

/// The words lent for an answer.
pub fn words<const N: usize>(lent: &mut [u64]) -> &mut [u64; N] {
    lent.try_into().expect("an answer lent with another size")
}

#[cfg(test)]
mod tests {
    use super::{Loan, Spot, FENCE};

    const SPOTS: [Spot; 3] = [Spot::First, Spot::Last, Spot::Amid(3)];

    #[test]
    fn what_is_laid_is_lent() {
        let mut loan = Loan::new();
        for spot in SPOTS {
            for size in [0, 1, 70_000, 5] {
                let items: Vec<u32> = (0..size).collect();
                loan.lay(&items, spot);
                assert_eq!(loan.lent(), items, "{spot:?}");
                assert!(loan.is_fenced(), "{spot:?}");
            }
        }
    }

    #[test]
    fn a_write_to_a_fence_is_seen() {
        let mut loan = Loan::<u8>::new();
        for (spot, before) in [(Spot::Last, true), (Spot::First, false), (Spot::Amid(1), true)] {
            for distance in [1, FENCE] {
                loan.lay(&[1, 2, 3], spot);
                let place = if before { loan.from - distance } else { loan.end + distance - 1 };
                loan.memory.numbers_mut()[place] ^= 1;
                assert!(!loan.is_fenced(), "{spot:?} {distance}");
            }
        }
    }

    #[test]
    fn a_write_behind_the_answer_is_seen() {
        let mut loan = Loan::<u64>::new();
        loan.clear(9, Spot::Last);
        loan.lent_mut()[..4].copy_from_slice(&[1, 2, 3, 4]);
        assert!(loan.is_clear_from(4) && !loan.is_clear_from(3));
        loan.lent_mut()[8] ^= 1;
        assert!(!loan.is_clear_from(4));
    }
}

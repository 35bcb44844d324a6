//! Windows and lists that have to do with a dump.

use super::lists::{list, Length};
use super::records::NUMBERS;
use crate::desk::Ask;
use crate::expected::peer_as;
use second::dump::Dump;
use second::record::Body;
use second::vectors::rng::Rng;

/// The largest time that a record can have.
const LAST: u64 = 4_294_971_589_967_295;

/// The times and peer AS numbers of a dump's records.
pub struct Known {
    times: Vec<u64>,
    numbers: Vec<u32>,
}

impl Known {
    pub fn of(dump: &Dump) -> Known {
        let records = || dump.records.iter().map(|located| &located.record);
        let times = records().map(|record| record.time()).collect();
        let mut numbers = NUMBERS.to_vec();
        for record in records() {
            numbers.extend(peer_as(&record.body));
            if let Body::PeerTable(table) = &record.body {
                numbers.extend(table.peers.iter().map(|peer| peer.asn.number()));
            }
        }
        Known { times, numbers }
    }

    pub fn numbers(&self) -> &[u32] {
        &self.numbers
    }

    /// A record's time or one beside it, or an end of all times.
    fn time(&self, rng: &mut Rng) -> u64 {
        match rng.below(8) {
            0 => *rng.pick(&[0, 1, LAST, LAST + 1, u64::MAX]),
            1 | 2 if !self.times.is_empty() => rng.pick(&self.times).saturating_sub(1),
            3 | 4 if !self.times.is_empty() => rng.pick(&self.times) + 1,
            _ if !self.times.is_empty() => *rng.pick(&self.times),
            _ => rng.word(),
        }
    }

    /// A peer's AS, or one that is the same in 16 bits.
    fn number(&self, rng: &mut Rng) -> u32 {
        let number = *rng.pick(&self.numbers);
        match rng.below(8) {
            0 => number & 0xffff,
            1 => number.wrapping_add(65_536),
            2 => rng.word() as u32,
            _ => number,
        }
    }
}

/// A window, backward once in thirty times, and a list.
pub fn ask(known: &Known, rng: &mut Rng) -> Ask {
    let (one, other) = (known.time(rng), known.time(rng));
    let (from, to) = match rng.below(30) {
        0 => (one.max(other), one.min(other)),
        1..=9 => (0, u64::MAX),
        _ => (one.min(other), one.max(other)),
    };
    let list = match rng.below(40) {
        0 => list(&known.numbers, Length::Many, rng),
        drawn => (0..drawn % 6).map(|_| known.number(rng)).collect(),
    };
    Ask { from, to, list }
}

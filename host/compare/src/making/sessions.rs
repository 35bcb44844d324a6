//! Dumps to be counted: state changes, and type 12 records whose sequences mostly go on.

use super::damage::damaged;
use super::records::Maker;
use second::vectors::rng::Rng;

/// Where a chain starts: often so that it comes to 65,535 and 0.
const STARTS: [u16; 7] = [0, 1, 250, 32_760, 65_525, 65_530, 65_535];

/// Steps that break a chain, some of them good ones but for a few bits.
const BREAKS: [u16; 10] = [0, 2, 3, 255, 256, 257, 32_768, 32_769, 65_534, 65_535];

pub fn sessions(rng: &mut Rng) -> Vec<u8> {
    let start = *rng.pick(&STARTS);
    sessions_from(start, rng)
}

/// One to 24 records, with this sequence first. One dump in eight is damaged.
pub fn sessions_from(start: u16, rng: &mut Rng) -> Vec<u8> {
    let (count, mut sequence) = (1 + rng.below(24), start);
    let mut maker = Maker::new(rng, 0);
    for _ in 0..count {
        match maker.rng.below(8) {
            0..=2 => maker.change(),
            3..=6 => {
                maker.route(sequence);
                sequence = sequence.wrapping_add(step(maker.rng));
            }
            _ => maker.any(),
        }
    }
    let dump = maker.into_octets();
    if rng.below(8) == 0 {
        return damaged(dump, rng);
    }
    dump
}

fn step(rng: &mut Rng) -> u16 {
    match rng.below(5) {
        0 => *rng.pick(&BREAKS),
        _ => 1,
    }
}

//! Reports to be lent for a dump that is to be added.

use second::report::NUMBERS;
use second::vectors::rng::Rng;

/// One of any numbers, and one at the edge of 64 bits; `own` is what the dump counts up to.
pub fn reports(own: &[u64; NUMBERS], rng: &mut Rng) -> [[u64; NUMBERS]; 2] {
    let any = match rng.below(4) {
        0 | 1 => [0; NUMBERS],
        2 => std::array::from_fn(|_| rng.word() >> rng.below(64)),
        _ => std::array::from_fn(|place| 1 + place as u64),
    };
    [any, edge(own, rng)]
}

/// Every sum is the largest that fits; or one sum, or any, is one past it.
fn edge(own: &[u64; NUMBERS], rng: &mut Rng) -> [u64; NUMBERS] {
    let mut lent = own.map(|more| u64::MAX - more);
    match rng.below(6) {
        0 | 1 => {}
        2..=4 => {
            let counted: Vec<usize> = (0..NUMBERS).filter(|place| own[*place] != 0).collect();
            if !counted.is_empty() {
                lent[*rng.pick(&counted)] += 1;
            }
        }
        _ => lent = lent.map(|number| number.saturating_add(rng.below(2) as u64)),
    }
    lent
}

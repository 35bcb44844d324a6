//! Dumps of 100 kB to 1 MB, and more where a table has as many peers as there can be.

use super::damage::damaged;
use super::records::Maker;
use second::vectors::rng::Rng;

const PEERS: [usize; 7] = [1, 3, 30, 255, 256, 300, 5000];
const MOST: usize = 65_535;

/// Tables, each with RIB records of its peers. One in four is damaged.
pub fn dump(rng: &mut Rng) -> Vec<u8> {
    let size = 100_000 + rng.below(900_000);
    let mut maker = Maker::new(rng, 0);
    while maker.size() < size {
        let usual = *maker.rng.pick(&PEERS);
        let peers = if maker.rng.below(24) == 0 { MOST } else { usual };
        maker.table(peers);
        let end = maker.size() + 20_000 + maker.rng.below(200_000);
        while maker.size() < end {
            let subtype = 2 + maker.rng.below(5) as u16;
            let count = entries(maker.rng);
            maker.rib(subtype, count);
        }
    }
    let dump = maker.into_octets();
    if rng.below(4) == 0 {
        return damaged(dump, rng);
    }
    dump
}

/// How many entries: few, or more than one octet can count.
fn entries(rng: &mut Rng) -> usize {
    match rng.below(40) {
        0 => 1000 + rng.below(3000),
        1 => 255 + rng.below(3),
        _ => rng.below(30),
    }
}

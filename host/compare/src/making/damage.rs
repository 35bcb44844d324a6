//! Damage that knows nothing of fields.

use second::vectors::rng::Rng;

/// One to three places damaged.
pub fn damaged(mut dump: Vec<u8>, rng: &mut Rng) -> Vec<u8> {
    for _ in 0..1 + rng.below(3) {
        if !dump.is_empty() {
            damage(&mut dump, rng);
        }
    }
    dump
}

fn damage(dump: &mut Vec<u8>, rng: &mut Rng) {
    let at = rng.below(dump.len());
    let end = (at + 1 + rng.below(16)).min(dump.len());
    match rng.below(10) {
        0 => dump.truncate(at),
        1 => drop(dump.drain(at..end)),
        2 => {
            let twice = dump[at..end].to_vec();
            dump.splice(at..at, twice);
        }
        3 => dump.insert(at, rng.word() as u8),
        4 => {
            let size = 1 + rng.below(14);
            dump.extend(rng.octets(size));
        }
        5 => dump[at] ^= 1 << rng.below(8),
        6 => dump[at] = dump[at].wrapping_add(1),
        7 => dump[at] = dump[at].wrapping_sub(1),
        8 => dump[at] = *rng.pick(&[0, 1, 2, 16, 0x7f, 0x80, 0xff]),
        _ => dump[at] = rng.word() as u8,
    }
}

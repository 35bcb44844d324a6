//! Cuts by both programs, of dumps and with lists made for looking numbers up.

use crate::cutting::compare_room_by;
use crate::desk::{CutCall, Desk, Spots};
use crate::making::{muted, Length};
use crate::tally::Tally;
use second::vectors::rng::Rng;

/// So that these dumps have nothing to do with the others of their seed.
const MUTES: u64 = 0x3071_e5a5;

/// What a seed makes its dump and list from.
pub fn drawn(seed: u64) -> (Length, Rng) {
    let mut rng = Rng::seeded(seed ^ MUTES);
    (Length::draw(&mut rng), rng)
}

/// Cuts the dump of a seed.
pub fn compare(
    call: CutCall,
    seed: u64,
    desk: &mut Desk,
    tally: &mut Tally,
) -> Result<(), (Vec<u8>, String)> {
    let (length, mut rng) = drawn(seed);
    let (dump, ask) = muted(length, &mut rng);
    desk.lay(&dump, Spots::draw(&mut rng));
    compare_room_by(call, &dump, &ask, dump.len(), desk, tally)
        .and_then(|_| desk.is_unchanged())
        .map_err(|told| (dump, told))
}

//! Memory for a clip, and the cut into it.

use crate::input::Recording;
use crate::memory;
use crate::muting::Muting;
use crate::period::Period;
use crate::stop::Stop;
use dagsumilat::{cut_into, Refusal};
use std::mem;

/// So many numbers the library finds at once, however many they are. Of a longer list it compares
/// the rest one by one, for each record.
const AT_ONCE: usize = 65_535;

pub struct Room {
    clip: Vec<u8>,
    /// For one more clip, where the list goes in pieces.
    more: Vec<u8>,
}

impl Room {
    pub fn of(recording: &Recording, muting: &Muting) -> Result<Room, Stop> {
        let size = recording.octets.len();
        let is_long = muting.numbers.len() > AT_ONCE;
        let zeros = |size| {
            memory::zeros(size).map_err(|unread| {
                Stop::Trouble(format!("a clip may need as much memory as its dump: {unread}"))
            })
        };
        Ok(Room { clip: zeros(size)?, more: zeros(if is_long { size } else { 0 })? })
    }

    /// To cut again is one cut with both lists (docs/PROMISES.md, demand 3): a long list may go in
    /// pieces, each of which the library finds at once.
    pub fn cut(
        self,
        period: Period,
        recording: &Recording,
        muting: &Muting,
    ) -> Result<Vec<u8>, Refusal> {
        let Room { mut clip, more: mut room } = self;
        let window = period.window();
        let mut pieces = muting.numbers.chunks(AT_ONCE);
        let first = pieces.next().unwrap_or_default();
        let size = cut_into(&recording.octets, window, first, &mut clip)?;
        clip.truncate(size);
        for piece in pieces {
            // What is left is never longer than the dump, nor than the clip before.
            let size = cut_into(&clip, window, piece, &mut room)?;
            room.truncate(size);
            mem::swap(&mut clip, &mut room);
        }
        Ok(clip)
    }
}

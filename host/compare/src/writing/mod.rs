//! The writers of both programs: what was read, written again; and made-up fields, at and over
//! their bounds.

mod desk;
mod words;

pub use desk::{written, Spots, WriteCall, WritingDesk};
pub use words::{Flag, Shown};

use crate::making::{self, MadeGiven, Writer};
use crate::tally::Tally;
use crate::telling::{same, Told};
use second::vectors::rng::Rng;
use second::writers::Given;

/// A record that was read, written again into just as much room, is the same octets.
pub fn write_back(
    shown: &Shown,
    spots: &Spots,
    desk: &mut WritingDesk,
    tally: &mut Tally,
) -> Told<()> {
    let Some(given) = shown.given() else {
        return Err("read shows no record".into());
    };
    let size = shown.octets.len();
    let call = || format!("write back {given:?}");
    same(call, desk.write(&given, Flag::USUAL, size, spots)?, [0, size as u64])?;
    same(call, desk.written(size), shown.octets)?;
    tally.back[Writer::of(&given) as usize] += 1;
    Ok(())
}

/// One call of each writer.
pub fn compare(rng: &mut Rng, desk: &mut WritingDesk, tally: &mut Tally) -> Told<()> {
    for writer in Writer::ALL {
        let MadeGiven { given, slipped } = making::given(writer, rng);
        let flag = Flag { yes: rng.word().max(1), idle: rng.word() };
        let size = given.record().map_or(0, |octets| octets.len());
        let room = making::room(size, rng);
        compare_one(&given, flag, room, &Spots::draw(rng), desk, tally)?;
        tally.slips[writer as usize].count(&slipped);
    }
    Ok(())
}

/// Answer and the whole buffer.
pub fn compare_one(
    given: &Given,
    flag: Flag,
    room: usize,
    spots: &Spots,
    desk: &mut WritingDesk,
    tally: &mut Tally,
) -> Told<()> {
    let expected = given.write(room);
    let size = expected.octets.len();
    let call = || format!("{given:?} flag={flag:?} room={room}");
    same(call, desk.write(given, flag, room, spots)?, [expected.fault.into(), size as u64])?;
    same(call, desk.written(size), expected.octets.as_slice())?;
    tally.written[Writer::of(given) as usize][usize::from(expected.fault)] += 1;
    Ok(())
}

#[cfg(test)]
mod tests {
    use crate::walls::Walled;
    use dagsumilat::calls::writers::{Time, Unread};

    /// Contents of 4 GiB, of which no octet is looked at. The second program would copy them, so
    /// these answers are document 01's.
    #[test]
    fn a_message_past_32_bits_of_length() {
        let memory = Walled::<u8>::new(1 << 32);
        for (type_code, size, fault) in [
            (11, (1 << 32) - 1, 15),
            (11, 1 << 32, 6),
            (33, (1 << 32) - 5, 15),
            (33, (1 << 32) - 4, 6),
        ] {
            let time = Time { timestamp: 1, has_microseconds: type_code / 33, microseconds: 0 };
            let contents = &memory.numbers()[..size];
            let (mut out, mut answer) = ([7; 100], [7; 2]);
            Unread { time, type_code, subtype: 0, contents }.write(&mut out, &mut answer);
            assert_eq!((answer, out), ([fault, 0], [7; 100]), "type {type_code}, {size} octets");
        }
    }
}

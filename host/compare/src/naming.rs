//! View names by both programs: tables made for their names, read and written.

use crate::desk::{CheckCall, Spots};
use crate::desks::Desks;
use crate::expected;
use crate::making::{named, named_tables, room};
use crate::tally::Tally;
use crate::telling::{same, Told};
use crate::writing::{self, Flag, WriteCall};
use second::dump::Dump;
use second::vectors::rng::Rng;

/// The library's calls, or others in their place.
#[derive(Clone, Copy)]
pub struct NameCalls<'a> {
    pub check: CheckCall<'a>,
    pub write: WriteCall<'a>,
}

/// A dump to be checked, and a table to be written.
pub fn compare(
    calls: NameCalls,
    rng: &mut Rng,
    desks: &mut Desks,
    tally: &mut Tally,
) -> Result<(), (Vec<u8>, String)> {
    let dump = named_tables(rng);
    compare_check(calls.check, &dump, rng, desks, tally)
        .and_then(|()| compare_write(calls.write, rng, desks, tally))
        .map_err(|told| (dump, told))
}

fn compare_check(
    call: CheckCall,
    dump: &[u8],
    rng: &mut Rng,
    desks: &mut Desks,
    tally: &mut Tally,
) -> Told<()> {
    let read = Dump::read(dump);
    desks.dump.lay(dump, Spots::draw(rng));
    same(|| "check of names".into(), desks.dump.check_by(call)?, expected::check(&read))?;
    tally.named[0][usize::from(read.end.number())] += 1;
    Ok(())
}

/// Answer and the whole buffer.
fn compare_write(call: WriteCall, rng: &mut Rng, desks: &mut Desks, tally: &mut Tally) -> Told<()> {
    let given = named(rng);
    let room = room(given.record().map_or(0, |octets| octets.len()), rng);
    let (expected, spots) = (given.write(room), writing::Spots::draw(rng));
    let size = expected.octets.len();
    let words = [expected.fault.into(), size as u64];
    let name = || format!("write of a name {given:?} room={room}");
    let answer = desks.record.write_by(call, &given, Flag::USUAL, room, &spots)?;
    same(name, answer, words)?;
    same(name, desks.record.written(size), expected.octets.as_slice())?;
    tally.named[1][usize::from(expected.fault)] += 1;
    Ok(())
}

//! Cuts by both programs, and the laws of cutting twice and of dumps laid end to end.

use crate::desk::{Ask, CutCall, Desk, Spots};
use crate::itself;
use crate::making::{ask, good, Known};
use crate::tally::Tally;
use crate::telling::{same, Told};
use dagsumilat::calls;
use second::cut;
use second::dump::Dump;
use second::vectors::rng::Rng;

/// A dump above this size is cut in fewer ways, since the second program takes long for it.
const SHORT: usize = 50_000;

/// A longer list is told by its length: the seed makes it again.
const TOLD: usize = 5_000;

/// Leaves other dumps laid than the one given.
pub fn compare(
    dump: &[u8],
    read: &Dump,
    rng: &mut Rng,
    desk: &mut Desk,
    tally: &mut Tally,
) -> Told<()> {
    let known = Known::of(read);
    let asks = [ask(&known, rng), ask(&known, rng)];
    for ask in &asks {
        let fit = compare_room(dump, ask, dump.len(), desk, tally)?;
        for room in rooms(dump, fit, rng) {
            compare_room(dump, ask, room, desk, tally)?;
        }
    }
    desk.is_unchanged()?;
    let backward = asks.iter().any(|ask| ask.from > ask.to);
    if read.end.fault.is_none() && !backward {
        cut_twice(dump, &asks, rng, desk, tally)?;
        end_to_end(dump, &asks[0], rng, desk, tally)?;
    }
    Ok(())
}

/// None at all, one too few, just enough, and more than the dump.
fn rooms(dump: &[u8], fit: usize, rng: &mut Rng) -> Vec<usize> {
    if dump.len() > SHORT {
        return vec![fit.saturating_sub(1), fit];
    }
    vec![0, fit.saturating_sub(1), fit, dump.len() + 1 + rng.below(30)]
}

fn call(ask: &Ask, room: usize) -> String {
    let list = match ask.list.len() {
        count @ 0..=TOLD => format!("{:?}", &ask.list[..count]),
        count => format!("{count} numbers"),
    };
    format!("cut from={} to={} list={list} room={room}", ask.from, ask.to)
}

/// Cuts the laid dump for a buffer of so many octets; how many are left of it.
pub fn compare_room(
    dump: &[u8],
    ask: &Ask,
    room: usize,
    desk: &mut Desk,
    tally: &mut Tally,
) -> Told<usize> {
    compare_room_by(&calls::cut, dump, ask, room, desk, tally)
}

/// The same by the library's call, or by one in its place.
pub fn compare_room_by(
    by: CutCall,
    dump: &[u8],
    ask: &Ask,
    room: usize,
    desk: &mut Desk,
    tally: &mut Tally,
) -> Told<usize> {
    let expected = cut::cut(dump, ask.from, ask.to, &ask.list, room);
    let left = expected.octets.len();
    let words = [expected.fault.into(), expected.place as u64, left as u64];
    same(|| call(ask, room), desk.cut_by(by, ask, room)?, words)?;
    same(|| call(ask, room), desk.written(left), expected.octets.as_slice())?;
    let is_changed = left != 0 && expected.octets != dump;
    tally.cuts[usize::from(expected.fault)] += 1;
    tally.changed += u64::from(is_changed);
    tally.list(ask.list.len(), is_changed);
    Ok(left)
}

/// The proved cut of an accepted dump, laid anew and read once more.
fn left(dump: &[u8], ask: &Ask, rng: &mut Rng, desk: &mut Desk) -> Told<Vec<u8>> {
    desk.lay(dump, Spots::draw(rng));
    itself::compare(desk)?;
    let answer = desk.cut(ask, dump.len())?;
    same(|| call(ask, dump.len()), answer[..2].to_vec(), vec![0, 0])?;
    Ok(desk.written(answer[2] as usize).to_vec())
}

/// The overlap of both windows, or an empty window where there is none, and both lists.
fn joined([one, other]: &[Ask; 2]) -> Ask {
    let from = one.from.max(other.from);
    let to = one.to.min(other.to).max(from);
    Ask { from, to, list: [one.list.as_slice(), &other.list].concat() }
}

fn cut_twice(
    dump: &[u8],
    asks: &[Ask; 2],
    rng: &mut Rng,
    desk: &mut Desk,
    tally: &mut Tally,
) -> Told<()> {
    let once = left(dump, &asks[0], rng, desk)?;
    let twice = left(&once, &asks[1], rng, desk)?;
    let at_once = left(dump, &joined(asks), rng, desk)?;
    tally.twice += 1;
    same(|| format!("cut of a cut against one cut, {asks:?}"), twice, at_once)
}

fn end_to_end(
    dump: &[u8],
    ask: &Ask,
    rng: &mut Rng,
    desk: &mut Desk,
    tally: &mut Tally,
) -> Told<()> {
    let other = good(rng);
    let both = left(&[dump, &other].concat(), ask, rng, desk)?;
    let apart = [left(dump, ask, rng, desk)?, left(&other, ask, rng, desk)?].concat();
    tally.joined += 1;
    same(
        || format!("cut of two dumps end to end, the other one {other:02x?}, {ask:?}"),
        both,
        apart,
    )
}

//! Session reports by both programs, and the laws of adding dumps.

use crate::desk::{Desk, ReportCall, Spots};
use crate::lending::Spot;
use crate::making::{reports, sessions, sessions_from};
use crate::tally::Tally;
use crate::telling::{same, Told};
use second::dump::Dump;
use second::record::Body;
use second::report::{add, Answer, Report};
use second::vectors::rng::Rng;

/// One dump, added to two reports.
pub fn compare(
    call: ReportCall,
    dump: &[u8],
    read: &Dump,
    rng: &mut Rng,
    desk: &mut Desk,
    tally: &mut Tally,
) -> Told<()> {
    let own = Report::of(read);
    if read.end.fault.is_none() {
        tally.counted(&own, &steps(read));
    }
    for lent in reports(&own.numbers(), rng) {
        let answer = compare_lent(call, dump, &Report::of_numbers(&lent), rng, desk)?;
        tally.reports[usize::from(answer.fault)] += 1;
    }
    Ok(())
}

/// A dump made to be counted; added after another one, before it, and laid end to end with it.
pub fn compare_sessions(
    call: ReportCall,
    rng: &mut Rng,
    desk: &mut Desk,
    tally: &mut Tally,
) -> Result<(), (Vec<u8>, String)> {
    let one = sessions(rng);
    let read = Dump::read(&one);
    let other = after(&read, rng);
    compare(call, &one, &read, rng, desk, tally)
        .and_then(|()| compare_sums(call, [&one, &other], rng, desk, tally))
        .map_err(|told| (one, told))
}

/// Another dump; one in two goes on where this one ends.
fn after(read: &Dump, rng: &mut Rng) -> Vec<u8> {
    match sequences(read).last() {
        Some(last) if rng.below(2) == 0 => sessions_from(last.wrapping_add(1), rng),
        _ => sessions(rng),
    }
}

/// Adds a dump to a lent report by both programs; the second one's answer.
pub fn compare_lent(
    call: ReportCall,
    dump: &[u8],
    lent: &Report,
    rng: &mut Rng,
    desk: &mut Desk,
) -> Told<Answer> {
    desk.lay(dump, Spots::draw(rng));
    let expected = add(dump, lent);
    let words = [expected.fault.into(), expected.place as u64];
    let (answer, after) = desk.report(call, &lent.numbers(), Spot::draw(rng))?;
    let name = || format!("report lent={:?}", lent.numbers());
    same(name, answer, words)?;
    same(name, after, expected.report.numbers())?;
    desk.is_unchanged()?;
    Ok(expected)
}

/// From an empty report on, in both orders; and both dumps as one, where there may be a break more.
fn compare_sums(
    call: ReportCall,
    [one, other]: [&[u8]; 2],
    rng: &mut Rng,
    desk: &mut Desk,
    tally: &mut Tally,
) -> Told<()> {
    let mut total = |dumps: [&[u8]; 2]| {
        let first = compare_lent(call, dumps[0], &Report::default(), rng, desk)?;
        compare_lent(call, dumps[1], &first.report, rng, desk).map(|last| last.report)
    };
    let mut sum = total([one, other])?;
    let name = || format!("report of two dumps, the other one {other:02x?}");
    same(name, sum.clone(), total([other, one])?)?;
    same(name, sum.table.iter().flatten().sum::<u64>(), sum.changes)?;
    tally.sums += 1;
    let (reads, both) = ([Dump::read(one), Dump::read(other)], [one, other].concat());
    if reads.iter().all(|read| read.end.fault.is_none()) {
        let seam = seam(&reads);
        sum.breaks += u64::from(seam == Seam::Breaks);
        let as_one = compare_lent(call, &both, &Report::default(), rng, desk)?.report;
        same(name, as_one, sum)?;
        tally.seams[seam as usize] += 1;
    }
    Ok(())
}

/// What two dumps laid end to end do to a chain.
#[derive(Clone, Copy, Debug, PartialEq, Eq)]
enum Seam {
    /// One of them has no sequence.
    None,
    GoesOn,
    Breaks,
}

fn seam(reads: &[Dump; 2]) -> Seam {
    match (sequences(&reads[0]).last(), sequences(&reads[1]).first()) {
        (Some(last), Some(first)) if last.wrapping_add(1) == *first => Seam::GoesOn,
        (Some(_), Some(_)) => Seam::Breaks,
        _ => Seam::None,
    }
}

fn sequences(read: &Dump) -> Vec<u16> {
    let sequence = |body: &Body| match body {
        Body::TableDump(route) => Some(route.sequence),
        _ => None,
    };
    read.records.iter().filter_map(|located| sequence(&located.record.body)).collect()
}

/// From each sequence to the next.
fn steps(read: &Dump) -> Vec<[u16; 2]> {
    sequences(read).windows(2).map(|pair| [pair[0], pair[1]]).collect()
}

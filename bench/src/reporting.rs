//! The session report: compared, and timed against the check of the same dump.

use crate::plain_report::{Answer, Report};
use crate::random::Random;
use crate::{made, plain_report, proved, small, timing};
use std::hint::black_box;

const DAMAGED: usize = 20_000;

pub fn compare() {
    let mut random = Random::new(12);
    let mut answers = [0_usize; 18];
    for number in 0..DAMAGED {
        let dump = small_dump(&mut random);
        let lent = lent(&mut random, &dump);
        let (answer, _) = both(&format!("small dump {number}: {dump:02x?}"), &dump, &lent);
        answers[answer.fault as usize] += 1;
    }
    let is_met = |fault: &usize| answers[*fault] != 0 || matches!(fault, 14 | 15);
    assert!((0..18).all(|fault| is_met(&fault)), "an answer that no report has: {answers:?}");
    println!("{DAMAGED} reports of small dumps: the same. How often each answer from 0 on:");
    println!("  {answers:?}");
}

/// Of all layouts or made to be counted, every second one damaged.
fn small_dump(random: &mut Random) -> Vec<u8> {
    let mut dump = match random.once_in(2) {
        true => small::dump(random),
        false => small::sessions(random),
    };
    if random.once_in(2) {
        small::damage(random, &mut dump);
    }
    dump
}

/// An empty report, one of any numbers, or one that has just room, or too little, for the dump.
fn lent(random: &mut Random, dump: &[u8]) -> Report {
    let mut own = [0; 39];
    plain_report::add(dump, &mut own);
    match random.within(0, 3) {
        0 => [0; 39],
        1 => std::array::from_fn(|_| random.next() / 2),
        2 => own.map(|more| u64::MAX - more),
        _ => own.map(|more| (u64::MAX - more).saturating_add(random.once_in(8).into())),
    }
}

/// Both reports, which must be the same.
fn both(name: &str, dump: &[u8], lent: &Report) -> (Answer, Report) {
    let (mut one, mut other) = (*lent, *lent);
    let answer = plain_report::add(dump, &mut one);
    assert_eq!(proved::report(dump, &mut other), answer, "{name}");
    assert_eq!(other, one, "{name}");
    (answer, one)
}

pub fn measure(name: &str, dump: &[u8]) {
    let (answer, [records, changes, breaks, ..]) = both(name, dump, &[0; 39]);
    assert_eq!(answer.fault, 0, "{name}");
    let (mut one, mut other) = ([0; 39], [0; 39]);
    let seconds = timing::best(
        dump.len(),
        || _ = black_box(proved::report(black_box(dump), &mut one)),
        || _ = black_box(plain_report::add(black_box(dump), &mut other)),
        || _ = black_box(proved::check(black_box(dump))),
    );
    assert_eq!(one, other, "{name}");
    println!("report, {name}: {} octets", dump.len());
    println!("  {records} records, {changes} state changes, {breaks} breaks");
    timing::print_report(seconds, dump.len());
}

/// Dumps of which every record is counted in more than one number.
pub fn measure_counted(size: usize) {
    measure("state changes", &made::changes(size).dump);
    measure("type 12", &made::routes(size).dump);
}

/// All that is timed of a report.
pub fn measure_all(size: usize) {
    measure("updates", &made::updates(size).dump);
    measure("table, 30 peers", &made::table(size, 30).dump);
    measure("table, 20000 peers", &made::table(size, 20_000).dump);
    measure_counted(size);
}

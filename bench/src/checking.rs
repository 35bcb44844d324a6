//! The check: compared, and timed.

use crate::random::Random;
use crate::{plain, proved, small, timing};
use std::hint::black_box;

const DAMAGED: usize = 20_000;

pub fn compare() {
    let mut random = Random::new(1);
    let mut faults = [0; 18];
    for number in 0..DAMAGED {
        let mut dump = small::dump(&mut random);
        small::damage(&mut random, &mut dump);
        let answer = plain::dump(&dump);
        assert_eq!(proved::check(&dump), answer, "small dump {number}: {dump:02x?}");
        faults[answer.fault as usize] += 1;
    }
    let is_met = |fault: usize| faults[fault] != 0 || matches!(fault, 14..=16);
    assert!((0..18).all(is_met), "a fault that no small dump has: {faults:?}");
    println!("{DAMAGED} small damaged dumps: the same answers. How often each fault from 0 on:");
    println!("  {faults:?}");
}

pub fn measure(name: &str, dump: &[u8]) {
    let answer = plain::dump(dump);
    assert_eq!(proved::check(dump), answer, "{name}");
    assert_eq!(answer.fault, 0, "{name}");
    let mut copy = vec![0; dump.len()];
    let seconds = timing::best(
        dump.len(),
        || _ = black_box(proved::check(black_box(dump))),
        || _ = black_box(plain::dump(black_box(dump))),
        || black_box(&mut copy).copy_from_slice(black_box(dump)),
    );
    println!("check, {name}: {} octets, {} records", dump.len(), answer.records);
    timing::print(seconds, dump.len(), dump.len());
}

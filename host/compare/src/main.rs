//! `compare [COUNT [SEED]]`: so many dumps, made from the seeds from SEED on. If a call ends the
//! program, no seed is printed: run it again with half of COUNT, and so on.

use compare::running::compare_seeds;
use std::env;
use std::process::ExitCode;

const COUNT: u64 = 1_000_000;
const SEED: u64 = 1;
const USAGE: &str = "usage: compare [COUNT [SEED]]";

fn main() -> ExitCode {
    let mut words = env::args().skip(1).map(|word| word.parse::<u64>());
    let mut number = |usual| words.next().unwrap_or(Ok(usual));
    let (Ok(count), Ok(seed), None) = (number(COUNT), number(SEED), words.next()) else {
        eprintln!("{USAGE}");
        return ExitCode::from(2);
    };
    match compare_seeds(count, seed) {
        Ok(tally) => {
            println!("{tally}\nno difference, {count} seeds from {seed} on");
            ExitCode::SUCCESS
        }
        Err(difference) => {
            println!("{difference}\nagain: compare 1 {}", difference.seed);
            ExitCode::FAILURE
        }
    }
}

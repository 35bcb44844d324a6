//! Instructions of single calls, counted by valgrind where it is installed. Unlike times they do not
//! depend on what else the machine does.

use crate::cutting::Ask;
use crate::made::{self, Made};
use crate::{plain, plain_report, proved};
use std::hint::black_box;
use std::process::Command;
use std::{env, io};

/// Of the dumps whose instructions are counted.
const SIZE: usize = 1_000_000;

/// The first word of a run that is counted: `bench count INPUT CALL`.
pub const WORD: &str = "count";

const INPUTS: [&str; 6] = ["updates", "table", "changes", "routes", "names-ascii", "names-mixed"];

/// Both programs' calls, the check first. Before them stands [`NOTHING`], whose instructions are those of starting
/// and making the dump.
const CALLS: [[&str; 2]; 3] =
    [["check", "plain-check"], ["report", "plain-report"], ["cut", "plain-cut"]];
const NOTHING: &str = "nothing";

/// Makes the input, and the call once.
pub fn run(input: &str, call: &str) {
    let made = made(input);
    let ask = Ask::whole(&made);
    let dump = black_box(made.dump.as_slice());
    let (mut out, mut report) = (vec![1; dump.len()], [0; 39]);
    match call {
        "check" => _ = black_box(proved::check(dump)),
        "plain-check" => _ = black_box(plain::dump(dump)),
        "report" => _ = black_box(proved::report(dump, &mut report)),
        "plain-report" => _ = black_box(plain_report::add(dump, &mut report)),
        "cut" => _ = black_box(ask.proved(dump, &mut out)),
        "plain-cut" => _ = black_box(ask.plain(dump, &mut out)),
        NOTHING => {}
        _ => panic!("no such call: {call}"),
    }
    black_box((&out, &report));
}

fn made(input: &str) -> Made {
    match input {
        "updates" => made::updates(SIZE),
        "table" => made::table(SIZE, 30),
        "changes" => made::changes(SIZE),
        "routes" => made::routes(SIZE),
        "names-ascii" => made::names(SIZE, made::ASCII),
        "names-mixed" => made::names(SIZE, made::MIXED),
        _ => panic!("no such input: {input}"),
    }
}

/// What valgrind counts, or a line that says why there is nothing to tell.
pub fn print() {
    if Command::new("valgrind").arg("--version").output().is_err() {
        return println!("instructions are not counted: valgrind is not installed");
    }
    for input in INPUTS {
        if let Err(error) = print_input(input) {
            return println!("instructions are not counted: {error}");
        }
    }
}

fn print_input(input: &str) -> io::Result<()> {
    let nothing = counted(input, NOTHING)?;
    println!("instructions, {input}, {SIZE} octets");
    let mut check = None;
    for [rattle, plain] in CALLS {
        let [one, other] = [counted(input, rattle)? - nothing, counted(input, plain)? - nothing];
        println!(
            "  {rattle}: Rattle {one}, plain {other}; Rattle / plain: {:.2}",
            ratio(one, other)
        );
        // The check comes first.
        let check = *check.get_or_insert(one);
        if rattle == "report" {
            println!("  report / check: {:.2}", ratio(one, check));
        }
    }
    Ok(())
}

fn ratio(one: u64, other: u64) -> f64 {
    one as f64 / other as f64
}

/// All instructions of a run of this program.
fn counted(input: &str, call: &str) -> io::Result<u64> {
    let output = Command::new("valgrind")
        .args(["--tool=callgrind", "--callgrind-out-file=/dev/null"])
        .arg(env::current_exe()?)
        .args([WORD, input, call])
        .output()?;
    let said = String::from_utf8_lossy(&output.stderr);
    count_in(&said).ok_or_else(|| io::Error::other(format!("valgrind says: {said}")))
}

/// The number in `==123== I   refs:      1,234,567`.
fn count_in(said: &str) -> Option<u64> {
    let (_, number) = said.lines().find_map(|line| line.split_once("refs:"))?;
    number.trim().replace(',', "").parse().ok()
}

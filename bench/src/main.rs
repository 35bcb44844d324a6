//! Times the proved check, report and cut of a dump against the same in plain Rust, and the report
//! against the check, and counts instructions; or only compares their answers; or times the cut
//! alone, with short, long and hostile mute lists; or, given a folder, writes the dumps and their
//! lists there, for other programs to be timed with.

mod checking;
mod counting;
mod cutting;
mod lists;
mod made;
mod plain;
mod plain_cut;
mod plain_fault;
mod plain_report;
mod proved;
mod random;
mod reporting;
mod small;
mod timing;

use cutting::Ask;
use made::Made;
use std::path::Path;
use std::{env, fs, io};

const USAGE: &str = "usage: bench [compare | report | names | lists | MEGABYTES [FOLDER]]";
const MEGABYTE: usize = 1_000_000;

/// A dump that stays in the cache shows what the code takes, a large one what memory adds.
const SMALL: usize = MEGABYTE;
const LARGE: usize = 100 * MEGABYTE;

fn measure_updates(size: usize) {
    let made = made::updates(size);
    checking::measure("updates", &made.dump);
    reporting::measure("updates", &made.dump);
    cutting::measure("updates, 3 of 30 peers muted", &made.dump, &Ask::whole(&made));
    cutting::measure("updates, the same, the middle half", &made.dump, &Ask::half(&made));
}

fn measure_table(size: usize, peers: usize) {
    let made = made::table(size, peers);
    let ask = Ask::whole(&made);
    let name = format!("table, {peers} peers");
    checking::measure(&name, &made.dump);
    reporting::measure(&name, &made.dump);
    cutting::measure(
        &format!("table, {} of {peers} peers muted", ask.list.len()),
        &made.dump,
        &ask,
    );
}

/// Tables with names of 65,535 octets, of which every one has to be looked at.
fn measure_names(size: usize) {
    checking::measure("long names of ASCII", &made::names(size, made::ASCII).dump);
    checking::measure("long names of 1 to 4 octets", &made::names(size, made::MIXED).dump);
}

fn measure(size: usize) {
    measure_updates(size);
    measure_table(size, 30);
    measure_table(size, 20_000);
    reporting::measure_counted(size);
    measure_names(size);
}

/// A dump, and the AS numbers to be muted, one a line.
fn write(folder: &Path, name: &str, made: &Made) -> io::Result<()> {
    let list: Vec<String> = Ask::whole(made).list.iter().map(u32::to_string).collect();
    fs::write(folder.join(format!("{name}.mrt")), &made.dump)?;
    fs::write(folder.join(format!("{name}.list")), list.join("\n"))
}

fn write_all(folder: &Path, size: usize) -> io::Result<()> {
    write(folder, "updates", &made::updates(size))?;
    write(folder, "table-30", &made::table(size, 30))?;
    write(folder, "table-20000", &made::table(size, 20_000))
}

fn compare() {
    checking::compare();
    reporting::compare();
    cutting::compare();
}

fn compare_and_measure(size: usize) {
    compare();
    counting::print();
    measure(SMALL);
    if size != SMALL {
        measure(size);
    }
}

fn size(megabytes: &str) -> usize {
    megabytes.parse::<usize>().expect(USAGE) * MEGABYTE
}

fn main() {
    let words: Vec<String> = env::args().skip(1).collect();
    match words.iter().map(String::as_str).collect::<Vec<_>>()[..] {
        [] => compare_and_measure(LARGE),
        [counting::WORD, input, call] => counting::run(input, call),
        ["compare"] => compare(),
        ["lists"] => lists::measure_all(),
        ["names"] => [1, SMALL, LARGE].into_iter().for_each(measure_names),
        ["report"] => [SMALL, LARGE].into_iter().for_each(reporting::measure_all),
        [megabytes] => compare_and_measure(size(megabytes)),
        [megabytes, folder] => {
            write_all(Path::new(folder), size(megabytes)).expect("the folder takes no files");
        }
        _ => panic!("{USAGE}"),
    }
}

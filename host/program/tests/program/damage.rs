//! Many damaged files: the answer is always the second program's, and no file is left over.

use crate::dumps::sample;
use crate::run::{is_emulated, run, Folder};
use second::cut::Answer;
use second::dump::Dump;
use second::vectors::rng::Rng;
use std::collections::BTreeSet;
use std::{env, fs};

/// How many files; DAMAGED says another number.
fn count() -> usize {
    match env::var("DAMAGED") {
        Ok(word) => word.parse().expect("DAMAGED is a number of files"),
        Err(_) if is_emulated() => 200,
        Err(_) => 3_000,
    }
}

/// Octets changed, inserted, removed or the end cut off; now and then none.
fn damage(random: &mut Rng, dump: &mut Vec<u8>) {
    for _ in 0..random.below(3) {
        let at = random.below(dump.len());
        match random.below(8) {
            0 => dump.truncate(at + 1),
            1 => dump.insert(at, random.word() as u8),
            2 if dump.len() > 1 => drop(dump.remove(at)),
            3 => dump.drain(..at).for_each(drop),
            4 | 5 => dump[at] = dump[at].wrapping_add(1),
            _ => dump[at] = random.word() as u8,
        }
    }
}

fn assert_listed(file: &str, octets: &[u8], status: i32) {
    let listed = run(&["list", file]).ended(status);
    assert_eq!(listed.out_text(), second::listing::listing(octets));
}

fn assert_reported(file: &str, octets: &[u8], status: i32) {
    let answer = second::report::add(octets, &second::report::Report::default());
    let reported = run(&["report", file]).ended(status);
    assert_eq!(reported.out_text(), second::report::lines(&answer.report));
}

/// A clip of all times, or the fault told and no file.
fn assert_cut(folder: &Folder, file: &str, octets: &[u8], answer: &Answer) {
    let status = i32::from(answer.fault != 0);
    let out = folder.word("clip");
    let order = ["cut", file, "--from=0", "--to=9999-01-01T00:00:00Z", "--mute=64499", "-o", &out];
    let run = run(&order).ended(status);
    assert!(run.out.is_empty());
    if status == 0 {
        assert_eq!(folder.read("clip"), answer.octets);
        fs::remove_file(folder.path("clip")).unwrap();
    } else {
        let end = Dump::read(octets).end;
        run.told(&format!("fault {} at octet {} ", answer.fault, answer.place))
            .told(&format!("\n  Field: {}", end.field.unwrap()))
            .told(&kept(octets, end.record));
    }
    assert_eq!(folder.names(), ["dump"]);
}

/// What is told to be kept, which must be good.
fn kept(octets: &[u8], record: usize) -> String {
    assert_eq!(Dump::read(&octets[..record]).end.fault, None);
    match record {
        0 => "No good record stands before it.".to_string(),
        _ => format!("(head -c {record})"),
    }
}

#[test]
fn damaged_files() {
    let folder = Folder::new("damage");
    let mut random = Rng::seeded(20_260_301);
    let mut faults = BTreeSet::new();
    for _ in 0..count() {
        let mut octets = sample();
        damage(&mut random, &mut octets);
        let answer = second::cut::cut(&octets, 0, u64::MAX, &[64_499], octets.len());
        let file = folder.file("dump", &octets);
        let status = i32::from(answer.fault != 0);
        assert_listed(&file, &octets, status);
        assert_reported(&file, &octets, status);
        assert_cut(&folder, &file, &octets, &answer);
        faults.insert(answer.fault);
    }
    assert!(faults.contains(&0) && faults.len() > 5, "too few answers: {faults:?}");
}

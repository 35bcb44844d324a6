//! Several FILEs as one recording: what is said of them, and of a fault in one.

use crate::dumps::{change, change_of, record, sample, table, SAMPLE};
use crate::run::{run, Folder};

#[test]
fn the_one_with_the_fault_is_named() {
    let folder = Folder::new("several");
    let good = folder.file("good", &change(1, 64_496));
    let empty = folder.file("empty", &[]);
    let bad = folder.file("bad", &[change(2, 64_496), change_of(3, 64_500, 3, 7)].concat());
    let (clip, name) = (folder.word("clip"), "of 3 files laid end to end: a state change names");
    let files = [&good[..], &empty, &bad];
    let cut = [&["cut"], &files[..], &["--from=0", "--to=9.0", "-o", &clip]].concat();
    let orders = ["check", "list", "peers"].map(|command| [&[command], &files[..]].concat());
    let told = [
        format!("{bad}: fault 9 at octet 94 (0x5e) {name}"),
        "The record starts at octet 64 (0x40): Type 16, Subtype 0, Length 20.".to_string(),
        format!("\n  In {bad} alone the record starts at octet 32 (0x20), the field at octet 62 "),
        "\n  By its header: BGP4MP, state change, time 1970-01-01T00:00:03.000000Z, peer AS 64500."
            .to_string(),
        format!("2 good record(s), 64 octets, stand before it: 32 of these octets are in {bad}."),
    ];
    for order in orders.into_iter().chain([cut]) {
        let run = run(&order).ended(1).silent_about("head -c");
        told.iter().fold(run, |run, words| run.told(words));
    }
}

/// What follows in the next file is taken for the rest of the record.
#[test]
fn one_that_is_cut_off() {
    let folder = Folder::new("cut-off");
    let half = folder.file("half", &[change(1, 64_496), change(2, 64_496)[..20].to_vec()].concat());
    let good = folder.file("good", &change(3, 64_496));
    run(&["check", &half, &good])
        .ended(1)
        .told(&format!("{half}: fault "))
        .told("alone the record starts at octet 32 (0x20) and runs past the end of that file");
    run(&["check", &good, &half])
        .ended(1)
        .told(&format!("{half}: fault 2 at octet 64 (0x40) of 2 files"))
        .told("alone the record starts at octet 32 (0x20), the field at octet 32 (0x20).");
}

#[test]
fn good_ones_are_listed_by_name() {
    let folder = Folder::new("several-good");
    let table = folder.file("table", &table(1, &[10]));
    let (empty, size) = (folder.file("empty", &[]), sample().len());
    let run = run(&["check", &table, &empty, SAMPLE]).ended(0);
    let expected = [
        format!("3 files laid end to end: good, 50 records, {} octets", 33 + size),
        format!("  {table}: 33 octets, from octet 0 on"),
        format!("  {empty} is empty"),
        format!("  {SAMPLE}: {size} octets, from octet 33 on"),
    ];
    let lines: Vec<&str> = run.out_text().lines().take(4).collect();
    assert_eq!(lines, expected);
}

/// The last of one file need not be whole if the next goes on with it.
#[test]
fn what_was_split_is_whole_again() {
    let folder = Folder::new("split");
    let octets = sample();
    let (one, two) = octets.split_at(1_000);
    let (one, two) = (folder.file("one", one), folder.file("two", two));
    let whole = run(&["list", SAMPLE]).ended(0);
    assert_eq!(run(&["list", &one, &two]).ended(0).out_text(), whole.out_text());
    let peers = run(&["peers", SAMPLE]).ended(0);
    assert_eq!(run(&["peers", &one, &two]).ended(0).out_text(), peers.out_text());
    run(&["check", &two, &one]).ended(1);
}

/// Each file of a report is a recording of its own, as ever.
#[test]
fn a_report_tells_each_file_alone() {
    let folder = Folder::new("report-alone");
    let bad = folder.file("bad", &[change(2, 64_496), record(1, 99, 0, &[])].concat());
    run(&["report", SAMPLE, &bad])
        .ended(1)
        .told(&format!("{bad}: fault 3 at octet 36 (0x24): the record's Type"))
        .told("a Type that is not known, time 1970-01-01T00:00:01.000000Z.")
        .told("(head -c 32)");
}

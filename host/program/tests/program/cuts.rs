//! What a cut writes, and what it tells of it.

use crate::dumps::{change, message, record, rib, sample, table, table_dump, NOON, SAMPLE};
use crate::run::{run, run_fed, Folder, Run};

const MICROS: u64 = 1_000_000;

/// Cuts octets from standard input to standard output.
fn cut_piped(octets: &[u8], more: &[&str]) -> Run {
    run_fed(&[&["cut", "-", "-o", "-"], more].concat(), octets).ended(0)
}

/// All times, without these.
fn muted(octets: &[u8], mutes: &[u32]) -> Run {
    let mutes: Vec<String> = mutes.iter().map(|number| format!("--mute={number}")).collect();
    let mut more = vec!["--from=0", "--to=9999-01-01T00:00:00Z"];
    more.extend(mutes.iter().map(String::as_str));
    cut_piped(octets, &more)
}

#[test]
fn a_clip_is_that_of_the_second_program() {
    let folder = Folder::new("clip");
    let octets = sample();
    let (from, to) = (u64::from(NOON) * MICROS + 11_000, u64::from(NOON + 60) * MICROS);
    let expected = second::cut::cut(&octets, from, to, &[64_499, 65_541], octets.len()).octets;
    assert!(!expected.is_empty() && expected.len() < octets.len());
    let from = "--from=2026-03-01T12:00:00.011Z";
    let file = folder.file("list", b"# private\nAS1.5 # 65541\n");
    let more = [from, "--to", "1772366460.0", "--mute", "64499", "--mute-file", &file];
    let out = folder.word("clip");
    let arguments = [&["cut", SAMPLE, "-o", &out], &more[..]].concat();
    assert!(run(&arguments).ended(0).out.is_empty());
    assert_eq!(folder.read("clip"), expected);
    assert_eq!(cut_piped(&octets, &more).out, expected);
    assert_eq!(folder.names(), ["clip", "list"]);
}

#[test]
fn the_end_of_the_window_is_not_in_it() {
    let octets = [change(5, 10), change(6, 10)].concat();
    assert_eq!(cut_piped(&octets, &["--from=5.0", "--to=6.0"]).out, change(5, 10));
    assert_eq!(cut_piped(&octets, &["--from=5.0", "--to=6.000001"]).out, octets);
    assert_eq!(cut_piped(&octets, &["--from=5.0", "--to=5.0"]).out, []);
}

#[test]
fn kept_and_gone_are_told() {
    let dump = [
        table(1, &[10, 20]),
        rib(5, &[0, 1]),
        rib(9, &[0]),
        table_dump(5, 20, &[]),
        change(5, 10),
        change(9, 10),
        message(5, 20, 19),
        message(5, 10, 19),
        record(5, 48, 0, &[]),
    ]
    .concat();
    let run = cut_piped(&dump, &["--from=5.0", "--to=6.0", "--mute=20"]);
    let octets = (run.out.len(), dump.len() - run.out.len());
    let row = |name: &str| {
        let line = run.err.lines().find(|line| line.trim_start().starts_with(name));
        let words = line.unwrap_or_else(|| panic!("{name} is not in: {}", run.err));
        let numbers = words.trim_start().strip_prefix(name).unwrap();
        numbers.split_whitespace().map(|word| word.parse().unwrap()).collect::<Vec<usize>>()
    };
    for (name, kept, gone) in [
        ("peer tables", 1, 0),
        ("RIB records", 1, 1),
        ("type 12", 0, 1),
        ("state changes", 1, 1),
        ("BGP messages", 1, 1),
        ("other (unread)", 1, 0),
        ("RIB entries", 1, 2),
        ("peers in tables", 1, 1),
        ("octets", octets.0, octets.1),
    ] {
        assert_eq!(row(name), [kept, gone], "{name}");
    }
    run.told("5 of 9 records kept")
        .told("AS numbers to mute: 1, in no table or record: 0")
        .told("AS10 (peers 1, entries 1, records 2)")
        .silent_about("AS20");
}

#[test]
fn the_report_ends_with_what_a_mute_does_not_reach() {
    let octets = [change(1, 10), change(1, 20)].concat();
    let run = muted(&octets, &[10]);
    let last = run.err.lines().last().unwrap();
    assert_eq!(last.trim(), "Muted AS numbers may still stand inside other peers' paths.");
    muted(&octets, &[]).silent_about("paths");
}

#[test]
fn rib_records_that_came_without_entries_are_counted() {
    let octets =
        [table(1, &[10, 20]), rib(5, &[]), rib(5, &[0]), rib(5, &[0, 1]), rib(9, &[])].concat();
    let words = "RIB records that came with no entries, and stay: ";
    muted(&octets, &[10]).told(&format!("{words}2\n"));
    muted(&octets, &[]).silent_about(words);
    muted(&[table(1, &[10]), rib(5, &[0])].concat(), &[10]).silent_about(words);
    cut_piped(&octets, &["--to=6.0", "--mute=10"]).told(&format!("{words}1\n"));
}

#[test]
fn records_without_a_peer_are_counted_where_somebody_is_muted() {
    let octets = [record(5, 48, 0, &[]), record(9, 32, 7, &[1]), change(5, 10)].concat();
    let words = "records of OSPF and IS-IS, which have no peer AS, and stay: ";
    muted(&octets, &[10]).told(&format!("{words}2\n"));
    cut_piped(&octets, &["--only=10", "--to=6.0"]).silent_about(words);
    cut_piped(&octets, &["--only=11", "--to=6.0"]).told(&format!("{words}1\n"));
    muted(&octets, &[]).silent_about(words);
    muted(&change(5, 10), &[10]).silent_about(words);
}

#[test]
fn all_who_are_left_are_listed_unless_it_is_to_be_brief() {
    let of = |count: u16| (1..=count).flat_map(|number| change(1, number)).collect::<Vec<u8>>();
    let brief = |count: u16| cut_piped(&of(count), &["--from=0", "--brief"]);
    brief(20).told("AS20 (").silent_about("more");
    brief(21).told("AS20 (").told("and 1 more").silent_about("AS21 (");
    brief(50).told("still in the clip: 50").told("and 30 more");
    muted(&of(50), &[]).told("still in the clip: 50").told("AS50 (").silent_about("more");
}

#[test]
fn a_clip_with_nothing_in_it_warns() {
    let octets = [table(1, &[10]), rib(5, &[0]), change(9, 20)].concat();
    let window = |from: &str, to: &str| cut_piped(&octets, &["--from", from, "--to", to]);
    let run = window("6.0", "9.0");
    assert_eq!(run.out, table(1, &[10]));
    run.told("from 1970-01-01T00:00:05.000000Z to 1970-01-01T00:00:09.000000Z");
    window("6.0", "9.1").silent_about("warning");
    muted(&octets, &[10, 20]).told("warning: no record but peer tables is left");
    muted(&change(1, 20), &[20]).told("warning: no record");
    muted(&table(1, &[10]), &[10]).silent_about("warning");
    muted(&[], &[]).silent_about("warning");
}

#[test]
fn quiet_leaves_out_the_report_alone() {
    let folder = Folder::new("quiet");
    let cut = |more: &[&str]| {
        let out = folder.word("clip");
        let order = ["cut", SAMPLE, "--from=0", "--to=9999-01-01T00:00:00Z", "-fo", &out];
        run(&[&order[..], more].concat()).ended(0)
    };
    assert_eq!(cut(&["--quiet"]).err, "");
    let run = cut(&["-q", "--mute=7"]);
    assert_eq!(run.err.lines().count(), 1, "{}", run.err);
    run.told("warning: 1 of 1 numbers hit nobody: AS7 ");
    cut(&["--mute=7"]).told("kept").told("hit nobody: AS7 ");
}

#[test]
fn mute_files_that_cannot_be_used() {
    let folder = Folder::new("mute-file");
    let cut = |file: &str| {
        let out = folder.word("clip");
        let file = format!("--mute-file={file}");
        run(&["cut", SAMPLE, "--from=0", "--to=5.0", &file, "-o", &out])
    };
    cut(&folder.file("bad", b"64500\n64501\n6450o\n"))
        .ended(2)
        .told("bad: line 3: '6450o' is no AS number");
    cut(&folder.word("none")).ended(2).told("cannot read").told("none");
    assert_eq!(folder.names(), ["bad"]);
    cut(&folder.file("empty", b"# nobody\n"))
        .ended(0)
        .told("WARNING: ")
        .told("empty lists no AS number: nobody is muted by it");
    assert_eq!(folder.read("clip")[..107], sample()[..107]);
    assert_eq!(folder.read("clip").len(), 107, "the peer table alone");
}

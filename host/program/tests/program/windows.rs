//! The times of a cut as they may be ordered, and what is refused or doubted.

use crate::dumps::{change, table, NOON, SAMPLE};
use crate::run::{run, run_fed, Folder, Run};

fn cut(octets: &[u8], more: &[&str]) -> Run {
    run_fed(&[&["cut", "-", "-o", "-"], more].concat(), octets)
}

/// Changes of one peer at these seconds.
fn changes(times: &[u32]) -> Vec<u8> {
    times.iter().flat_map(|time| change(*time, 10)).collect()
}

/// What bgpdump prints are seconds: taken as microseconds all of the dump would go out.
#[test]
fn seconds_without_a_point_are_refused() {
    let folder = Folder::new("seconds");
    let out = folder.word("out");
    for option in ["--from", "--to", "--around"] {
        let run = run(&["cut", SAMPLE, option, "1794708900", "-o", &out]).ended(2);
        run.told(&format!("{option}: '1794708900' can be read in two ways"))
            .told("as seconds it is 2026-11-15T02:15:00.000000Z, written 1794708900.0")
            .told("as microseconds it is 1970-01-01T00:29:54.708900Z, written 1794.708900");
        run_of_list(option).ended(2).told("two ways");
    }
    assert!(folder.names().is_empty());
    for time in ["1", "99999999999"] {
        cut(&changes(&[5]), &["--to", time]).ended(2).told("two ways");
    }
    for time in ["0", "100000000000", "1794708900.0", "1794.708900"] {
        cut(&changes(&[5]), &["--from", time]).ended(0);
    }
}

fn run_of_list(option: &str) -> Run {
    run(&["list", SAMPLE, option, "1794708900"])
}

#[test]
fn milliseconds_are_doubted() {
    let octets = changes(&[NOON]);
    let run = cut(&octets, &["--from", "1772366400011"]).ended(0);
    assert_eq!(run.out, octets);
    run.told("WARNING: --from 1772366400011 is taken as microseconds, 1970-01-21T")
        .told("as milliseconds it is 2026-03-01T12:00:00.011000Z");
    cut(&octets, &["--from", "1772366400011000"]).ended(0).silent_about("milliseconds");
    run_fed(&["list", "-", "--from", "1772366400011"], &octets).ended(0).told("WARNING: --from 17");
    let strict = cut(&octets, &["--from", "1772366400011", "--strict"]).ended(1);
    assert!(strict.out.is_empty());
}

#[test]
fn offsets_are_taken() {
    let octets = changes(&[NOON - 1, NOON, NOON + 1]);
    let from_noon = changes(&[NOON, NOON + 1]);
    for from in ["2026-03-01T13:00:00+01:00", "2026-03-01T04:00:00-08:00", "2026-03-01T12:00:00Z"] {
        let run = cut(&octets, &["--from", from]).ended(0);
        assert_eq!(run.out, from_noon, "{from}");
        run.told("from 2026-03-01T12:00:00.000000Z");
    }
    cut(&octets, &["--from", "2026-03-01T13:00:00+0100"]).ended(2).told("as +01:00");
    cut(&octets, &["--from", "2026-03-01T13:00:00"]).ended(2).told("put Z behind it");
}

#[test]
fn a_side_that_is_left_out_is_open() {
    let octets = changes(&[5, 6, 7]);
    let run = cut(&octets, &["--from=6.0"]).ended(0);
    assert_eq!(run.out, changes(&[6, 7]));
    run.told("from 1970-01-01T00:00:06.000000Z on (--to was left out)");
    let run = cut(&octets, &["--to=6.0"]).ended(0);
    assert_eq!(run.out, changes(&[5]));
    run.told("up to but not including 1970-01-01T00:00:06.000000Z (--from was left out)");
    let run = cut(&octets, &["--mute=11"]).ended(0);
    assert_eq!(run.out, octets);
    run.told("of all times (--from and --to were left out)").silent_about("whole recording");
    let latest = [0xff; 4];
    let mut late = changes(&[5]);
    late[..4].copy_from_slice(&latest);
    assert_eq!(cut(&late, &["--from=6.0"]).ended(0).out, late);
}

#[test]
fn an_order_of_nothing_is_doubted() {
    let octets = changes(&[5]);
    let run = cut(&octets, &[]).ended(0);
    assert_eq!(run.out, octets);
    run.told("WARNING: no time and no peer was ordered: the clip is the whole recording");
    cut(&octets, &["--from=0"]).ended(0).silent_about("whole recording");
}

#[test]
fn around_a_moment() {
    let octets = changes(&[6, 7, 8, 9, 10, 11, 12, 13, 14]);
    let around =
        |seconds: &str| cut(&octets, &["--around=10.0", "--seconds", seconds]).ended(0).out;
    assert_eq!(around("3"), changes(&[7, 8, 9, 10, 11, 12]));
    assert_eq!(around("2.000001"), changes(&[8, 9, 10, 11, 12]));
    assert_eq!(around("0.5"), changes(&[10]));
    assert_eq!(around("100"), octets, "no time is before 1970");
    cut(&octets, &["--around=10.0"]).ended(2).told("--seconds");
    cut(&octets, &["--around=10.0", "--seconds=1", "--from=0"]).ended(2).told("--around");
}

#[test]
fn several_files_are_one_recording() {
    let folder = Folder::new("several");
    let (one, other) = ([table(1, &[10]), change(5, 10)].concat(), changes(&[6, 7]));
    let files = [folder.file("one", &one), folder.file("other", &other)];
    let all = [&one[..], &other].concat();
    let order = ["cut", &files[0], &files[1], "-o", "-", "--from=6.0"];
    let run = run(&order).ended(0);
    assert_eq!(run.out, [table(1, &[10]), changes(&[6, 7])].concat());
    run.told("3 of 4 records kept");
    let piped = run_fed(&["cut", "-", &files[1], "-o", "-", "--to=9.0"], &one).ended(0);
    assert_eq!(piped.out, all);
    let turned = run_fed(&["cut", &files[1], "-", "-o", "-", "--to=9.0"], &one).ended(0);
    assert_eq!(turned.out, [&other[..], &one].concat());
    // A RIB record's table may be in the file before.
    let rib = folder.file("rib", &crate::dumps::rib(8, &[0]));
    assert_eq!(
        crate::run::run(&["cut", &files[0], &rib, "-o", "-", "--from=0"]).ended(0).out.len(),
        one.len() + 27
    );
    crate::run::run(&["cut", &rib, &files[0], "-o", "-", "--from=0"]).ended(1).told("fault 12");
}

#[test]
fn a_dry_run_writes_nothing() {
    let folder = Folder::new("dry");
    let (out, report) = (folder.word("out"), folder.word("report"));
    let order = ["cut", SAMPLE, "--to=9.0", "--mute=64499", "--dry-run"];
    run(&order).ended(0).told("the clip (dry run, nothing is written): 1 of 49 records kept");
    let named = [&order[..], &["-o", &out, "--report", &report]].concat();
    run(&named).ended(0).told("out (dry run, nothing is written)").told("still in the clip");
    assert!(folder.names().is_empty());
    folder.file("out", b"an earlier clip");
    run(&named).ended(2).told("--force replaces it");
    assert!(run(&[&order[..], &["-o", "-"]].concat()).ended(0).out.is_empty());
    run(&[&order[..], &["--strict", "--mute=7"]].concat()).ended(1).told("--strict");
}

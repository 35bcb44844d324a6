//! What report prints of one recording and of many.

use crate::dumps::{change_of, sample, table_dump, SAMPLE};
use crate::run::{run, run_fed, Folder};

/// Document 02's example: 3 to 4 twice, 4 to 6 once.
fn three_changes() -> Vec<u8> {
    [(3, 4), (3, 4), (4, 6)]
        .iter()
        .flat_map(|(old, new)| change_of(1, 64_496, *old, *new))
        .collect()
}

const THREE_CHANGES: &str = "records=3\nchanges=3\nbreaks=0\nchange.3.4=2\nchange.4.6=1\n";

/// Records of type 12 with these sequences.
fn routes(sequences: &[u16]) -> Vec<u8> {
    let route = |sequence: &u16| {
        let mut octets = table_dump(1, 64_496, &[]);
        octets[14..16].copy_from_slice(&sequence.to_be_bytes());
        octets
    };
    sequences.iter().flat_map(route).collect()
}

#[test]
fn document_02_example() {
    let run = run_fed(&["report", "-"], &three_changes()).ended(0);
    assert_eq!(run.out_text(), THREE_CHANGES);
    assert_eq!(run.err, "");
}

#[test]
fn the_report_is_that_of_the_second_program() {
    let expected = second::report::text(&sample());
    assert_eq!(run(&["report", SAMPLE]).ended(0).out_text(), expected);
    assert_eq!(run_fed(&["report", "-"], &[]).ended(0).out_text(), second::report::text(&[]));
}

#[test]
fn each_recording_is_counted_alone() {
    let folder = Folder::new("alone");
    let first = folder.file("first", &routes(&[65_534, 65_535, 0, 7]));
    let second = folder.file("second", &routes(&[3, 3]));
    let whole = folder.file("whole", &routes(&[65_534, 65_535, 0, 7, 3, 3]));
    let breaks = |files: &[&str]| {
        let run = run(&[&["report"], files].concat()).ended(0);
        run.out_text().lines().nth(2).unwrap().to_string()
    };
    assert_eq!(breaks(&[&first]), "breaks=1");
    assert_eq!(breaks(&[&first, &second]), "breaks=2");
    assert_eq!(breaks(&[&second, &first]), "breaks=2");
    assert_eq!(breaks(&[&whole]), "breaks=3", "one recording has no seam");
    assert_eq!(breaks(&[&first, &first, &first]), "breaks=3");
}

#[test]
fn large_recordings_are_counted_too() {
    let folder = Folder::new("report-large");
    let octets = three_changes().repeat(1_000);
    assert!(octets.len() > second::listing::LARGEST);
    let file = folder.file("dump", &octets);
    let run = run(&["report", &file, SAMPLE, &file]).ended(0);
    assert!(run.out_text().starts_with("records=6049\nchanges=6011\nbreaks=0\n"));
    assert!(run.out_text().contains("\nchange.3.4=4001\n"));
}

#[test]
fn a_refused_one_is_named_and_adds_nothing() {
    let folder = Folder::new("refused");
    let good = folder.file("good", &three_changes());
    let half = folder.file("half", &[three_changes(), vec![0; 5]].concat());
    let state = folder.file("state", &[three_changes(), change_of(1, 1, 3, 7)].concat());
    let words = run(&["check", &half]).ended(1).err;
    let report = run(&["report", &half, &good, &state]).ended(1);
    assert_eq!(report.out_text(), THREE_CHANGES);
    assert!(report.err.starts_with(&words), "as check tells it: {}", report.err);
    let told = report.told(&format!("{state}: fault 9 at octet 126 (0x7e): "));
    told.told("NOT IN THE REPORT: 2 of 3 recording(s)").silent_about(&good);
}

#[test]
fn one_that_cannot_be_read_is_left_out() {
    let folder = Folder::new("left-out");
    let good = folder.file("good", &three_changes());
    let bad = folder.file("bad", &[1]);
    let run = run(&["report", &folder.word("none"), &bad, &good]).ended(2);
    assert_eq!(run.out_text(), THREE_CHANGES);
    run.told("cannot read").told("none").told("fault 1 at octet 0").told("2 of 3 recording(s)");
}

#[test]
fn a_table_for_people() {
    let folder = Folder::new("table");
    let file = folder.file("dump", &[three_changes(), routes(&[5, 5])].concat());
    let expected = "\
old \\ new    Idle  Connect  Active  OpenSent  OpenConfirm  Established  all
Idle            0        0       0         0            0            0    0
Connect         0        0       0         0            0            0    0
Active          0        0       0         4            0            0    4
OpenSent        0        0       0         0            0            2    2
OpenConfirm     0        0       0         0            0            0    0
Established     0        0       0         0            0            0    0
all             0        0       0         4            0            2    6

records: 10
state changes: 6
breaks of the type 12 sequence: 2
";
    assert_eq!(run(&["report", "--table", &file, &file]).ended(0).out_text(), expected);
    let half = folder.file("half", &[9; 3]);
    let table =
        run(&["report", &half, &file, &file, "--table"]).ended(1).told("fault 1 at octet 0");
    assert_eq!(table.out_text(), expected);
}

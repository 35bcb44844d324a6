//! What a cut warns of: few words for many numbers, and the serious last.

use crate::dumps::{change, change_at, message, rib, table, table_at, table_dump};
use crate::run::{run, run_fed, Folder, Run};

fn cut(octets: &[u8], more: &[&str]) -> Run {
    run_fed(&[&["cut", "-", "-o", "-"], more].concat(), octets)
}

/// All times, without these.
fn muted(octets: &[u8], mutes: &[u32]) -> Run {
    let mutes: Vec<String> = mutes.iter().map(|number| format!("--mute={number}")).collect();
    let mut more = vec!["--from=0"];
    more.extend(mutes.iter().map(String::as_str));
    cut(octets, &more).ended(0)
}

/// A file with these numbers, one a line.
fn list(folder: &Folder, numbers: impl Iterator<Item = u32>) -> String {
    let text: String = numbers.map(|number| format!("{number}\n")).collect();
    folder.file("list", text.as_bytes())
}

#[test]
fn a_mute_that_hits_nobody() {
    let octets = [table(1, &[10]), change(1, 20), table_dump(1, 30, &[]), change(1, 1)].concat();
    muted(&octets, &[10, 20, 30]).silent_about("warning").silent_about("WARNING");
    muted(&octets, &[10, 11, 21])
        .told("warning: 2 of 3 numbers hit nobody: AS11, AS21 (a typing error")
        .told("AS numbers to mute: 3, in no table or record: 2");
    muted(&octets, &[10, 11, 21, 31]).told("3 of 4 numbers hit nobody: AS11, AS21, AS31 (");
}

#[test]
fn many_numbers_are_one_line() {
    let folder = Folder::new("many");
    let octets: Vec<u8> = (1..=15).flat_map(|number| change(1, number)).collect();
    let list = list(&folder, 1..=2_002);
    let run = cut(&octets, &["--mute-file", &list]).ended(0);
    let lines = run.err.lines().filter(|line| line.contains("hit nobody"));
    assert_eq!(
        lines.collect::<Vec<_>>(),
        ["dagsumilat: warning: 1,987 of 2,002 numbers hit nobody: --verbose lists them"]
    );
    let run = cut(&octets, &["--mute-file", &list, "--verbose"]).ended(0);
    run.told("1,987 of 2,002 numbers hit nobody: AS16, AS17, ").told("AS2001, AS2002");
}

#[test]
fn a_number_cut_to_16_bits() {
    let short = 130_537 & 0xffff;
    let octets = [table(1, &[130_537, 64_500]), change(1, short as u16)].concat();
    muted(&octets, &[130_537])
        .told("WARNING: still in the clip, and what is left of a muted number in 16 bits: AS65001 of muted AS130537");
    muted(&octets, &[130_537, short]).silent_about("16 bits");
    muted(&octets, &[]).silent_about("WARNING");
    muted(&octets, &[64_500]).silent_about("WARNING");
    let shorts: Vec<u8> = (1..=9).flat_map(|number| change(1, number)).collect();
    let mutes: Vec<u32> = (1..=9).map(|number| 65_536 + number).collect();
    muted(&shorts, &mutes).told("16 bits: 9 numbers (--verbose lists them)");
}

#[test]
fn stand_ins_that_are_left() {
    muted(&table(1, &[0, 10]), &[10]).told("WARNING: AS0 is still in the clip");
    muted(&table(1, &[0, 10]), &[0]).silent_about("WARNING");
    muted(&table(1, &[0, 10]), &[]).silent_about("WARNING");

    let stand_in = [change(1, 23_456), table(1, &[70_000, 10])].concat();
    muted(&stand_in, &[10]).told("WARNING: AS23456").told("anybody with a 4-octet AS");
    muted(&stand_in, &[70_000]).told("WARNING: AS23456").told("a muted one too");
    muted(&stand_in, &[23_456]).silent_about("AS23456 is still");
}

/// OpenBGPD's order of fields, and dumps of sent messages.
#[test]
fn a_muted_local_number_is_no_typing_error() {
    let octets =
        [change_at(5, 99, 1, 10), change_at(6, 99, 1, 10), change_at(7, 98, 1, 97)].concat();
    let run = muted(&octets, &[10]);
    assert_eq!(run.out, octets);
    run.told("WARNING: muted, and the local AS of 2 record(s) still in the clip: AS10 of 2")
        .silent_about("hit nobody")
        .silent_about("typing error");
    cut(&octets, &["--mute=10", "--to=6.0"]).ended(0).told("the local AS of 1 record(s)");
    cut(&octets, &["--mute=10", "--from=7.0"])
        .ended(0)
        .silent_about("local AS")
        .silent_about("nobody");
    muted(&octets, &[10, 99]).silent_about("local AS");
    muted(&octets, &[10, 97])
        .told("the local AS of 3 record(s) still in the clip: AS10 of 2, AS97 of 1");
    muted(&message(1, 20, 19), &[64_511]).told("the local AS of 1 record(s)");
}

#[test]
fn an_address_of_a_muted_peer_under_a_stand_in() {
    let octets = [
        table_at(1, &[(70_000, 1), (20, 2)]),
        rib(2, &[0, 1]),
        change_at(3, 23_456, 1, 99),
        change_at(3, 23_456, 3, 99),
        change_at(4, 0, 1, 99),
    ]
    .concat();
    muted(&octets, &[70_000]).told(
        "WARNING: addresses of muted peers still stand in the clip under AS0 or AS23456: \
         192.0.2.1 of muted AS70000 under AS0, 192.0.2.1 of muted AS70000 under AS23456 \
         (peers 0, entries 0, records 2)",
    );
    muted(&octets, &[20]).silent_about("addresses of muted peers");
    muted(&octets, &[70_000, 0]).told("(peers 0, entries 0, records 1)");
    muted(&octets, &[0]).told("192.0.2.1 of muted AS0 under AS23456 (");
    muted(&octets, &[70_000, 0, 23_456]).silent_about("addresses of muted peers");
    // The session gives the address, a table has it without a number.
    let turned = [change_at(3, 30, 7, 99), table_at(4, &[(0, 7)]), rib(5, &[0, 0])].concat();
    muted(&turned, &[30]).told("192.0.2.7 of muted AS30 under AS0 (peers 1, entries 2, records 0)");
}

#[test]
fn the_serious_stand_last_and_apart() {
    let octets = [table(1, &[0, 10]), rib(2, &[0, 1])].concat();
    let run = cut(&octets, &["--mute=10", "--mute=11"]).ended(0);
    let lines: Vec<&str> = run.err.lines().collect();
    let at = |word: &str| lines.iter().position(|line| line.contains(word)).unwrap();
    assert!(at("inside other peers' paths") < at("warning: 1 of 2"));
    let serious = lines.iter().position(|line| line.starts_with("dagsumilat: WARNING: ")).unwrap();
    assert_eq!(lines[serious - 1], "", "{}", run.err);
    assert!(at("warning: ") == serious - 2, "{}", run.err);
    assert!(lines[serious..].iter().all(|line| !line.contains("warning: ")));
}

#[test]
fn strict_writes_nothing_where_there_is_a_warning() {
    let folder = Folder::new("strict");
    let file = folder.file("dump", &[change(1, 10), change(1, 20)].concat());
    let (out, report) = (folder.word("out"), folder.word("report"));
    let order = ["cut", &file, "-o", &out, "--report", &report, "--strict"];
    let with = |more: &[&str]| run(&[&order[..], more].concat());
    with(&["--mute=10", "--mute=11"])
        .ended(1)
        .told("hit nobody: AS11")
        .told("--strict: nothing is written, for 1 warning(s)");
    assert_eq!(folder.names(), ["dump"]);
    let piped = cut(&change(1, 10), &["--mute=11", "--strict", "-q"]).ended(1);
    assert!(piped.out.is_empty());
    with(&["--mute=10"]).ended(0);
    assert_eq!(folder.read("out"), change(1, 20));
    assert_eq!(folder.names(), ["dump", "out", "report"]);
    with(&["--mute=11", "--force"]).ended(1);
    assert_eq!(folder.read("out"), change(1, 20));
}

/// No work of the shell grows with the numbers times anything: these would take hours.
#[test]
fn millions_of_numbers_and_thousands_of_peers() {
    let folder = Folder::new("millions");
    let octets: Vec<u8> = (1..=60_000).flat_map(|number| change(1, number)).collect();
    let file = folder.file("dump", &octets);
    let list = list(&folder, 1_000_000..4_000_000);
    for option in ["--mute-file", "--only-file"] {
        let (out, report) = (folder.word("out"), folder.word("report"));
        let order = ["cut", &file, option, &list, "-fo", &out, "--report", &report];
        let run = run(&order).ended(0);
        assert!(run.err.lines().count() < 60_100);
    }
}

//! Whose routes go: those who agreed alone, and peers by their address.

use crate::dumps::{change, change_at, message, rib, sample, table, table_at, table_dump};
use crate::run::{run, run_fed, Folder, Run};
use compare::making::{ask, good, Known};
use second::dump::Dump;
use second::vectors::rng::Rng;

fn cut(octets: &[u8], more: &[&str]) -> Run {
    run_fed(&[&["cut", "-", "-o", "-"], more].concat(), octets)
}

/// What the second program leaves of all times without these.
fn without(octets: &[u8], mutes: &[u32]) -> Vec<u8> {
    second::cut::cut(octets, 0, u64::MAX, mutes, octets.len()).octets
}

#[test]
fn only_those_who_agreed_are_left() {
    let octets =
        [table(1, &[10, 20, 30]), rib(2, &[0, 1, 2]), change(3, 40), message(3, 10, 19)].concat();
    let run = cut(&octets, &["--only=10", "--only", "AS50"]).ended(0);
    assert_eq!(run.out, without(&octets, &[20, 30, 40]));
    run.told("AS numbers that agreed: 2, in the dump: 1; every other peer AS of the dump is muted: 3")
        .told("\n    AS20 (peers 1, entries 1, records 0)\n    AS30 (peers 1, entries 1, records 0)\n    AS40 (peers 0, entries 0, records 1)\n")
        .told("still in the clip: 1\n    AS10 (peers 1, entries 1, records 1)")
        .told("paths");
}

#[test]
fn a_newcomer_is_muted() {
    let folder = Folder::new("newcomer");
    let agreed = folder.file("agreed", b"10 # by mail\r\nAS20\r\n");
    let known = [table(1, &[10, 20]), rib(2, &[0, 1])].concat();
    let order = ["--only-file", &agreed];
    assert_eq!(cut(&known, &order).ended(0).out, known);
    let octets = [table(1, &[10, 15, 20]), rib(2, &[0, 1, 2]), table_dump(3, 15, &[])].concat();
    assert_eq!(cut(&octets, &order).ended(0).out, known);
    let stand_ins = [known.clone(), change(3, 0), change(3, 23_456)].concat();
    assert_eq!(cut(&stand_ins, &order).ended(0).out, known);
}

#[test]
fn an_empty_list_of_those_who_agreed_mutes_everybody() {
    let folder = Folder::new("nobody");
    let agreed = folder.file("agreed", b"# nobody yet\n");
    let octets = [table(1, &[10]), rib(2, &[0]), change(3, 20)].concat();
    let run = cut(&octets, &["--only-file", &agreed]).ended(0);
    assert_eq!(run.out, table(1, &[]));
    run.told("warning: ")
        .told("agreed lists no AS number: nobody has agreed by it")
        .silent_about("WARNING");
}

#[test]
fn only_and_mute_do_not_go_together() {
    for more in ["--mute=1", "--mute-file=f", "--mute-address=::1", "--mute-address-file=f"] {
        cut(&sample(), &["--only=10", more]).ended(2).told("--only mutes everybody else");
    }
}

#[test]
fn only_is_a_mute_of_all_others_for_any_dump() {
    let mut rng = Rng::seeded(64_502);
    for _ in 0..200 {
        let octets = [good(&mut rng), good(&mut rng)].concat();
        let dump = Dump::read(&octets);
        let agreed = ask(&Known::of(&dump), &mut rng).list;
        let run = run_fed(&["peers", "-"], &octets).ended(0);
        let first = |line: &str| line.split_whitespace().next().unwrap().parse::<u32>().unwrap();
        let all = run.out_text().lines().skip(1).map(first);
        let others: Vec<u32> = all.filter(|number| !agreed.contains(number)).collect();
        let mut words: Vec<String> =
            agreed.iter().map(|number| format!("--only={number}")).collect();
        if words.is_empty() {
            words.push("--only-file=/dev/null".to_string());
        }
        let words: Vec<&str> = words.iter().map(String::as_str).collect();
        assert_eq!(cut(&octets, &words).ended(0).out, without(&octets, &others));
    }
}

#[test]
fn an_address_stands_for_the_numbers_behind_it() {
    let octets = [
        table_at(1, &[(10, 1), (70_000, 2)]),
        rib(2, &[0, 1]),
        change_at(3, 23_456, 2, 99),
        change_at(3, 30, 3, 99),
    ]
    .concat();
    let run = cut(&octets, &["--mute-address=192.0.2.2"]).ended(0);
    assert_eq!(run.out, without(&octets, &[70_000, 23_456]));
    run.told("addresses to mute: 1\n    192.0.2.2: AS23456, AS70000\n")
        .told("AS numbers to mute: 2, in no table or record: 0");
    let run = cut(&octets, &["--mute-address=192.0.2.1", "--mute=30"]).ended(0);
    assert_eq!(run.out, without(&octets, &[10, 30]));
    let run = cut(&octets, &["--mute-address=2001:db8::9"]).ended(0);
    assert_eq!(run.out, octets);
    run.told("2001:db8::9: nobody's")
        .told("warning: 1 of 1 addresses are no peer's in the dump: 2001:db8::9");
}

#[test]
fn an_address_whose_number_others_share_is_refused() {
    let folder = Folder::new("shared");
    let octets = [table_at(1, &[(10, 1), (10, 2), (20, 3)]), rib(2, &[0, 1, 2])].concat();
    let (file, out) = (folder.file("dump", &octets), folder.word("out"));
    let cut_file = |more: &[&str]| run(&[&["cut", &file, "-o", &out], more].concat());
    cut_file(&["--mute-address=192.0.2.1"])
        .ended(1)
        .told("192.0.2.1: it is a peer of AS10, and so is 192.0.2.2")
        .told("--force");
    assert_eq!(folder.names(), ["dump"]);
    for more in [
        &["--mute-address=192.0.2.1", "--force"][..],
        &["--mute-address=192.0.2.1", "--mute-address=192.0.2.2"],
        &["--mute-address=192.0.2.1", "--mute=10"],
    ] {
        cut_file(&[more, &["-f"]].concat()).ended(0);
        assert_eq!(folder.read("out"), without(&octets, &[10]), "{more:?}");
    }
    cut(&octets, &["--mute-address=192.0.2.3"]).ended(0).told("192.0.2.3: AS20");
}

#[test]
fn addresses_from_a_file() {
    let folder = Folder::new("addresses");
    let octets = [table_at(1, &[(10, 1), (20, 2), (30, 3)]), rib(2, &[0, 1, 2])].concat();
    let list = folder.file("list", b"\xef\xbb\xbf192.0.2.1\r\n# later\r\n192.0.2.3 # by mail\r\n");
    let run = cut(&octets, &["--mute-address-file", &list]).ended(0);
    assert_eq!(run.out, without(&octets, &[10, 30]));
    let bad = folder.file("bad", b"192.0.2.1\n192.0.2\n");
    cut(&octets, &["--mute-address-file", &bad])
        .ended(2)
        .told("bad: line 2: '192.0.2' is no IP address");
}

/// The library finds 65,535 numbers at once; a longer list is one list all the same.
#[test]
fn a_list_of_any_length_is_one_list() {
    let folder = Folder::new("long-list");
    let peers = [100_000, 165_534, 165_535, 200_000, 231_069, 231_070, 299_999, 300_000, 10];
    let indexes: Vec<u16> = (0..9).collect();
    let octets = [table(1, &peers), rib(2, &indexes), rib(9, &indexes), change(3, 10)].concat();
    for count in [65_534, 65_535, 65_536, 131_069, 131_070, 131_071, 200_000] {
        let numbers: Vec<u32> = (100_000..100_000 + count).collect();
        let text: String = numbers.iter().rev().map(|number| format!("{number}\n")).collect();
        let list = folder.file("list", text.as_bytes());
        let run = cut(&octets, &["--mute-file", &list, "--to=5.0"]).ended(0);
        let left = second::cut::cut(&octets, 0, 5_000_000, &numbers, octets.len()).octets;
        assert_eq!(run.out, left, "{count}");
    }
}

/// The order of the lists on standard input and of the dump in a file.
#[test]
fn a_list_on_standard_input() {
    let folder = Folder::new("piped-list");
    let octets = [change(1, 10), change(1, 20)].concat();
    let file = folder.file("dump", &octets);
    for option in ["--mute-file", "--only-file"] {
        let run = run_fed(&["cut", &file, "-o", "-", option, "-"], b"10\n").ended(0);
        let left = if option == "--mute-file" { change(1, 20) } else { change(1, 10) };
        assert_eq!(run.out, left);
    }
    cut(&octets, &["--mute-file", "-"]).ended(2).told("standard input (-) more than once");
}

//! Lists of AS numbers, as people and their programs write them.

use crate::dumps::{change, SAMPLE};
use crate::run::{run, run_fed, Folder, Run};

const ALL: [&str; 2] = ["--from=0", "--to=9999-01-01T00:00:00Z"];

fn cut_with(folder: &Folder, dump: &str, list: &[u8]) -> Run {
    let list = folder.file("list", list);
    run(&[&["cut", dump, "--mute-file", &list, "-fo", &folder.word("clip")], &ALL[..]].concat())
}

#[test]
fn as_editors_of_other_systems_save_it() {
    let folder = Folder::new("saved");
    let octets = [change(1, 10), change(1, 20), change(1, 30)].concat();
    let dump = folder.file("dump", &octets);
    for list in [
        &b"10\n30\n"[..],
        b"10\r\n30\r\n",
        b"\xef\xbb\xbf10\r\n\r\n30",
        b"# not agreed\nAS10 # by mail\n\t0.30\t\n",
        b"10 # Z\xfcrich\n30",
    ] {
        cut_with(&folder, &dump, list).ended(0);
        assert_eq!(folder.read("clip"), change(1, 20));
    }
}

#[test]
fn what_is_no_list_is_refused() {
    let folder = Folder::new("no-list");
    for (list, words) in [
        (&b"\xff\xfe1\x000\x00"[..], "list: it is UTF-16 text; save it as UTF-8"),
        (b"\xfe\xff\x001\x000", "list: it is UTF-16 text; save it as UTF-8"),
        (b"10\n2O\n", "list: line 2: '2O' is no AS number"),
        (b"10\r20\n", "list: line 1: '10\\r20' is no AS number"),
        (b"10\n\x1b[2J\n", "list: line 2: '\\u{1b}[2J' is no AS number"),
        (b"10\n\xff\n", "list: line 2: '\\xFF' is no text"),
    ] {
        cut_with(&folder, SAMPLE, list).ended(2).told(words);
        assert_eq!(folder.names(), ["list"]);
    }
}

#[test]
fn from_standard_input() {
    let folder = Folder::new("list-piped");
    let dump = folder.file("dump", &[change(1, 10), change(1, 20)].concat());
    let order = [&["cut", &dump, "--mute-file=-", "-o", "-"], &ALL[..]].concat();
    assert_eq!(run_fed(&order, b"10\n").ended(0).out, change(1, 20));
    run_fed(&order, b"10\nx\n").ended(2).told("cannot read standard input: line 2: 'x' is no AS");
}

/// Besides, an AS number has few digits, and no file is asked about each of them.
#[test]
fn a_million_lines() {
    let folder = Folder::new("million");
    let dump = folder.file("dump", &change(1, 10));
    let list: String = (0..1_000_000).map(|number| format!("{}\n", number + 100_000)).collect();
    let order = [&["cut", &dump, "--mute-file=-", "-qo", "-"], &ALL[..]].concat();
    let run = run_fed(&order, list.as_bytes()).ended(0);
    assert_eq!(run.out, change(1, 10));
}

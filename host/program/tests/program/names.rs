//! View names: UTF-8 text passes, anything else is refused and told with its octets.

use crate::dumps::{change, named_table, rib, table};
use crate::run::{run, run_fed, Folder};

/// A state change, then a table with this name and what it is for.
fn dump(name: &[u8]) -> Vec<u8> {
    [change(1, 64_496), named_table(1, name, &[10, 20]), rib(2, &[1, 0])].concat()
}

const ALL: [&str; 2] = ["--from=0", "--to=9999-01-01T00:00:00Z"];

#[test]
fn text_passes_and_is_kept() {
    for name in ["", "noon", "Zürich", "café", "日本", "\u{10ffff}\u{ffff}\0", "\u{feff}noon"] {
        let dump = dump(name.as_bytes());
        let check = run_fed(&["check", "-"], &dump).ended(0);
        assert!(check.out_text().contains(": good, 3 records, "), "{name}");
        assert_eq!(check.err, "");
        let cut = run_fed(&[&["cut", "-", "-qo", "-"], &ALL[..]].concat(), &dump).ended(0);
        assert_eq!(cut.out, dump, "{name}");
    }
}

#[test]
fn a_latin_name_is_told_with_its_octets() {
    let folder = Folder::new("latin");
    let (file, clip) = (folder.file("dump", &dump(b"caf\xe9")), folder.word("clip"));
    let place = "fault 17 at octet 50 (0x32): a peer table's view name is not UTF-8 text\n";
    let words = "\n  The name is \"caf\\xE9\", 4 octet(s); the first that is not text is at octet \
                 53 (0x35).\n  1 good record(s), 32 octets, stand before it";
    let cut = [&["cut", &file, "-o", &clip], &ALL[..]].concat();
    let orders = ["check", "list", "peers", "report"].map(|command| vec![command, &file]);
    for order in orders.into_iter().chain([cut]) {
        run(&order).ended(1).told(place).told(words).told("Latin-1").told("head -c 32");
    }
    assert_eq!(folder.names(), ["dump"]);
}

#[test]
fn a_refused_cut_leaves_its_output_as_it_was() {
    let folder = Folder::new("name-output");
    let (file, out) = (folder.file("dump", &dump(b"caf\xe9")), folder.file("clip", b"older"));
    let order = [&["cut", &file, "-fo", &out], &ALL[..]].concat();
    run(&order).ended(1).told("fault 17 ");
    assert_eq!(folder.read("clip"), b"older");
    assert_eq!(folder.names(), ["clip", "dump"]);
    let piped = run(&[&["cut", &file, "-o", "-"], &ALL[..]].concat()).ended(1);
    assert!(piped.out.is_empty());
}

#[test]
fn a_terminal_has_nothing_to_obey() {
    let run = run_fed(&["check", "-"], &dump(b"\x1b]0;title\x07\r\n\0\x9b\xc2\x9b\xff")).ended(1);
    let obeyed = |letter: char| letter.is_control() && letter != '\n';
    assert!(!run.err.contains(obeyed), "{:?}", run.err);
    let name = r#""\u{1b}]0;title\u{7}\r\n\0\x9B\u{9b}\xFF""#;
    run.told(name).silent_about("\u{fffd}");
}

/// What RFC 3629 does not allow: stray, overlong, surrogate, too large, cut off.
#[test]
fn what_is_not_utf_8() {
    let bad: [&[u8]; 8] = [
        b"\x80",
        b"\xc0\x80",
        b"\xe0\x9f\xbf",
        b"\xed\xa0\x80",
        b"\xf4\x90\x80\x80",
        b"\xf8\x88\x80\x80\x80",
        b"noon\xe2\x82",
        b"\xff",
    ];
    for name in bad {
        run_fed(&["check", "-"], &dump(name)).ended(1).told("fault 17 at octet 50 ");
    }
    let long = [&[b'a'; 65_534][..], b"\xc3"].concat();
    run_fed(&["check", "-"], &dump(&long)).ended(1).told("fault 17 at octet 50 ").told("...\"aaa");
}

/// A table that ends with its last octets taken away, their number off its Length.
fn shortened(mut table: Vec<u8>, by: usize) -> Vec<u8> {
    table.truncate(table.len() - by);
    let length = (table.len() - 12) as u32;
    table[8..12].copy_from_slice(&length.to_be_bytes());
    table
}

#[test]
fn the_name_is_judged_when_it_is_there_and_before_the_peer_count() {
    let table = |by| shortened(named_table(1, b"caf\xe9", &[]), by);
    for (by, number, place) in
        [(0, 17, 18), (1, 17, 18), (2, 17, 18), (3, 5, 18), (6, 5, 18), (7, 5, 16)]
    {
        let fault = format!("fault={number} place={place}\n");
        assert_eq!(run_fed(&["list", "-"], &table(by)).ended(1).out_text(), fault, "{by}");
    }
}

#[test]
fn the_first_record_with_a_fault_decides() {
    let bad = named_table(1, b"\xff", &[]);
    let earlier = [rib(1, &[]), bad.clone()].concat();
    run_fed(&["check", "-"], &earlier).ended(1).told("fault 12 at octet 6 ");
    let later = [table(1, &[]), bad, rib(1, &[0])].concat();
    run_fed(&["check", "-"], &later).ended(1).told("fault 17 at octet 38 ");
}

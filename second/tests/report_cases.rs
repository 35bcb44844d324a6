//! The made-up reports against what their makers meant, and their files.

use second::report::{add, Report};
use second::report_cases::{text, Book};
use std::collections::BTreeSet;

#[test]
fn reports_are_as_meant() {
    let mut meant = 0;
    for (name, case) in Book::generate().iter() {
        let Some(intent) = &case.intent else { continue };
        assert_eq!(&case.answer(), intent, "{name}");
        meant += 1;
    }
    assert!(meant >= 220);
}

#[test]
fn every_fault_is_meant_somewhere() {
    let book = Book::generate();
    let intents = book.iter().filter_map(|(_, case)| case.intent.as_ref());
    let faults: BTreeSet<u8> = intents.map(|intent| intent.fault).collect();
    assert!(faults.into_iter().eq((0..=13).chain([16, 17])));
}

#[test]
fn sizes_are_as_wanted() {
    let book = Book::generate();
    let sizes: Vec<usize> = book.iter().map(|(_, case)| case.to_octets().len()).collect();
    assert!(sizes.len() >= 120);
    assert!(sizes.iter().sum::<usize>() < 1_200_000);
    assert!(sizes.iter().all(|size| *size <= 131_072));
}

#[test]
fn names_are_plain() {
    let plain = |octet: u8| octet.is_ascii_lowercase() || octet.is_ascii_digit() || octet == b'-';
    assert!(Book::generate().iter().all(|(name, _)| name.bytes().all(plain)));
}

/// Takes a case file apart as another program would.
fn run(name: &str, file: &[u8]) -> String {
    let (numbers, dump) = file.split_at(8 * 39);
    let number = |place: usize| numbers[8 * place..][..8].try_into().expect("8 octets");
    let lent = Report::of_numbers(&std::array::from_fn(|place| u64::from_be_bytes(number(place))));
    text(name, dump, &add(dump, &lent))
}

#[test]
fn files_say_the_cases() {
    let book = Book::generate();
    let all: String = book.iter().map(|(name, case)| run(name, &case.to_octets())).collect();
    assert_eq!(all, book.stdout());
    assert_eq!(all, Book::generate().stdout());
}

/// The lines of a case, typed in; the numbers of the table as rows.
fn assert_text(name: &str, lines: &str, table: [&str; 6]) {
    let book = Book::generate();
    let case = book.get(name);
    let expected = format!("{name}\n{lines} {}\n", table.join(" "));
    assert_eq!(text(name, &case.dump, &case.answer()), expected);
}

const NO_CHANGES: &str = "0 0 0 0 0 0";

#[test]
fn texts() {
    let table = [NO_CHANGES, NO_CHANGES, "0 0 0 2 0 0", "0 0 0 0 0 1", NO_CHANGES, NO_CHANGES];
    assert_text(
        "example-changes-4-6-last",
        "records=3\nchanges=3\nbreaks=0\nchange.3.4=2\nchange.4.6=1\nanswer=0 96\n3 3 0",
        table,
    );
    let counted = [
        "1021 1028 1035 1042 1049 1056",
        "1063 1070 1077 1084 1091 1098",
        "1105 1112 1119 1126 1133 1140",
        "1147 1154 1161 1168 1175 1182",
        "1189 1196 1203 1210 1217 1224",
        "1231 1238 1245 1252 1259 1266",
    ];
    assert_text("fault-1-later", "fault=1 place=219\nanswer=1 219\n1000 1007 1014", counted);
    let mut table = counted;
    table[4] = "1189 1197 1203 1210 1217 1224";
    let lines = "records=1\nchanges=1\nbreaks=0\nchange.5.2=1\nanswer=0 56\n1001 1008 1014";
    assert_text("cell-5-2", lines, table);
    let mut table = counted;
    table[1] = "1063 1070 1078 1084 1091 1098";
    table[2] = "1105 1112 1119 1127 1133 1140";
    assert_text("size-65537", "too large\nanswer=0 65537\n1005 1009 1015", table);
}

#[test]
fn a_file_in_full() {
    let book = Book::generate();
    let file = book.get("sum-past-32-bits").to_octets();
    assert_eq!(file[..312], [0, 0, 0, 0, 255, 255, 255, 255].repeat(39));
    assert_eq!(file[312..], book.get("sum-past-63-bits").dump);
}

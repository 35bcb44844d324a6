//! The made-up cuts against what their makers meant, and their files.

use second::cut::cut;
use second::cut_cases::{adler32, text, Book};
use std::collections::BTreeSet;

#[test]
fn cuts_are_as_meant() {
    let mut meant = 0;
    for (name, case) in Book::generate().iter() {
        let Some(intent) = &case.intent else { continue };
        assert_eq!(&case.answer(), intent, "{name}");
        meant += 1;
    }
    assert!(meant >= 300);
}

/// The cases that no file can hold.
#[test]
fn longer_lists_are_as_meant() {
    let book = Book::past_files();
    for (name, case) in book.iter() {
        assert!(case.ask.list.len() > 65_535, "{name} fits in a file");
        assert_eq!(Some(&case.answer()), case.intent.as_ref(), "{name}");
    }
    assert_eq!(book.iter().count(), 11);
}

#[test]
fn every_fault_is_meant_somewhere() {
    let book = Book::generate();
    let intents = book.iter().filter_map(|(_, case)| case.intent.as_ref());
    let faults: BTreeSet<u8> = intents.map(|intent| intent.fault).collect();
    assert!(faults.into_iter().eq((0..=15).chain([17])));
}

#[test]
fn sizes_are_as_wanted() {
    let book = Book::generate();
    let sizes: Vec<usize> = book.iter().map(|(_, case)| case.to_octets().len()).collect();
    assert!(sizes.len() >= 400);
    assert!(sizes.iter().sum::<usize>() < 2_400_000);
    assert!(sizes.iter().all(|size| *size <= 524_288));
    let small = sizes.iter().filter(|size| **size < 3_000).count();
    assert!(small * 100 >= sizes.len() * 95);
    let largest = sizes.iter().filter(|size| **size > 200_000).count();
    assert!(largest <= 5);
    assert!(book.iter().all(|(_, case)| case.room <= 524_288));
}

#[test]
fn names_are_plain() {
    let plain = |octet: u8| octet.is_ascii_lowercase() || octet.is_ascii_digit() || octet == b'-';
    assert!(Book::generate().iter().all(|(name, _)| name.bytes().all(plain)));
}

/// The number in the first octets, and what is behind them.
fn number(octets: &[u8], size: usize) -> (u64, &[u8]) {
    let (first, rest) = octets.split_at(size);
    (first.iter().fold(0, |number, octet| number << 8 | u64::from(*octet)), rest)
}

/// Takes a case file apart as another program would.
fn run(name: &str, file: &[u8]) -> String {
    let (start, rest) = number(file, 8);
    let (end, rest) = number(rest, 8);
    let (room, rest) = number(rest, 4);
    let (count, mut rest) = number(rest, 2);
    let mut list = Vec::new();
    for _ in 0..count {
        let (asn, behind) = number(rest, 4);
        list.push(asn as u32);
        rest = behind;
    }
    text(name, &cut(rest, start, end, &list, room as usize))
}

#[test]
fn files_say_the_cases() {
    let book = Book::generate();
    let all: String = book.iter().map(|(name, case)| run(name, &case.to_octets())).collect();
    assert_eq!(all, book.stdout());
    assert_eq!(all, Book::generate().stdout());
}

/// The lines of a case, typed in.
fn assert_text(name: &str, lines: &str) {
    let book = Book::generate();
    assert_eq!(text(name, &book.get(name).answer()), format!("{name}\n{lines}rest=ok\n"));
}

#[test]
fn texts() {
    assert_text("fault-1", "fault=1 place=0 octets=0\n");
    assert_text("backward-max-0", "fault=14 place=0 octets=0\n");
    assert_text("example-empty", "fault=0 place=0 octets=0\n");
    assert_text(
        "micro-none-48-own-time",
        "fault=0 place=0 octets=19\n0000000100300001000000070016e360010203\n",
    );
    // Peer 30 alone in the view "desk", then its entry, now with index 0.
    assert_text(
        "example-mute-10-20",
        "fault=0 place=0 octets=95\n\
         00000003000d000100000019c633640400046465736b000102c000021ec00002\n\
         1e0000001e00000005000d00020000002e0000002a17c6336500010000000003\n\
         eb001c4001010040020e02030000fbf00000fbf10000fbf2400304c6336407\n",
    );
}

/// RFC 1950's sums by hand: 1 + 97 + 98 + 99, and 98 + 196 + 295.
#[test]
fn checksum() {
    assert_eq!(adler32(b""), 1);
    assert_eq!(adler32(b"abc"), 589 * 65_536 + 295);
}

#[test]
fn a_file_in_full() {
    let book = Book::generate();
    let file = book.get("list-unknown-last").to_octets();
    let head = [0, 0, 0, 0, 0, 0, 0, 0, 255, 255, 255, 255, 255, 255, 255, 255];
    assert_eq!(file[..16], head);
    assert_eq!(file[20..30], [0, 2, 0, 0, 0, 40, 0, 0, 0, 7]);
    let room = usize::from(file[18]) << 8 | usize::from(file[19]);
    assert_eq!((file[16], file[17], room), (0, 0, file.len() - 30));
}

//! The session report: document 02's example and rules, octets typed in from
//! the documents' text, and the laws that hold for every report.

use second::report::{add, text, Answer, Report};
use second::report_cases::random::{dump, report};
use second::vectors::rng::Rng;
use second::vectors::Suite;

/// Octets from hexadecimal text, a space between them.
fn hex(text: &str) -> Vec<u8> {
    text.split_whitespace().map(|octet| u8::from_str_radix(octet, 16).unwrap()).collect()
}

/// Type 16 subtype 0, IPv4, at second 1.
fn change(old: u8, new: u8) -> Vec<u8> {
    let front = "00 00 00 01 00 10 00 00 00 00 00 14 \
        fb f0 fb f1 00 00 00 01 c0 00 02 55 c6 33 64 04";
    [hex(front), vec![0, old, 0, new]].concat()
}

/// Type 17 subtype 5, IPv6, at second 1.
fn late_change(old: u8, new: u8) -> Vec<u8> {
    let front = "00 00 00 01 00 11 00 05 00 00 00 34 00 00 00 07 \
        00 01 00 00 00 01 00 01 00 00 00 02 \
        20 01 0d b8 00 00 00 00 00 00 00 00 00 00 00 01 \
        20 01 0d b8 00 00 00 00 00 00 00 00 00 00 00 02";
    [hex(front), vec![0, old, 0, new]].concat()
}

/// Type 12 subtype 1 without attributes.
fn route(sequence: u16) -> Vec<u8> {
    let mut octets = hex("00 00 00 01 00 0c 00 01 00 00 00 16 \
        00 00 00 00 c0 00 02 00 18 01 00 00 00 05 c0 00 02 09 fb f3 00 00");
    octets[14..16].copy_from_slice(&sequence.to_be_bytes());
    octets
}

fn own(octets: &[u8]) -> Report {
    let answer = add(octets, &Report::default());
    assert_eq!((answer.fault, answer.place), (0, octets.len()));
    answer.report
}

fn breaks(sequences: &[u16]) -> u64 {
    own(&sequences.iter().flat_map(|sequence| route(*sequence)).collect::<Vec<_>>()).breaks
}

#[test]
fn document_02_example() {
    let dump = [change(3, 4), change(4, 6), change(3, 4)].concat();
    let lines = "records=3\nchanges=3\nbreaks=0\nchange.3.4=2\nchange.4.6=1\n";
    assert_eq!(text(&dump), lines);
}

#[test]
fn empty_dump() {
    assert_eq!(text(&[]), "records=0\nchanges=0\nbreaks=0\n");
}

#[test]
fn faulty_and_large_dumps_are_one_line() {
    assert_eq!(text(&[change(3, 4), change(3, 7)].concat()), "fault=9 place=62\n");
    assert_eq!(text(&change(3, 4).repeat(2_048)), {
        "records=2048\nchanges=2048\nbreaks=0\nchange.3.4=2048\n"
    });
    assert_eq!(text(&[change(3, 4).repeat(2_048), vec![0]].concat()), "too large\n");
}

#[test]
fn both_types_of_changes() {
    let found = own(&[change(1, 2), late_change(1, 2), late_change(6, 1)].concat());
    assert_eq!((found.records, found.changes), (3, 3));
    assert_eq!((found.table[0][1], found.table[5][0]), (2, 1));
}

#[test]
fn breaks_of_the_sequence() {
    assert_eq!(breaks(&[]), 0);
    assert_eq!(breaks(&[9]), 0);
    assert_eq!(breaks(&[65_534, 65_535, 0, 1]), 0);
    assert_eq!(breaks(&[0, 65_535]), 1);
    assert_eq!(breaks(&[5, 5, 6, 8, 7]), 3);
}

/// Every sequence number once, and one round more: 65,536 steps without a break.
#[test]
fn a_whole_round() {
    let round: Vec<u16> = (0..=65_535).chain(0..10).collect();
    assert_eq!(breaks(&round), 0);
}

#[test]
fn a_sum_past_64_bits() {
    let mut full = Report { changes: u64::MAX, ..Report::default() };
    let refused = Answer { fault: 16, place: 0, report: full.clone() };
    assert_eq!(add(&change(1, 1), &full), refused);
    full.changes -= 1;
    assert_eq!(add(&change(1, 1), &full).report.changes, u64::MAX);
    let faulty = [change(1, 1), vec![0; 5]].concat();
    let full = Report { records: u64::MAX, ..full };
    assert_eq!(add(&faulty, &full), Answer { fault: 1, place: 32, report: full });
}

/// From an empty report on, refused dumps among them.
#[test]
fn cells_sum_to_the_changes() {
    let mut total = Report::default();
    let mut refused = 0;
    for (_, vector) in Suite::generate().iter() {
        let answer = add(&vector.octets, &total);
        refused += u64::from(answer.fault != 0);
        assert!(answer.fault == 0 || answer.report == total);
        total = answer.report;
        assert_eq!(total.table.iter().flatten().sum::<u64>(), total.changes);
    }
    assert!(refused >= 100 && total.changes >= 50 && total.breaks >= 10);
}

/// Two dumps end to end: their sum, but for a break at the seam.
#[test]
fn end_to_end() {
    let mut rng = Rng::seeded(1);
    let mut broken = 0;
    for _ in 0..500 {
        let (one, two) = (dump(&mut rng), dump(&mut rng));
        let both = own(&[one.clone(), two.clone()].concat());
        let mut sum = add(&two, &own(&one)).report;
        let seam = both.breaks - sum.breaks;
        assert!(seam <= 1);
        broken += seam;
        sum.breaks += seam;
        assert_eq!(both, sum);
    }
    assert!(broken >= 100);
}

#[test]
fn order_means_nothing() {
    let mut rng = Rng::seeded(2);
    for _ in 0..500 {
        let (one, two, lent) = (dump(&mut rng), dump(&mut rng), report(&mut rng));
        let after = |first: &[u8], second: &[u8]| {
            let between = add(first, &lent);
            let last = add(second, &between.report);
            (between.fault == 0 && last.fault == 0).then_some(last.report)
        };
        assert_eq!(after(&one, &two), after(&two, &one));
    }
}

//! A short comparison, and what must have happened in it for it to mean something.

use compare::comparing::compare_dump;
use compare::cutting::compare_room;
use compare::desk::{Ask, Spots};
use compare::desks::Desks;
use compare::making::Writer;
use compare::reporting::compare_lent;
use compare::running::compare_seeds;
use compare::tally::Tally;
use compare::writing::{self, Flag};
use dagsumilat::calls;
use second::vectors::rng::Rng;
use second::vectors::Suite;
use second::{cut_cases, report_cases, write_cases};
use std::collections::BTreeSet;
use std::env;

/// How many dumps are made, if COMPARE_DUMPS does not say it. With fewer than some 4,000 not every
/// answer is met.
const DUMPS: u64 = 120_000;

fn dumps() -> u64 {
    match env::var("COMPARE_DUMPS") {
        Ok(word) => word.parse().expect("COMPARE_DUMPS is not a number"),
        Err(_) => DUMPS,
    }
}

/// Every answer was met, and neither refusals nor cuts without effect are most of it.
fn is_telling(tally: &Tally) {
    assert!(!tally.kinds.contains(&0), "a kind of dump that was not made:\n{tally}");
    are_met("dumps", &tally.faults, is_fault, tally);
    fields_are_telling(tally);
    are_met("cuts", &tally.cuts, |answer| answer != 16, tally);
    assert!(tally.faults[0] * 3 > tally.dumps, "few dumps are accepted:\n{tally}");
    assert!(tally.changed * 3 > tally.cuts[0], "few cuts change something:\n{tally}");
    assert!(tally.twice * 4 > tally.dumps, "few cuts of cuts:\n{tally}");
    assert!(tally.joined * 4 > tally.dumps, "few dumps end to end:\n{tally}");
    let [accepted, refused] = tally.of_fields();
    let is_harmless = |[_, refused]: &[u64; 2]| *refused == 0;
    assert!(!tally.fields.contains(&[0; 2]), "a field that was never damaged:\n{tally}");
    assert!(!tally.fields.iter().any(is_harmless), "a field never damaged to harm:\n{tally}");
    assert!(
        accepted * 2 > refused && refused * 2 > accepted,
        "mostly one answer to damaged fields:\n{tally}"
    );
    are_met("records read", &tally.read, is_fault, tally);
    assert!(!tally.back.contains(&0), "a kind of record never written again:\n{tally}");
    for writer in Writer::ALL {
        answers_are_met(writer, tally);
        let fewest = tally.slips[writer as usize].fewest(writer);
        assert!(fewest * 1000 > tally.dumps, "{writer:?}, two fields rarely at fault:\n{tally}");
    }
    assert!(tally.records > tally.dumps && tally.items > tally.dumps, "few records:\n{tally}");
    reports_are_telling(tally);
    names_are_telling(tally);
    lists_are_telling(tally);
}

/// The numbers that a dump or a record can have.
fn is_fault(answer: usize) -> bool {
    matches!(answer, 0..=13 | 17)
}

/// Every one of these answers, and no other.
fn are_met(what: &str, counts: &[u64], is_told: impl Fn(usize) -> bool, tally: &Tally) {
    for (answer, count) in counts.iter().enumerate() {
        assert_eq!(*count != 0, is_told(answer), "{what}: {answer} {count} times:\n{tally}");
    }
}

/// The fields that can be incomplete.
const FIELDS: [&str; 29] = [
    "microseconds",
    "view",
    "sequence",
    "prefix",
    "prefix length",
    "status",
    "originated time",
    "peer address",
    "peer AS",
    "attribute length",
    "attributes",
    "collector ID",
    "view name length",
    "view name",
    "peer count",
    "peer type",
    "peer BGP ID",
    "address family",
    "SAFI",
    "entry count",
    "peer index",
    "local AS",
    "interface index",
    "local address",
    "old state",
    "new state",
    "BGP marker",
    "BGP length",
    "BGP type",
];

/// Every field failed in every way that it can, and in no other.
fn fields_are_telling(tally: &Tally) {
    let mut expected: BTreeSet<(u8, &str)> = FIELDS.iter().map(|name| (5, *name)).collect();
    expected.extend([(1, "record"), (2, "record"), (3, "Type"), (4, "Subtype")]);
    expected.extend([(6, "octets left over"), (6, "BGP length"), (7, "address family")]);
    expected.extend([(7, "SAFI"), (8, "prefix length"), (9, "old state"), (9, "new state")]);
    expected.extend([(10, "BGP length"), (11, "attributes"), (12, "Subtype")]);
    expected.extend([(13, "peer index"), (17, "view name")]);
    let met: BTreeSet<_> = tally.failed.keys().copied().collect();
    assert_eq!(met, expected, "{tally}");
    let is_rare = |name: &&str| tally.failed[&(5, *name)] * 300 < tally.dumps;
    assert_eq!(FIELDS.iter().find(|name| is_rare(name)), None, "rarely incomplete:\n{tally}");
}

/// Many names are text and many are not; some tables end in the name or behind it.
fn names_are_telling(tally: &Tally) {
    let [dumps, calls] = tally.named;
    assert!(dumps[0] * 5 > tally.dumps && dumps[17] * 4 > tally.dumps, "few names:\n{tally}");
    assert!(dumps[5] * 20 > tally.dumps && dumps[6] > 0, "few tables cut short:\n{tally}");
    assert!(calls[0] * 5 > tally.dumps && calls[17] * 4 > tally.dumps, "few names:\n{tally}");
    are_met("names written", &calls, |answer| matches!(answer, 0 | 5 | 6 | 15 | 17), tally);
    let is_common = |number: usize| tally.faults[number] * 200 > tally.dumps;
    assert!(is_common(17) && tally.cuts[17] * 40 > tally.dumps, "few names refused:\n{tally}");
}

/// Lists of every length were met, also with numbers behind the first 65,535, and did something.
fn lists_are_telling(tally: &Tally) {
    let is_without_effect = |[_, changed]: &[u64; 2]| *changed == 0;
    assert!(!tally.lists.iter().any(is_without_effect), "lists without effect:\n{tally}");
    let [hundred, thousand, ..] = tally.lists.map(|[_, changed]| changed);
    assert!(hundred * 15 > tally.dumps && thousand * 20 > tally.dumps, "few lists:\n{tally}");
}

/// Every answer that a report has, every cell, chains that wrap and break, and every sort of seam.
fn reports_are_telling(tally: &Tally) {
    are_met("reports", &tally.reports, |answer| !matches!(answer, 14 | 15), tally);
    let [good, past] = [tally.reports[0], tally.reports[16]];
    assert!(good * 3 > tally.dumps && past * 4 > tally.dumps, "few of one answer:\n{tally}");
    assert!(!tally.counted.contains(&0), "a number of the report that stays 0:\n{tally}");
    assert!(tally.counted[2] > tally.dumps && tally.goes_on > tally.dumps, "few steps:\n{tally}");
    assert!(tally.wraps * 10 > tally.dumps, "few sequences wrap:\n{tally}");
    assert!(tally.sums >= tally.dumps, "few sums:\n{tally}");
    assert!(tally.seams.iter().all(|count| count * 40 > tally.dumps), "few seams:\n{tally}");
}

/// Every number that the writer can answer, and no other.
fn answers_are_met(writer: Writer, tally: &Tally) {
    let is_told = |answer| writer.answers().iter().any(|one| usize::from(*one) == answer);
    are_met(&format!("{writer:?}"), &tally.written[writer as usize], is_told, tally);
}

#[test]
fn chance_shows_no_difference() {
    match compare_seeds(dumps(), 0) {
        Ok(tally) => is_telling(&tally),
        Err(difference) => panic!("{difference}"),
    }
}

/// The dumps of the second program's suite, each made for one check.
#[test]
fn the_suite_shows_no_difference() {
    let (mut desks, mut tally, mut rng) = (Desks::default(), Tally::default(), Rng::seeded(1));
    for (name, vector) in Suite::generate().iter() {
        compare_dump(&vector.octets, &mut rng, &mut desks, &mut tally)
            .unwrap_or_else(|told| panic!("{name}: {told}"));
    }
    are_met("the suite", &tally.faults, is_fault, &tally);
}

/// The second program's book of cuts, and its dumps with other windows and lists too.
#[test]
fn the_book_shows_no_difference() {
    let (mut desks, mut tally, mut rng) = (Desks::default(), Tally::default(), Rng::seeded(2));
    for (name, case) in cut_cases::Book::generate().iter() {
        desks.dump.lay(&case.dump, Spots::default());
        compare_room(&case.dump, &Ask::from(&case.ask), case.room, &mut desks.dump, &mut tally)
            .and_then(|_| compare_dump(&case.dump, &mut rng, &mut desks, &mut tally))
            .unwrap_or_else(|told| panic!("{name}: {told}"));
    }
    assert!(tally.changed > 0 && tally.cuts[14] > 0 && tally.cuts[15] > 0, "{tally}");
}

/// The second program's cuts with lists that are too long for its book.
#[test]
fn longer_lists_show_no_difference() {
    let (mut desks, mut tally) = (Desks::default(), Tally::default());
    for (name, case) in cut_cases::Book::past_files().iter() {
        desks.dump.lay(&case.dump, Spots::default());
        compare_room(&case.dump, &Ask::from(&case.ask), case.room, &mut desks.dump, &mut tally)
            .unwrap_or_else(|told| panic!("{name}: {told}"));
    }
    let [.., past_kept, _] = tally.lists;
    assert_eq!(past_kept, [tally.cuts[0]; 2], "{tally}");
}

/// The second program's book of records to be written, each made for one field or for two.
#[test]
fn the_book_of_writers_shows_no_difference() {
    let (mut desks, mut tally, mut rng) = (Desks::default(), Tally::default(), Rng::seeded(3));
    for (name, case) in write_cases::Book::generate().iter() {
        let spots = writing::Spots::draw(&mut rng);
        let (desk, tally) = (&mut desks.record, &mut tally);
        writing::compare_one(&case.given, Flag::USUAL, case.room, &spots, desk, tally)
            .unwrap_or_else(|told| panic!("{name}: {told}"));
    }
    for writer in Writer::ALL {
        answers_are_met(writer, &tally);
    }
}

/// The second program's book of reports, each made for one number or one rule.
#[test]
fn the_book_of_reports_shows_no_difference() {
    let (mut desks, mut tally, mut rng) = (Desks::default(), Tally::default(), Rng::seeded(4));
    for (name, case) in report_cases::Book::generate().iter() {
        compare_lent(&calls::report, &case.dump, &case.lent, &mut rng, &mut desks.dump)
            .and_then(|_| compare_dump(&case.dump, &mut rng, &mut desks, &mut tally))
            .unwrap_or_else(|told| panic!("{name}: {told}"));
    }
    assert!(!tally.counted.contains(&0) && tally.wraps > 0, "{tally}");
}

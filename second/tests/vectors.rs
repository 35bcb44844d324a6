//! The generated dumps against what their makers meant, and written back.

use second::dump::{Dump, End};
use second::listing::listing;
use second::sample;
use second::vectors::rng::Rng;
use second::vectors::{Intent, Suite};
use std::collections::BTreeSet;

/// What the reader finds, in a maker's words.
fn found(octets: &[u8]) -> Intent {
    let dump = Dump::read(octets);
    let End { place, record, field, .. } = dump.end;
    Intent { records: dump.records.len(), fault: dump.end.number(), place, record, field }
}

#[test]
fn readings_are_as_meant() {
    for (name, vector) in Suite::generate().iter() {
        let Some(intent) = vector.intent else { continue };
        assert_eq!(found(&vector.octets), intent, "{name}");
    }
}

/// Every layout at every octet of its message.
#[test]
fn every_cut_is_as_meant() {
    let suite = Suite::of_every_cut();
    for (name, vector) in suite.iter() {
        assert_eq!(Some(found(&vector.octets)), vector.intent, "{name}");
    }
    assert!(suite.iter().count() > 3_000);
}

/// Only what chance made has no meaning.
#[test]
fn nearly_all_have_a_meaning() {
    let suite = Suite::generate();
    let without = suite.iter().filter(|(_, vector)| vector.intent.is_none());
    let names: Vec<&str> = without.map(|(name, _)| name).collect();
    let chance = ["random-spoiled-", "random-octets-", "size-65537"];
    assert!(names.iter().all(|name| chance.iter().any(|start| name.starts_with(start))));
    assert_eq!(names.len(), 45);
}

/// The fields that can be incomplete, in the order of the layouts.
const FIELDS: [&str; 29] = [
    "microseconds",
    "view",
    "sequence",
    "prefix",
    "prefix length",
    "status",
    "originated time",
    "peer address",
    "peer AS",
    "attribute length",
    "attributes",
    "collector ID",
    "view name length",
    "view name",
    "peer count",
    "peer type",
    "peer BGP ID",
    "address family",
    "SAFI",
    "entry count",
    "peer index",
    "local AS",
    "interface index",
    "local address",
    "old state",
    "new state",
    "BGP marker",
    "BGP length",
    "BGP type",
];

/// What else a fault can be of.
const OTHERS: [(u8, &str); 16] = [
    (1, "record"),
    (2, "record"),
    (3, "Type"),
    (4, "Subtype"),
    (6, "octets left over"),
    (6, "BGP length"),
    (7, "address family"),
    (7, "SAFI"),
    (8, "prefix length"),
    (9, "old state"),
    (9, "new state"),
    (10, "BGP length"),
    (11, "attributes"),
    (12, "Subtype"),
    (13, "peer index"),
    (17, "view name"),
];

/// Every field with every fault that it can have.
#[test]
fn every_field_is_meant_somewhere() {
    let suite = Suite::generate();
    let intents = suite.iter().filter_map(|(_, vector)| vector.intent);
    let meant: BTreeSet<(u8, &str)> =
        intents.filter_map(|intent| Some((intent.fault, intent.field?))).collect();
    let all = FIELDS.into_iter().map(|field| (5, field)).chain(OTHERS);
    assert_eq!(meant, all.collect());
}

#[test]
fn every_fault_is_meant_somewhere() {
    let faults: Vec<u8> = Suite::generate().faults_meant().into_iter().collect();
    assert_eq!(faults, (0..=13).chain([17]).collect::<Vec<u8>>());
}

#[test]
fn good_dumps_come_back() {
    let suite = Suite::generate();
    let mut seen = 0;
    for (name, vector) in suite.iter() {
        let dump = Dump::read(&vector.octets);
        assert_eq!(dump.to_octets(), vector.octets[..dump.end.record], "{name}");
        seen += usize::from(dump.end.fault.is_none());
    }
    assert!(seen >= 100);
}

#[test]
fn appendix_a_lengths_are_those_printed() {
    let suite = Suite::generate();
    let lengths = |name: &str| -> Vec<usize> {
        let dump = Dump::read(&suite.get(name).octets);
        dump.records.iter().map(|located| located.record.length()).collect()
    };
    assert_eq!(lengths("appendix-a-1-message-as4"), [82]);
    assert_eq!(lengths("appendix-a-2-peer-table"), [34]);
    assert_eq!(lengths("appendix-a-3-rib-after-16-peers")[1], 87);
}

#[test]
fn sizes_are_as_wanted() {
    let suite = Suite::generate();
    assert_eq!(suite.get("size-65536").octets.len(), 65_536);
    assert_eq!(listing(&suite.get("size-65537").octets), "too large\n");
    let total: usize = suite.iter().map(|(_, vector)| vector.octets.len()).sum();
    assert!(total < 1_500_000);
}

#[test]
fn two_runs_agree() {
    let (first, second) = (Suite::generate(), Suite::generate());
    assert!(first
        .iter()
        .map(|(name, vector)| (name, &vector.octets))
        .eq(second.iter().map(|(name, vector)| (name, &vector.octets))));
}

#[test]
fn sample_is_accepted_and_comes_back() {
    let octets = sample::octets();
    let dump = Dump::read(&octets);
    assert!(octets.len() < 65_536);
    assert_eq!((dump.end.number(), dump.end.place), (0, octets.len()));
    assert_eq!(dump.to_octets(), octets);
    let events = dump.records.iter().filter(|located| located.record.kind.code >= 16).count();
    assert_eq!(events, 40);
}

/// Where a fault can lie at all: in the header, or in the message, or just past it.
fn assert_placed(octets: &[u8], end: End) {
    let place = end.place - end.record;
    match end.number() {
        0..=2 => assert_eq!(place, 0),
        3 => assert_eq!(place, 4),
        4 | 12 => assert_eq!(place, 6),
        _ => {
            let length: [u8; 4] = octets[end.record + 8..][..4].try_into().expect("4 octets");
            assert!((12..=12 + u32::from_be_bytes(length) as usize).contains(&place));
        }
    }
}

/// Whatever is done to the octets, reading ends, and what was read before the
/// fault is what stands there.
#[test]
fn spoiled_dumps_are_read_to_an_end() {
    let suite = Suite::generate();
    let small: Vec<_> = suite.iter().filter(|(_, vector)| vector.octets.len() < 600).collect();
    let mut rng = Rng::seeded(1);
    for _ in 0..50_000 {
        let (name, vector) = *rng.pick(&small);
        let mut octets = vector.octets.clone();
        for _ in 0..=rng.below(3) {
            if !octets.is_empty() {
                let place = rng.below(octets.len());
                octets[place] = rng.word() as u8;
            }
        }
        let dump = Dump::read(&octets);
        assert_eq!(dump.to_octets(), octets[..dump.end.record], "{name}");
        assert!(dump.end.fault.is_some() || dump.end.record == octets.len());
        assert_placed(&octets, dump.end);
    }
}

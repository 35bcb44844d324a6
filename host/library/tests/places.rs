//! Where a fault is placed, and what its field is called: records are laid out here field by field,
//! as document 01 has them, so that each place is a sum of the widths before.

use dagsumilat::{
    check, cut, first_fault, read, records, Fault, FirstFault, Refusal, Report, Window,
};
use second::vectors::rng::Rng;
use std::collections::BTreeSet;

const HEADER: usize = 12;

/// A message's fields with their octets. Each record here is good behind [`before`].
#[derive(Clone)]
struct Laid {
    type_code: u16,
    subtype: u16,
    fields: Vec<(&'static str, Vec<u8>)>,
}

impl Laid {
    fn new(type_code: u16, subtype: u16, fields: &[(&'static str, &[u8])]) -> Laid {
        let fields = fields.iter().map(|(name, octets)| (*name, octets.to_vec())).collect();
        Laid { type_code, subtype, fields }
    }

    fn message(&self) -> Vec<u8> {
        self.fields.iter().flat_map(|(_, octets)| octets.clone()).collect()
    }

    fn record(&self) -> Vec<u8> {
        record(self.type_code, self.subtype, &self.message())
    }

    /// Where the last field of this name starts, counted from the header.
    fn place(&self, name: &str) -> usize {
        let index = self.fields.iter().rposition(|(other, _)| *other == name).unwrap();
        HEADER + self.fields[..index].iter().map(|(_, octets)| octets.len()).sum::<usize>()
    }

    /// The field in which the message's octet `at` lies.
    fn field(&self, at: usize) -> (&'static str, usize) {
        let mut end = 0;
        let lies = |(name, octets): &(&'static str, Vec<u8>)| {
            let start = end;
            end += octets.len();
            (at < end).then_some((*name, HEADER + start))
        };
        self.fields.iter().find_map(lies).expect("an octet of the message")
    }

    /// The same with other octets in the last field of this name.
    fn with(&self, name: &str, octets: &[u8]) -> Laid {
        let mut laid = self.clone();
        let index = laid.fields.iter().rposition(|(other, _)| *other == name).unwrap();
        laid.fields[index].1 = octets.to_vec();
        laid
    }
}

fn record(type_code: u16, subtype: u16, message: &[u8]) -> Vec<u8> {
    let mut octets = vec![0, 0, 0, 1];
    octets.extend(type_code.to_be_bytes());
    octets.extend(subtype.to_be_bytes());
    octets.extend((message.len() as u32).to_be_bytes());
    octets.extend(message);
    octets
}

/// An unread record, and a table with two peers and a name.
fn before() -> Vec<u8> {
    [record(48, 7, &[1, 2, 3]), table().record()].concat()
}

fn table() -> Laid {
    let fields: [(&str, &[u8]); 12] = [
        ("collector ID", &[192, 0, 2, 254]),
        ("view name length", &[0, 4]),
        ("view name", b"noon"),
        ("peer count", &[0, 2]),
        ("peer type", &[0]),
        ("peer BGP ID", &[192, 0, 2, 1]),
        ("peer address", &[192, 0, 2, 1]),
        ("peer AS", &[0, 10]),
        ("peer type", &[3]),
        ("peer BGP ID", &[192, 0, 2, 2]),
        ("peer address", &[7; 16]),
        ("peer AS", &[0, 1, 0, 20]),
    ];
    Laid::new(13, 1, &fields)
}

const ATTRIBUTES: &[u8] = &[0x40, 1, 1, 0, 0x50, 2, 0, 2, 9, 9];

fn route(subtype: u16) -> Laid {
    let address: &[u8] = if subtype == 1 { &[192, 0, 2, 0] } else { &[0x20; 16] };
    let fields: [(&str, &[u8]); 10] = [
        ("view", &[0, 0]),
        ("sequence", &[0, 1]),
        ("prefix", address),
        ("prefix length", &[24]),
        ("status", &[1]),
        ("originated time", &[0, 0, 0, 1]),
        ("peer address", address),
        ("peer AS", &[0, 10]),
        ("attribute length", &[0, 10]),
        ("attributes", ATTRIBUTES),
    ];
    Laid::new(12, subtype, &fields)
}

/// Two entries, the first without attributes.
fn rib(subtype: u16, prefix: &[u8]) -> Laid {
    let bits = [8 * prefix.len() as u8];
    let mut fields: Vec<(&str, &[u8])> = vec![("sequence", &[0, 0, 0, 1])];
    if subtype == 6 {
        fields.extend([("address family", &[0, 2][..]), ("SAFI", &[1])]);
    }
    fields.extend([("prefix length", &bits[..]), ("prefix", prefix), ("entry count", &[0, 2])]);
    fields.extend([("peer index", &[0, 0][..]), ("originated time", &[0, 0, 0, 1])]);
    fields.extend([("attribute length", &[0, 0][..]), ("attributes", &[])]);
    fields.extend([("peer index", &[0, 1][..]), ("originated time", &[0, 0, 0, 1])]);
    fields.extend([("attribute length", &[0, 10][..]), ("attributes", ATTRIBUTES)]);
    Laid::new(13, subtype, &fields)
}

/// What types 16 and 17 have in common, with these fields behind.
fn session(type_code: u16, subtype: u16, family: u8, behind: &[(&'static str, &[u8])]) -> Laid {
    let number: &[u8] = if [4, 5, 7].contains(&subtype) { &[0, 0, 0, 10] } else { &[0, 10] };
    let address: &[u8] = if family == 2 { &[0x20; 16] } else { &[192, 0, 2, 1] };
    let mut fields: Vec<(&str, &[u8])> = Vec::new();
    if type_code == 17 {
        fields.push(("microseconds", &[0, 0, 0, 9]));
    }
    let family = [0, family];
    fields.extend([("peer AS", number), ("local AS", number), ("interface index", &[0, 0])]);
    fields.extend([("address family", &family[..]), ("peer address", address)]);
    fields.push(("local address", address));
    fields.extend(behind);
    Laid::new(type_code, subtype, &fields)
}

fn change(type_code: u16, subtype: u16, family: u8) -> Laid {
    session(type_code, subtype, family, &[("old state", &[0, 3]), ("new state", &[0, 4])])
}

/// A BGP message of 19 octets.
fn message(type_code: u16, subtype: u16, family: u8) -> Laid {
    let fields: [(&str, &[u8]); 3] =
        [("BGP marker", &[255; 16]), ("BGP length", &[0, 19]), ("BGP type", &[4])];
    session(type_code, subtype, family, &fields)
}

/// Records of all layouts and widths.
fn all() -> Vec<Laid> {
    let mut all = vec![table(), route(1), route(2)];
    all.extend([rib(2, &[]), rib(3, &[10, 1]), rib(4, &[]), rib(5, &[7; 16]), rib(6, &[1; 5])]);
    for type_code in [16, 17] {
        for family in [1, 2] {
            all.extend([0, 5].map(|subtype| change(type_code, subtype, family)));
            all.extend([1, 4, 6, 7].map(|subtype| message(type_code, subtype, family)));
        }
    }
    all
}

/// Every call that reads a dump says the same of one whose last record is this.
fn assert_placed(last: &[u8], fault: Fault, place: usize, field: &str) {
    let start = before().len();
    let dump = [&before()[..], last].concat();
    let found = first_fault(&dump).unwrap();
    let refusal = Refusal { fault, place: start + place };
    assert_eq!(found, FirstFault { fault, place: start + place, record: start, records: 2 });
    assert_eq!(found.field(&dump), Some(field), "{refusal}");
    assert_eq!((check(&dump).refusal, check(&dump).records), (Some(refusal), 2));
    assert_eq!(records(&dump).nth(2).unwrap().unwrap_err(), refusal);
    assert_eq!(cut(&dump, Window { from: 0, to: u64::MAX }, &[]), Err(refusal));
    assert_eq!(Report::default().add(&dump), Err(refusal));
    assert_eq!(read(last, Some(2)), Err(Refusal { fault, place }), "counted from the header");
    assert_eq!(first_fault(&dump[..start]), None);
}

#[test]
fn the_records_here_are_good() {
    for laid in all() {
        assert_eq!(first_fault(&[before(), laid.record()].concat()), None);
        assert_eq!(read(&laid.record(), Some(2)).unwrap().unwrap().size, laid.record().len());
    }
}

/// 1, 2, 3, 4 and 12 are asked of the header.
#[test]
fn of_the_header() {
    let good = change(16, 0, 1).record();
    for size in 1..HEADER {
        assert_placed(&good[..size], Fault::HeaderIncomplete, 0, "record");
    }
    for size in HEADER..good.len() {
        assert_placed(&good[..size], Fault::LengthPastEnd, 0, "record");
    }
    for type_code in [0, 10, 14, 18, 50, 0x1000] {
        assert_placed(&record(type_code, 0, &[]), Fault::Type, 4, "Type");
    }
    for (type_code, subtype) in [(12, 0), (12, 3), (13, 0), (13, 7), (16, 2), (17, 8), (16, 256)] {
        assert_placed(&record(type_code, subtype, &[]), Fault::Subtype, 6, "Subtype");
    }
}

#[test]
fn a_rib_record_without_a_table() {
    for subtype in 2..=6 {
        let dump = [record(11, 0, &[]), rib(subtype, &[]).record()].concat();
        let found = first_fault(&dump).unwrap();
        assert_eq!((found.fault, found.place, found.record), (Fault::NoTable, 18, 12));
        assert_eq!(found.field(&dump), Some("Subtype"));
    }
}

/// A message that ends before its last octet: 5 at the field in which it ends, also where none of
/// that field is there.
#[test]
fn of_a_message_that_ends_early() {
    let mut met = BTreeSet::new();
    for laid in all() {
        let message = laid.message();
        for size in 0..message.len() {
            let (name, place) = laid.field(size);
            let short = record(laid.type_code, laid.subtype, &message[..size]);
            assert_placed(&short, Fault::FieldIncomplete, place, name);
            met.insert(name);
        }
    }
    assert_eq!(met.len(), 29, "{met:?}");
}

#[test]
fn of_unread_records_only_microseconds_can_be_incomplete() {
    for type_code in [33, 49] {
        for size in 0..4 {
            let short = record(type_code, 0, &[0; 4][..size]);
            assert_placed(&short, Fault::FieldIncomplete, HEADER, "microseconds");
        }
    }
}

/// But in a BGP message, whose own length says where it ends.
#[test]
fn of_octets_left_over() {
    for laid in all() {
        for more in 1..4 {
            let long = [laid.message(), vec![0; more]].concat();
            let (place, name) = match laid.fields.last().unwrap().0 {
                "BGP type" => (laid.place("BGP length"), "BGP length"),
                _ => (laid.record().len(), "octets left over"),
            };
            let long = record(laid.type_code, laid.subtype, &long);
            assert_placed(&long, Fault::OctetsLeft, place, name);
        }
    }
}

/// A BGP length that disagrees with the record, and one that no message has.
#[test]
fn of_a_bgp_length() {
    for laid in all().iter().filter(|laid| laid.fields.last().unwrap().0 == "BGP type") {
        let place = laid.place("BGP length");
        for (octets, fault) in [
            ([0, 20], Fault::FieldIncomplete),
            ([16, 0], Fault::FieldIncomplete),
            ([0, 18], Fault::BgpLength),
            ([0, 0], Fault::BgpLength),
            ([16, 1], Fault::BgpLength),
        ] {
            let long = laid.with("BGP length", &octets).record();
            assert_placed(&long, fault, place, "BGP length");
        }
    }
}

/// A value that a field must not have, in the last field of its name.
#[test]
fn of_values() {
    let cases: [(&str, &[u8], Fault); 9] = [
        ("address family", &[0, 3], Fault::Family),
        ("address family", &[1, 1], Fault::Family),
        ("SAFI", &[0], Fault::Family),
        ("SAFI", &[128], Fault::Family),
        ("prefix length", &[129], Fault::PrefixLength),
        ("old state", &[0, 0], Fault::State),
        ("new state", &[1, 3], Fault::State),
        ("peer index", &[0, 2], Fault::PeerIndex),
        ("peer index", &[1, 0], Fault::PeerIndex),
    ];
    for laid in all() {
        let names = || laid.fields.iter().map(|(name, _)| *name);
        for (name, octets, fault) in cases {
            if names().any(|other| other == name) {
                assert_placed(&laid.with(name, octets).record(), fault, laid.place(name), name);
            }
        }
    }
    let states = change(16, 0, 1).with("old state", &[0, 7]).with("new state", &[0, 7]);
    assert_placed(&states.record(), Fault::State, states.place("old state"), "old state");
}

#[test]
fn of_a_prefix_length_of_ipv4() {
    for laid in [route(1), rib(2, &[]), rib(3, &[])] {
        let place = laid.place("prefix length");
        let long = laid.with("prefix length", &[33]).record();
        assert_placed(&long, Fault::PrefixLength, place, "prefix length");
    }
}

/// 11 is placed at the first attribute, whichever is the bad one.
#[test]
fn of_attributes() {
    for laid in [route(1), route(2), rib(2, &[]), rib(5, &[7; 16]), rib(6, &[1; 5])] {
        let place = laid.place("attributes");
        let bad: [&[u8]; 3] = [
            &[0x40, 1, 200, 0, 0x50, 2, 0, 2, 9, 9],
            &[0x40, 1, 1, 0, 0x50, 2, 0, 3, 9, 9],
            &[0x40, 1, 1, 0, 0x40, 2, 1, 2, 9, 9],
        ];
        for octets in bad {
            let laid = laid.with("attributes", octets);
            assert_placed(&laid.record(), Fault::Attributes, place, "attributes");
        }
    }
}

/// 17 is placed at the name's first octet, whichever is not text.
#[test]
fn of_a_view_name() {
    for name in [b"\xff\xff\xff\xff", b"noo\xe9"] {
        let laid = table().with("view name", name);
        assert_placed(&laid.record(), Fault::ViewName, laid.place("view name"), "view name");
    }
}

/// A peer's octets that are not there are missed where they would start.
#[test]
fn of_more_peers_or_entries_than_there_are() {
    let peers = table().with("peer count", &[0, 3]).record();
    assert_placed(&peers, Fault::FieldIncomplete, peers.len(), "peer type");
    let entries = rib(2, &[]).with("entry count", &[0, 3]).record();
    assert_placed(&entries, Fault::FieldIncomplete, entries.len(), "peer index");
    let fewer = rib(2, &[]).with("entry count", &[0, 1]);
    let second = fewer.place("peer index");
    assert_placed(&fewer.record(), Fault::OctetsLeft, second, "octets left over");
}

fn sample() -> Vec<u8> {
    std::fs::read(concat!(env!("CARGO_MANIFEST_DIR"), "/../../sample/incident.mrt")).unwrap()
}

/// The octets before the faulty record are good, and as many records as is said; the second program
/// finds the same record and calls the field the same.
#[test]
fn what_stands_before_the_record_is_good() {
    let (mut random, mut faults) = (Rng::seeded(4), BTreeSet::new());
    for _ in 0..20_000 {
        let mut dump = sample();
        for _ in 0..1 + random.below(3) {
            let at = random.below(dump.len());
            dump[at] = random.word() as u8;
        }
        dump.truncate(dump.len() - random.below(40) / 20 * random.below(100));
        let Some(found) = first_fault(&dump) else { continue };
        let good = check(&dump[..found.record]);
        assert_eq!((good.refusal, good.records), (None, found.records));
        assert!(found.record <= found.place && found.place <= dump.len());
        let end = second::dump::Dump::read(&dump).end;
        assert_eq!((found.record, found.field(&dump)), (end.record, end.field));
        faults.insert(found.fault);
    }
    assert!(faults.len() > 9, "{faults:?}");
}

/// Any octets, and numbers that no dump has.
#[test]
fn a_name_is_looked_for_in_any_octets() {
    let (mut random, mut named) = (Rng::seeded(5), 0);
    let dump = [before(), all().iter().flat_map(Laid::record).collect()].concat();
    let starts: Vec<usize> = records(&dump).map(|record| record.unwrap().at).collect();
    for _ in 0..200_000 {
        let mut octets = dump.clone();
        let at = random.below(octets.len());
        octets[at] = random.word() as u8;
        octets.truncate(random.below(octets.len() + 1));
        let records = [*random.pick(&starts), any_number(&mut random)];
        let record = *random.pick(&records);
        let places = [record.wrapping_add(random.below(60)), any_number(&mut random)];
        let place = *random.pick(&places);
        let faults = [Fault::FieldIncomplete, *random.pick(&Fault::ALL)];
        let found = FirstFault { fault: *random.pick(&faults), place, record, records: 0 };
        if found.field(&octets).is_some() {
            assert!(record <= place && place <= octets.len(), "{found:?}");
            named += 1;
        }
    }
    assert!(named > 1_000, "few fields were named: {named}");
}

fn any_number(random: &mut Rng) -> usize {
    match random.below(3) {
        0 => random.word() as usize,
        1 => usize::MAX - random.below(60),
        _ => random.below(2_000),
    }
}

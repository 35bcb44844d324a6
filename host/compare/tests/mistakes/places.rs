//! Places of faults with one mistake each, put in the place of the library's call for a dump's first
//! fault. A mistaken call asks the library and moves a word of its answer.

use compare::desk::{Desk, Spots};
use compare::making::{any, ended, with_fields_damaged};
use compare::placing::{compare, found as first_fault};
use compare::tally::Tally;
use dagsumilat::{calls, records};
use second::dump::Dump;
use second::vectors::rng::Rng;

/// So many seeds are tried before a mistake counts as not found.
const SEEDS: u64 = 2_000;

/// Dumps with a damaged field for each seed.
const DAMAGED: usize = 8;

#[derive(Clone, Copy, Debug, PartialEq, Eq)]
enum Mistake {
    /// No mistake.
    Right,
    /// Every fault is placed at its record.
    RecordPlaced,
    /// 2 at the Length.
    LengthField,
    /// 3, 4 and 12 at the record; 4 and 12 at the Type.
    HeaderFields,
    TypeForSubtype,
    /// 5 at the message's end, or where the field would end.
    MessageEnd,
    FieldEnd,
    /// 5 at the peer, the entry or the BGP message of which a field is incomplete.
    WholePeer,
    WholeEntry,
    WholeMessage,
    /// 6 at the record's end.
    RecordEnd,
    /// A SAFI's 7 at the address family.
    FamilyForSafi,
    /// 8 at the prefix.
    Prefix,
    /// 9 at the old state, whichever it is.
    OldState,
    /// 10, or a length that disagrees with the record, at the marker.
    MarkerForTen,
    MarkerForFive,
    MarkerForSix,
    /// A BGP length that is too small: 6 at the first octet behind the message.
    BehindMessage,
    /// One that is too large: 5 at the record's end.
    MessageCutOff,
    /// 11 at the attribute that is bad, or at their length.
    BadAttribute,
    AttributeLength,
    /// 13 at the entry's end, or behind the index.
    EntryEnd,
    BehindIndex,
    /// The record is the fault's place, or the last good one.
    PlaceForRecord,
    LastGood,
    /// The faulty record is counted.
    OneMore,
    /// Of a good dump place or record is 0.
    GoodPlaced,
    GoodRecord,
}

use Mistake::*;

const ALL: [Mistake; 27] = [
    RecordPlaced,
    LengthField,
    HeaderFields,
    TypeForSubtype,
    MessageEnd,
    FieldEnd,
    WholePeer,
    WholeEntry,
    WholeMessage,
    RecordEnd,
    FamilyForSafi,
    Prefix,
    OldState,
    MarkerForTen,
    MarkerForFive,
    MarkerForSix,
    BehindMessage,
    MessageCutOff,
    BadAttribute,
    AttributeLength,
    EntryEnd,
    BehindIndex,
    PlaceForRecord,
    LastGood,
    OneMore,
    GoodPlaced,
    GoodRecord,
];

impl Mistake {
    fn first_fault(self, dump: &[u8], answer: &mut [u64; 4]) {
        calls::first_fault(dump, answer);
        let Some(found) = first_fault(*answer) else {
            match self {
                GoodPlaced => answer[1] = 0,
                GoodRecord => answer[3] = 0,
                _ => {}
            }
            return;
        };
        let field = found.field(dump).unwrap_or_default();
        let fault = Faulty { dump, field, place: found.place, record: found.record };
        match self {
            PlaceForRecord => answer[3] = answer[1],
            LastGood => answer[3] = records(dump).filter_map(Result::ok).last().map_or(0, start),
            OneMore => answer[2] += 1,
            _ => answer[1] = self.place(found.fault.number(), &fault) as u64,
        }
    }

    /// Where this mistake places a fault.
    fn place(self, number: u8, fault: &Faulty) -> usize {
        let Faulty { field, place, record, .. } = *fault;
        match (self, number, field) {
            (RecordPlaced, ..) | (HeaderFields, 3 | 4 | 12, _) => record,
            (LengthField, 2, _) => record + 8,
            (TypeForSubtype, 4 | 12, _) => record + 4,
            (MarkerForTen, 10, _) => place - 16,
            (MarkerForFive, 5, "BGP length") | (MarkerForSix, 6, "BGP length") => place - 16,
            (MessageCutOff, 5, "BGP length") | (MessageEnd, 5, _) => fault.end(),
            (BehindMessage, 6, "BGP length") => place - 16 + fault.number(place),
            (WholeMessage, 5, "BGP length") => place - 16,
            (WholeMessage, 5, "BGP type") => place - 18,
            (WholePeer, 5, "peer BGP ID") => place - 1,
            (WholePeer, 5, "peer address") if fault.kind() == [13, 1] => place - 5,
            (WholeEntry, 5, "originated time") if fault.kind()[0] == 13 => place - 2,
            (WholeEntry, 5, "attribute length") if fault.kind()[0] == 13 => place - 6,
            (FieldEnd, 5, "peer AS" | "local AS" | "entry count") => place + 2,
            (RecordEnd, 6, _) => fault.end(),
            (FamilyForSafi, 7, "SAFI") => place - 2,
            (Prefix, 8, _) => place + 1,
            (OldState, 9, "new state") => place - 2,
            (BadAttribute, 11, _) => fault.bad_attribute(),
            (AttributeLength, 11, _) => place - 2,
            (EntryEnd, 13, _) => place + 8 + fault.number(place + 6),
            (BehindIndex, 13, _) => place + 2,
            _ => place,
        }
    }
}

fn start(record: dagsumilat::Record) -> u64 {
    record.at as u64
}

/// A fault, and the dump that has it.
struct Faulty<'a> {
    dump: &'a [u8],
    field: &'static str,
    place: usize,
    record: usize,
}

impl Faulty<'_> {
    /// Two octets as a number; 0 where they are not there.
    fn number(&self, at: usize) -> usize {
        let octets = self.dump.get(at..).and_then(|rest| rest.first_chunk());
        octets.map_or(0, |octets| u16::from_be_bytes(*octets).into())
    }

    /// Type and Subtype.
    fn kind(&self) -> [usize; 2] {
        [4, 6].map(|at| self.number(self.record + at))
    }

    /// Where the record ends.
    fn end(&self) -> usize {
        let [high, low] = [8, 10].map(|at| self.number(self.record + at));
        self.record + 12 + (high << 16 | low)
    }

    /// The first attribute that does not end within those octets.
    fn bad_attribute(&self) -> usize {
        let end = self.place + self.number(self.place - 2);
        let mut at = self.place;
        loop {
            let next = match self.dump[at] & 16 {
                0 => at + 3 + self.number(at + 1) % 256,
                _ => at + 4 + self.number(at + 2),
            };
            if next >= end {
                return at;
            }
            at = next;
        }
    }
}

/// The dumps of a seed.
fn dumps(seed: u64) -> Vec<Vec<u8>> {
    let rng = &mut Rng::seeded(seed);
    let mut dumps = with_fields_damaged(DAMAGED, rng);
    dumps.extend([ended(rng), any(rng).dump]);
    dumps
}

/// The first seed that shows a difference.
fn found(mistake: Mistake) -> Option<u64> {
    let (mut desk, mut tally) = (Desk::default(), Tally::default());
    let call = |dump: &[u8], answer: &mut [u64; 4]| mistake.first_fault(dump, answer);
    let mut differs = |dump: &Vec<u8>| {
        desk.lay(dump, Spots::default());
        compare(&call, dump, &Dump::read(dump), &mut desk, &mut tally).is_err()
    };
    (0..SEEDS).find(|seed| dumps(*seed).iter().any(&mut differs))
}

#[test]
fn without_a_mistake_there_is_no_difference() {
    assert_eq!(found(Right), None);
}

#[test]
fn every_mistake_is_found() {
    for mistake in ALL {
        let seed = found(mistake).unwrap_or_else(|| panic!("{mistake:?} is not found"));
        println!("{mistake:?}: seed {seed}");
    }
}

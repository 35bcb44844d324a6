//! The rule of view names with one mistake each, put in the place of the library's check and of its
//! writer of peer tables. A mistaken check asks the library again with a plain name in the place of
//! one that it lets pass, so that all else is as it should be.

use compare::desks::Desks;
use compare::naming::{compare, NameCalls};
use compare::tally::Tally;
use dagsumilat::calls::writers::{Given, PeerTable};
use dagsumilat::calls::{self, NONE};
use second::vectors::rng::Rng;
use std::ops::Range;

/// So many dumps and calls are made before a mistake counts as not found.
const SEEDS: u64 = 2_000;

/// The answer for a name that is not text.
const NOT_TEXT: u64 = 17;

/// Octets of a table before its name: header, collector, the name's length.
const BEFORE: usize = 18;

#[derive(Clone, Copy, Debug, PartialEq, Eq)]
enum Mistake {
    /// No mistake.
    Right,
    /// Nothing is looked at.
    AnyOctets,
    /// Two octets for a number that needs one pass; so do three and four that are too many.
    OverlongTwo,
    OverlongThree,
    OverlongFour,
    Surrogates,
    /// Four octets above U+10FFFF pass.
    Above,
    /// Five and six octets pass.
    LongForms,
    /// A sequence that the name's end cuts off passes.
    LastCutOff,
    /// Its tails are taken from behind the name.
    PastTheName,
    /// A sequence that another one cuts off passes.
    InnerCutOff,
    /// A tail that follows no first octet passes.
    TailFirst,
    /// Any octet is a tail.
    AnyTail,
    /// Only the first character is looked at.
    FirstAlone,
    /// Names that are text are refused: empty ones, and those with U+0000, with U+FFFF, or with
    /// U+FEFF first.
    NoneRefused,
    ZeroRefused,
    LastOfPlaneRefused,
    MarkRefused,
    /// A missing peer count comes before the name's fault.
    CountFirst,
    /// So do missing peers and octets left over.
    PeersFirst,
    /// What is there of a name that is cut short is looked at.
    HalfName,
    /// The fault is placed at the record, at the name's length, or at the first octet that is not
    /// text.
    RecordPlaced,
    LengthPlaced,
    OctetPlaced,
    /// The writer takes any name.
    WriterUnasked,
    /// Count and peers, or the room, come before the name's fault.
    WriterCountFirst,
    WriterRoomFirst,
    /// A name that is too long is looked at.
    WriterTextFirst,
}

use Mistake::*;

const ALL: [Mistake; 27] = [
    AnyOctets,
    OverlongTwo,
    OverlongThree,
    OverlongFour,
    Surrogates,
    Above,
    LongForms,
    LastCutOff,
    PastTheName,
    InnerCutOff,
    TailFirst,
    AnyTail,
    FirstAlone,
    NoneRefused,
    ZeroRefused,
    LastOfPlaneRefused,
    MarkRefused,
    CountFirst,
    PeersFirst,
    HalfName,
    RecordPlaced,
    LengthPlaced,
    OctetPlaced,
    WriterUnasked,
    WriterCountFirst,
    WriterRoomFirst,
    WriterTextFirst,
];

/// The least number that needs so many octets, from one on.
const LEAST: [u64; 6] = [0, 0x80, 0x800, 0x1_0000, 0x20_0000, 0x400_0000];

impl Mistake {
    /// How many octets the next character takes, if it passes.
    fn character(self, octets: &[u8]) -> Option<usize> {
        let size = match octets[0].leading_ones() as usize {
            0 => 1,
            1 if self == TailFirst => 1,
            5 | 6 if self == LongForms => octets[0].leading_ones() as usize,
            ones @ 2..=4 => ones,
            _ => return None,
        };
        let there = &octets[..size.min(octets.len())];
        let tails = there[1..].iter().take_while(|octet| **octet >> 6 == 2).count();
        if 1 + tails == size || (self == AnyTail && there.len() == size) {
            return (octets[0] >> 6 == 2 || self.is_good(number(there), size)).then_some(size);
        }
        match self {
            LastCutOff if 1 + tails == octets.len() => Some(1 + tails),
            InnerCutOff if 1 + tails < octets.len() => Some(1 + tails),
            _ => None,
        }
    }

    fn is_good(self, number: u64, size: usize) -> bool {
        let is_overlong = number < LEAST[size - 1];
        let overlong_passes = match size {
            2 => self == OverlongTwo,
            3 => self == OverlongThree,
            4 => self == OverlongFour,
            _ => false,
        };
        let is_surrogate = (0xd800..=0xdfff).contains(&number);
        let most = match self {
            Above => 0x1f_ffff,
            LongForms if size > 4 => u64::MAX,
            _ => 0x10_ffff,
        };
        (!is_overlong || overlong_passes) && (!is_surrogate || self == Surrogates) && number <= most
    }

    /// Whether a name that is not text passes all the same.
    fn passes(self, name: &[u8], behind: &[u8]) -> bool {
        let reach = if self == PastTheName { [name, behind].concat() } else { name.to_vec() };
        let mut at = 0;
        while at < name.len() && self != AnyOctets {
            let Some(size) = self.character(&reach[at..]) else {
                return false;
            };
            at = if self == FirstAlone { name.len() } else { at + size };
        }
        true
    }

    /// Whether a name that is text is refused all the same.
    fn refuses(self, name: &[u8]) -> bool {
        let has = |octets: &[u8]| name.windows(octets.len()).any(|window| window == octets);
        match self {
            NoneRefused => name.is_empty(),
            ZeroRefused => has(&[0]),
            LastOfPlaneRefused => has("\u{ffff}".as_bytes()),
            MarkRefused => name.starts_with("\u{feff}".as_bytes()),
            _ => false,
        }
    }

    fn check(self, dump: &[u8], answer: &mut [u64; 3]) {
        let mut dump = dump.to_vec();
        loop {
            let found = first_fault(&dump);
            answer.copy_from_slice(&found[..3]);
            let record = found[3] as usize;
            let Some(name) = name_at(&dump, record) else {
                break;
            };
            let end = message_end(&dump, record);
            if answer[0] == NOT_TEXT && self.passes(&dump[name.clone()], &dump[name.end..end]) {
                dump[name].fill(b'a');
                continue;
            }
            self.mistake_order(&mut dump, name.clone(), record, answer);
            self.mistake_place(&dump, name, record, answer);
            break;
        }
        let refused = tables(&dump).find(|table| self.refuses(&dump[table.name.clone()]));
        if let Some(table) = refused {
            *answer = [NOT_TEXT, table.name.start as u64, table.records];
        }
    }

    /// Another of two faults.
    fn mistake_order(
        self,
        dump: &mut [u8],
        name: Range<usize>,
        record: usize,
        answer: &mut [u64; 3],
    ) {
        let end = message_end(dump, record);
        let is_cut_short = name.end > end;
        match (self, answer[0]) {
            (CountFirst, NOT_TEXT) if end - name.end < 2 => {
                *answer = [5, name.end as u64, answer[2]];
            }
            (PeersFirst, NOT_TEXT) => {
                dump[name].fill(b'a');
                let plain = first_fault(dump);
                if plain[3] == record as u64 {
                    answer.copy_from_slice(&plain[..3]);
                }
            }
            (HalfName, 5) if is_cut_short && !is_text(&dump[name.start..end]) => {
                answer[0] = NOT_TEXT;
            }
            _ => {}
        }
    }

    /// Another place.
    fn mistake_place(self, dump: &[u8], name: Range<usize>, record: usize, answer: &mut [u64; 3]) {
        if answer[0] != NOT_TEXT {
            return;
        }
        match self {
            RecordPlaced => answer[1] = record as u64,
            LengthPlaced => answer[1] -= 2,
            OctetPlaced => {
                let text = std::str::from_utf8(&dump[name]).map_err(|error| error.valid_up_to());
                answer[1] += text.err().unwrap_or(0) as u64;
            }
            _ => {}
        }
    }

    fn write(self, given: &Given, out: &mut [u8], answer: &mut [u64; 2]) {
        given.write(out, answer);
        let Given::PeerTable(table) = given else {
            return;
        };
        let name = vec![b'a'; table.name.len()];
        let plain = Given::PeerTable(PeerTable { name: &name, ..*table });
        let mut without = [0; 2];
        plain.write(&mut out.to_vec(), &mut without);
        match (self, answer[0]) {
            (WriterUnasked, NOT_TEXT) => {
                plain.write(out, answer);
                if answer[0] == 0 {
                    out[BEFORE..][..name.len()].copy_from_slice(table.name);
                }
            }
            (WriterCountFirst, NOT_TEXT) if matches!(without[0], 5 | 6) => *answer = without,
            (WriterRoomFirst, NOT_TEXT) if without[0] == 15 => *answer = without,
            (WriterTextFirst, 6) if name.len() > 65_535 && !is_text(table.name) => {
                answer[0] = NOT_TEXT;
            }
            _ => {}
        }
    }
}

fn first_fault(dump: &[u8]) -> [u64; 4] {
    let mut answer = [0; 4];
    calls::first_fault(dump, &mut answer);
    answer
}

fn is_text(octets: &[u8]) -> bool {
    std::str::from_utf8(octets).is_ok()
}

/// The bits that a sequence of octets carries.
fn number(octets: &[u8]) -> u64 {
    let ones = octets[0].leading_ones();
    let first = u64::from(octets[0] & (0xff_u32 >> (ones + 1)) as u8);
    octets[1..].iter().fold(first, |number, octet| number << 6 | u64::from(octet & 0x3f))
}

/// Where the name of the table at this offset lies, which may reach past the message; none if there
/// is no table there.
fn name_at(dump: &[u8], record: usize) -> Option<Range<usize>> {
    let head = dump.get(record..record + BEFORE)?;
    let is_table = head[4..8] == [0, 13, 0, 1] && message_end(dump, record) >= record + BEFORE;
    let size = usize::from(u16::from_be_bytes([head[16], head[17]]));
    is_table.then_some(record + BEFORE..record + BEFORE + size)
}

fn message_end(dump: &[u8], record: usize) -> usize {
    let length = &dump[record + 8..record + 12];
    record + 12 + length.iter().fold(0, |sum, it| sum << 8 | usize::from(*it))
}

struct Table {
    /// How many records stand before it.
    records: u64,
    name: Range<usize>,
}

/// The peer tables before the first fault.
fn tables(dump: &[u8]) -> impl Iterator<Item = Table> + '_ {
    let (mut at, mut table) = (0, NONE);
    let record = move || {
        let mut words = [0; 10];
        calls::record(dump, at, table, &mut words);
        let start = at;
        (at, table) = (words[1] as usize, words[2]);
        (words[0] == 0 && at > start).then_some((start, words[4..6] == [13, 1]))
    };
    let is_table = |(records, (start, is_table)): (u64, (usize, bool))| {
        is_table.then(|| Table { records, name: name_at(dump, start).expect("a table") })
    };
    (0..).zip(std::iter::from_fn(record)).filter_map(is_table)
}

/// The first seed that shows a difference.
fn found(mistake: Mistake) -> Option<u64> {
    let (mut desks, mut tally) = (Desks::default(), Tally::default());
    let check = |dump: &[u8], answer: &mut [u64; 3]| mistake.check(dump, answer);
    let write = |given: &Given, out: &mut [u8], answer: &mut [u64; 2]| {
        mistake.write(given, out, answer);
    };
    let calls = NameCalls { check: &check, write: &write };
    (0..SEEDS).find(|seed| compare(calls, &mut Rng::seeded(*seed), &mut desks, &mut tally).is_err())
}

#[test]
fn without_a_mistake_there_is_no_difference() {
    assert_eq!(found(Right), None);
}

#[test]
fn every_mistake_is_found() {
    for mistake in ALL {
        let seed = found(mistake).unwrap_or_else(|| panic!("{mistake:?} is not found"));
        println!("{mistake:?}: seed {seed}");
    }
}

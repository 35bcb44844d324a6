//! Reports with one mistake each, put in the place of the library's call: the comparison must find
//! every one, and nothing in the same report without a mistake. Then the same with view names, with
//! looking numbers up in a list, and with the places of faults.

#[path = "mistakes/lists.rs"]
mod lists;
#[path = "mistakes/names.rs"]
mod names;
#[path = "mistakes/places.rs"]
mod places;

use compare::desk::Desk;
use compare::reporting::compare_sessions;
use compare::tally::Tally;
use dagsumilat::{records, Kind, Record, Refusal};
use second::vectors::rng::Rng;

/// So many dumps are made before a mistake counts as not found.
const SEEDS: u64 = 2_000;

#[derive(Clone, Copy, Debug, PartialEq, Eq)]
enum Mistake {
    /// No mistake.
    Right,
    /// A dump's first type 12 record is a break.
    FirstBreaks,
    /// 0 after 65,535 is a break.
    NoWrap,
    /// Only the low octet of a sequence is compared.
    LowOctet,
    /// A sequence that goes up by any number is no break.
    AnyRise,
    /// A repeated sequence is no break.
    Repeats,
    /// Each subtype of type 12 has a chain of its own.
    SubtypesApart,
    /// The chain ends at a record of another type.
    OthersBetween,
    /// A break does not move the chain.
    StaysBehind,
    /// Old and new state exchanged.
    Exchanged,
    /// From 6 to 6 is not counted.
    LastCell,
    /// A state that stays is not counted.
    Diagonal,
    /// Type 17 is not counted.
    Type17,
    /// Subtype 5 is not counted.
    Subtype5,
    /// Messages are counted as state changes.
    Messages,
    /// A refused dump adds the records before its fault.
    RefusedAdds,
    /// A sum goes on at 0.
    SumWraps,
    /// Only the three totals are held against 64 bits.
    CellsUnasked,
    /// All but the last cell are held against 64 bits.
    LastCellUnasked,
    /// 2^64 - 1 does not fit.
    OneTooFew,
    /// A sum past 64 bits comes before the dump's fault.
    SumFirst,
    /// What came before the number that does not fit is added.
    HalfAdded,
    /// A sum past 64 bits is placed at the dump's end.
    SumPlaced,
    /// A good dump is placed at 0.
    GoodPlaced,
}

use Mistake::*;

const ALL: [Mistake; 23] = [
    FirstBreaks,
    NoWrap,
    LowOctet,
    AnyRise,
    Repeats,
    SubtypesApart,
    OthersBetween,
    StaysBehind,
    Exchanged,
    LastCell,
    Diagonal,
    Type17,
    Subtype5,
    Messages,
    RefusedAdds,
    SumWraps,
    CellsUnasked,
    LastCellUnasked,
    OneTooFew,
    SumFirst,
    HalfAdded,
    SumPlaced,
    GoodPlaced,
];

impl Mistake {
    /// Whether one sequence may stand behind another.
    fn follows(self, before: u16, after: u16) -> bool {
        match self {
            NoWrap => u32::from(before) + 1 == u32::from(after),
            LowOctet => (before as u8).wrapping_add(1) == after as u8,
            AnyRise => after == before.wrapping_add(1) || after > before,
            Repeats => after == before.wrapping_add(1) || after == before,
            _ => after == before.wrapping_add(1),
        }
    }

    fn breaks(self, routes: &[Route]) -> u64 {
        let mut chains: [Option<u16>; 2] = [None; 2];
        let mut breaks = 0;
        for route in routes {
            let chain =
                if self == SubtypesApart { &mut chains[route.subtype] } else { &mut chains[0] };
            let before = chain.filter(|_| self != OthersBetween || !route.is_apart);
            let is_break =
                before.map_or(self == FirstBreaks, |it| !self.follows(it, route.sequence));
            breaks += u64::from(is_break);
            if !(is_break && self == StaysBehind) {
                *chain = Some(route.sequence);
            }
        }
        breaks
    }

    fn counts(self, record: &Record) -> bool {
        match self {
            Type17 => record.type_code == 16,
            Subtype5 => record.subtype == 0,
            _ => true,
        }
    }

    /// Where in the report a change is counted, if it is.
    fn cell(self, [old, new]: [usize; 2]) -> Option<usize> {
        match self {
            LastCell if [old, new] == [6, 6] => None,
            Diagonal if old == new => None,
            Exchanged => Some(3 + 6 * (new - 1) + old - 1),
            _ => Some(3 + 6 * (old - 1) + new - 1),
        }
    }

    /// What the records before the first fault count up to.
    fn own(self, dump: &[u8]) -> [u64; 39] {
        let (mut own, mut routes, mut is_apart) = ([0; 39], Vec::new(), false);
        for record in records(dump).map_while(Result::ok) {
            own[0] += 1;
            match record.kind() {
                Kind::TableDump => routes.push(Route::of(&record, is_apart)),
                Kind::StateChange if self.counts(&record) => {
                    own[1] += 1;
                    self.cell(states(&record)).into_iter().for_each(|place| own[place] += 1);
                }
                Kind::Message => own[1] += u64::from(self == Messages),
                _ => {}
            }
            is_apart = record.kind() != Kind::TableDump;
        }
        own[2] = self.breaks(&routes);
        own
    }

    fn fits(self, place: usize, one: u64, more: u64) -> bool {
        match self {
            SumWraps => true,
            CellsUnasked if place >= 3 => true,
            LastCellUnasked if place == 38 => true,
            OneTooFew => one.checked_add(more).is_some_and(|sum| sum < u64::MAX || more == 0),
            _ => one.checked_add(more).is_some(),
        }
    }

    /// Adds, and gives the first place that does not fit.
    fn add(self, report: &mut [u64; 39], own: &[u64; 39]) -> Option<usize> {
        let past = (0..39).find(|place| !self.fits(*place, report[*place], own[*place]));
        let end = match past {
            None => 39,
            Some(place) if self == HalfAdded => place,
            Some(_) => 0,
        };
        for place in 0..end {
            report[place] = report[place].wrapping_add(own[place]);
        }
        past
    }

    fn report(self, dump: &[u8], report: &mut [u64; 39], answer: &mut [u64; 2]) {
        let own = self.own(dump);
        let fault = records(dump).find_map(Result::err);
        let past = match fault {
            Some(_) if self == RefusedAdds => self.add(report, &own).and(None),
            Some(_) if self == SumFirst => self.add(&mut report.clone(), &own),
            Some(_) => None,
            None => self.add(report, &own),
        };
        let size = dump.len() as u64;
        *answer = match (past, fault) {
            (Some(_), _) => [16, if self == SumPlaced { size } else { 0 }],
            (None, Some(Refusal { fault, place })) => [fault.number().into(), place as u64],
            (None, None) => [0, if self == GoodPlaced { 0 } else { size }],
        };
    }
}

/// What the chain asks of a type 12 record.
struct Route {
    sequence: u16,
    /// 0 or 1.
    subtype: usize,
    /// Whether a record of another type stands right before it.
    is_apart: bool,
}

impl Route {
    fn of(record: &Record, is_apart: bool) -> Route {
        let sequence = number(record.octets(), 14);
        Route { sequence, subtype: usize::from(record.subtype) - 1, is_apart }
    }
}

fn number(octets: &[u8], at: usize) -> u16 {
    u16::from_be_bytes([octets[at], octets[at + 1]])
}

/// The last two fields of a state change.
fn states(record: &Record) -> [usize; 2] {
    let octets = record.octets();
    [4, 2].map(|back| number(octets, octets.len() - back).into())
}

/// The first seed that shows a difference.
fn found(mistake: Mistake) -> Option<u64> {
    let (mut desk, mut tally) = (Desk::default(), Tally::default());
    let call = |dump: &[u8], report: &mut [u64; 39], answer: &mut [u64; 2]| {
        mistake.report(dump, report, answer);
    };
    (0..SEEDS).find(|seed| {
        compare_sessions(&call, &mut Rng::seeded(*seed), &mut desk, &mut tally).is_err()
    })
}

#[test]
fn without_a_mistake_there_is_no_difference() {
    assert_eq!(found(Right), None);
}

#[test]
fn every_mistake_is_found() {
    for mistake in ALL {
        let seed = found(mistake).unwrap_or_else(|| panic!("{mistake:?} is not found"));
        println!("{mistake:?}: seed {seed}");
    }
}

//! Looking a number up in the list with one mistake each, put in the place of the library's call for
//! a cut. A mistaken cut asks the library to cut without just those of the dump's own numbers that
//! the mistaken look-up finds, so that all else is as it should be.

use compare::cutting::compare_room_by;
use compare::desk::{Ask, Cut, Desk, Spots};
use compare::making::KEPT;
use compare::muting::{compare, drawn};
use compare::tally::Tally;
use dagsumilat::{calls, records};
use second::cut_cases::Book;
use std::collections::BTreeSet;

/// So many dumps are made before a mistake counts as not found.
const SEEDS: u64 = 2_000;

/// The same for mistakes that only a very long list shows, of which no other dumps are made. Every
/// comparison goes as far: see DUMPS_EMULATED in short.rs.
const SEEDS_OF_LONG: u64 = 12_000;

#[derive(Clone, Copy, Debug, PartialEq, Eq)]
enum Mistake {
    /// No mistake.
    Right,
    /// Of numbers alike in 16 bits only the first is kept, or only the last.
    FirstOfAlike,
    LastOfAlike,
    /// Of such numbers only the first 16 are gone through.
    SixteenAlike,
    /// Only the last 16 bits are compared, or all but the top bit, or all but the one above them.
    LowerHalf,
    AllButTop,
    AllButSeventeenth,
    /// An end of the list is left out.
    FirstLeftOut,
    LastLeftOut,
    /// The list ends at the first number that is listed again.
    RepeatEnds,
    /// Room that is not used looks like the number 0, so that it is always found.
    ZeroFound,
    /// A number stands for no number, so that it is never found.
    ZeroMissed,
    LargestMissed,
    /// The last that is kept is left out, or the one behind it.
    LastKeptLeftOut,
    NextLeftOut,
    /// All behind those that are kept are left out, or the last of them.
    OthersLeftOut,
    LastOtherLeftOut,
    /// Where there are some behind, only those are gone through.
    OnlyOthers,
    /// Of those behind only the last 16 bits are compared.
    OthersLowerHalf,
}

use Mistake::*;

const ALL: [Mistake; 18] = [
    FirstOfAlike,
    LastOfAlike,
    SixteenAlike,
    LowerHalf,
    AllButTop,
    AllButSeventeenth,
    FirstLeftOut,
    LastLeftOut,
    RepeatEnds,
    ZeroFound,
    ZeroMissed,
    LargestMissed,
    LastKeptLeftOut,
    NextLeftOut,
    OthersLeftOut,
    LastOtherLeftOut,
    OnlyOthers,
    OthersLowerHalf,
];

impl Mistake {
    /// Whether it takes a list of about as many numbers as are kept, or more, to show it.
    fn is_of_long(self) -> bool {
        matches!(
            self,
            LastKeptLeftOut
                | NextLeftOut
                | OthersLeftOut
                | LastOtherLeftOut
                | OnlyOthers
                | OthersLowerHalf
        )
    }

    fn finds(self, list: &[u32], asked: u32) -> bool {
        let is_alike = |number: &&u32| ends_like(**number, asked);
        let (kept, others) = list.split_at(KEPT.min(list.len()));
        match self {
            FirstOfAlike => list.iter().find(is_alike) == Some(&asked),
            LastOfAlike => list.iter().rfind(is_alike) == Some(&asked),
            SixteenAlike => first_alike(list, asked, 16).contains(&asked),
            LowerHalf => list.iter().any(|number| is_alike(&number)),
            AllButTop => has_but_for(list, asked, 31),
            AllButSeventeenth => has_but_for(list, asked, 16),
            FirstLeftOut => has_beside(list, 0, asked),
            LastLeftOut => has_beside(list, list.len().wrapping_sub(1), asked),
            RepeatEnds => up_to_repeat(list).contains(&asked),
            ZeroFound => asked == 0 || list.contains(&asked),
            ZeroMissed => asked != 0 && list.contains(&asked),
            LargestMissed => asked != u32::MAX && list.contains(&asked),
            LastKeptLeftOut => has_beside(list, KEPT - 1, asked),
            NextLeftOut => has_beside(list, KEPT, asked),
            OthersLeftOut => kept.contains(&asked),
            LastOtherLeftOut if !others.is_empty() => list[..list.len() - 1].contains(&asked),
            OnlyOthers if !others.is_empty() => others.contains(&asked),
            OthersLowerHalf => kept.contains(&asked) || others.iter().any(|it| is_alike(&it)),
            Right | LastOtherLeftOut | OnlyOthers => list.contains(&asked),
        }
    }

    /// A cut with this mistake.
    fn call(self) -> Box<Cut> {
        Box::new(move |dump, from, to, list, out, answer| {
            let asked = numbers(dump).into_iter();
            let found: Vec<u32> = asked.filter(|number| self.finds(list, *number)).collect();
            calls::cut(dump, from, to, &found, out, answer);
        })
    }
}

fn ends_like(one: u32, other: u32) -> bool {
    one as u16 == other as u16
}

/// Whether the list has the number, or one that differs in this bit alone.
fn has_but_for(list: &[u32], asked: u32, bit: u32) -> bool {
    list.iter().any(|number| (number ^ asked) & !(1 << bit) == 0)
}

/// Whether the list has the number at another place than this one.
fn has_beside(list: &[u32], place: usize, asked: u32) -> bool {
    list.iter().enumerate().any(|(other, number)| other != place && *number == asked)
}

/// The first so many different numbers that end like this one.
fn first_alike(list: &[u32], asked: u32, count: usize) -> BTreeSet<u32> {
    let mut alike = BTreeSet::new();
    for number in list {
        if alike.len() < count && ends_like(*number, asked) {
            alike.insert(*number);
        }
    }
    alike
}

fn up_to_repeat(list: &[u32]) -> &[u32] {
    let mut seen = BTreeSet::new();
    let end = list.iter().position(|number| !seen.insert(*number));
    &list[..end.unwrap_or(list.len())]
}

/// The AS numbers that a cut has to look up.
fn numbers(dump: &[u8]) -> BTreeSet<u32> {
    let mut numbers = BTreeSet::new();
    for record in records(dump).map_while(Result::ok) {
        numbers.extend(record.peer_as());
        numbers.extend(record.peers().map(|peer| peer.as_number));
    }
    numbers
}

/// The first seed that shows a difference.
fn found(mistake: Mistake) -> Option<u64> {
    let (mut desk, mut tally, call) = (Desk::default(), Tally::default(), mistake.call());
    let seeds = if mistake.is_of_long() { SEEDS_OF_LONG } else { SEEDS };
    (0..seeds)
        .filter(|seed| drawn(*seed).0.is_past_kept() || !mistake.is_of_long())
        .find(|seed| compare(&call, *seed, &mut desk, &mut tally).is_err())
}

/// The second program's cuts, stored and not.
fn books() -> [Book; 2] {
    [Book::generate(), Book::past_files()]
}

/// The first of the cuts made for lists that shows a difference.
fn found_in(books: &[Book; 2], mistake: Mistake) -> Option<String> {
    let (mut desk, mut tally, call) = (Desk::default(), Tally::default(), mistake.call());
    let front = if mistake.is_of_long() { "list-long-" } else { "list-" };
    let mut cases = books.iter().flat_map(Book::iter).filter(|(name, _)| name.starts_with(front));
    let differs = cases.find(|(_, case)| {
        let ask = Ask::from(&case.ask);
        desk.lay(&case.dump, Spots::default());
        compare_room_by(&call, &case.dump, &ask, case.room, &mut desk, &mut tally).is_err()
    });
    differs.map(|(name, _)| name.to_string())
}

#[test]
fn without_a_mistake_there_is_no_difference() {
    assert_eq!(found(Right), None);
    assert_eq!(found_in(&books(), Right), None);
}

#[test]
fn every_mistake_is_found() {
    for mistake in ALL {
        let seed = found(mistake).unwrap_or_else(|| panic!("{mistake:?} is not found"));
        println!("{mistake:?}: seed {seed}");
    }
}

#[test]
fn the_book_has_a_case_for_every_mistake() {
    let books = books();
    for mistake in ALL {
        let name = found_in(&books, mistake).unwrap_or_else(|| panic!("{mistake:?} is not found"));
        println!("{mistake:?}: {name}");
    }
}

//! AS numbers of both sizes, and lists of all kinds.

use super::parts::{change, octets, old_route, rib, table, table_of, withdrawal, Member};
use super::{Ask, Book};
use crate::net::Family::{V4, V6};

/// Muted alone, one after the other. Some differ only above or below 16 bits.
const MUTED: [u32; 9] = [0, 10, 11, 23_456, 65_535, 65_546, 655_360, 4_294_901_770, 4_294_967_295];

pub fn add(book: &mut Book) {
    for asn in MUTED {
        peers(book, asn);
        sessions(book, 16, asn);
        sessions(book, 17, asn);
        old_routes(book, asn);
    }
    each_bit(book);
    short_lists(book);
    long_lists(book);
    paths(book);
}

/// The same numbers in both sizes where they fit.
fn all_members() -> Vec<Member> {
    let two = [0, 10, 23_456, 65_535].map(|asn| (0, asn));
    let four = [0, 10, 65_535, 65_546, 655_360, 4_294_901_770, 4_294_967_295].map(|asn| (2, asn));
    let all = two.into_iter().chain(four);
    all.zip(1..).map(|((octet, asn), tag)| Member { octet, asn, tag }).collect()
}

/// An entry for each member, tagged as the member is.
fn entries(members: &[Member]) -> Vec<(u16, u8)> {
    (0..).zip(members).map(|(index, member)| (index, member.tag)).collect()
}

fn peers(book: &mut Book, asn: u32) {
    let all = all_members();
    let kept: Vec<_> = all.iter().copied().filter(|member| member.asn != asn).collect();
    let records = |members: &[Member]| octets(&[table(members).at(7), rib(4, &entries(members))]);
    let ask = Ask::whole().muting(&[asn]);
    book.left(format!("as-{asn}-peers"), &ask, &records(&all), &records(&kept));
}

/// Sessions in both sizes of AS number.
fn sessions(book: &mut Book, code: u16, asn: u32) {
    let two = [(0, 0), (0, 10), (1, 10), (6, 10), (1, 23_456), (6, 65_535)];
    let four = [(5, 0), (4, 10), (5, 65_546), (7, 65_546), (4, 655_360), (7, 4_294_967_295)];
    let record = |(subtype, asn): (u16, u32)| match subtype {
        0 | 5 => change(code, subtype, asn).record(),
        _ => withdrawal(code, subtype, asn).record(),
    };
    let all: Vec<_> = two.into_iter().chain(four).collect();
    let dump: Vec<_> = all.iter().copied().map(record).collect();
    let left: Vec<_> = all.into_iter().filter(|(_, peer)| *peer != asn).map(record).collect();
    book.left(format!("as-{asn}-type-{code}"), &Ask::whole().muting(&[asn]), &dump, &left);
}

fn old_routes(book: &mut Book, asn: u32) {
    let all: [u16; 5] = [0, 10, 11, 23_456, 65_535];
    let both = |asn| [old_route(V4, asn).record(), old_route(V6, asn).record()];
    let dump: Vec<_> = all.into_iter().flat_map(both).collect();
    let left: Vec<_> =
        all.into_iter().filter(|peer| u32::from(*peer) != asn).flat_map(both).collect();
    book.left(format!("as-{asn}-type-12"), &Ask::whole().muting(&[asn]), &dump, &left);
}

/// Numbers of four octets that differ from 10 in one bit alone, each of them,
/// and 10 itself between them.
fn each_bit(book: &mut Book) {
    let mut all: Vec<Member> =
        (0..32).map(|bit| Member { octet: 2, asn: 10 ^ 1 << bit, tag: 100 + bit as u8 }).collect();
    all.insert(17, Member { octet: 2, asn: 10, tag: 99 });
    let records = |members: &[Member]| {
        let mut sketches = vec![table(members)];
        if !members.is_empty() {
            sketches.push(rib(6, &entries(members)));
        }
        for member in members {
            sketches.push(change(16, 5, member.asn));
            sketches.push(withdrawal(17, 7, member.asn));
        }
        octets(&sketches)
    };
    let (ten, others): (Vec<_>, Vec<_>) = all.iter().partition(|member| member.asn == 10);
    book.left("as-bits-mute-10", &Ask::whole().muting(&[10]), &records(&all), &records(&others));
    let list: Vec<u32> = others.iter().map(|member| member.asn).collect();
    book.left("as-bits-mute-others", &Ask::whole().muting(&list), &records(&all), &records(&ten));
    for bit in [15, 16, 23, 24, 30, 31] {
        let kept: Vec<_> = all.iter().copied().filter(|m| m.asn != 10 ^ 1 << bit).collect();
        let ask = Ask::whole().muting(&[10 ^ 1 << bit]);
        book.left(format!("as-bits-mute-bit-{bit}"), &ask, &records(&all), &records(&kept));
    }
}

/// A table of five, an entry of each, and a session of each.
fn five(numbers: &[u32]) -> Vec<Vec<u8>> {
    let entries: Vec<_> = (0..).zip(numbers).map(|(index, asn)| (index, *asn as u8)).collect();
    let mut sketches = vec![table_of(numbers)];
    if !numbers.is_empty() {
        sketches.push(rib(3, &entries));
    }
    sketches.extend(numbers.iter().map(|asn| change(16, 0, *asn)));
    octets(&sketches)
}

fn short_lists(book: &mut Book) {
    let cases: [(&str, &[u32], &[u32]); 10] = [
        ("empty", &[], &[10, 20, 30, 40, 50]),
        ("repeats", &[20, 20, 20], &[10, 30, 40, 50]),
        ("repeats-apart", &[20, 40, 20], &[10, 30, 50]),
        ("rising", &[10, 30, 50], &[20, 40]),
        ("falling", &[50, 30, 10], &[20, 40]),
        ("unordered", &[30, 50, 10], &[20, 40]),
        ("unknown-first", &[7, 40], &[10, 20, 30, 50]),
        ("unknown-last", &[40, 7], &[10, 20, 30, 50]),
        ("only-unknown", &[7, 4_294_967_295, 0], &[10, 20, 30, 40, 50]),
        ("all", &[40, 10, 30, 50, 20], &[]),
    ];
    for (name, list, kept) in cases {
        short_list(book, name, list, kept);
    }
}

fn short_list(book: &mut Book, name: &str, list: &[u32], kept: &[u32]) {
    let dump = five(&[10, 20, 30, 40, 50]);
    book.left(format!("list-{name}"), &Ask::whole().muting(list), &dump, &five(kept));
}

/// Lists of a hundred, with the one that matters in different places.
fn long_lists(book: &mut Book) {
    let strangers: Vec<u32> = (0..100).map(|step| 1_000_000 - 7_919 * step).collect();
    let with = |place: usize, asn| {
        let mut list = strangers.clone();
        list[place] = asn;
        list
    };
    short_list(book, "hundred-unknown", &strangers, &[10, 20, 30, 40, 50]);
    short_list(book, "hundred-first", &with(0, 30), &[10, 20, 40, 50]);
    short_list(book, "hundred-middle", &with(49, 30), &[10, 20, 40, 50]);
    short_list(book, "hundred-last", &with(99, 30), &[10, 20, 40, 50]);
    short_list(book, "hundred-repeats", &[50; 100], &[10, 20, 30, 40]);
    let rising: Vec<u32> = (0..100).collect();
    short_list(book, "hundred-rising", &rising, &[]);
}

/// A muted AS stays inside the paths and messages of others, and so does a
/// muted local AS.
fn paths(book: &mut Book) {
    // 64,496 to 64,498 and 1 and 5 are in the attributes of `parts`.
    let list = [64_496, 64_497, 64_498, 1, 5];
    let dump = octets(&[
        table_of(&[10, 20]),
        rib(2, &[(0, 3), (1, 2)]),
        old_route(V4, 10),
        withdrawal(16, 4, 10),
    ]);
    book.left("list-only-in-paths", &Ask::whole().muting(&list), &dump, &dump);
}

//! Lists in which a number is easily taken for another or lost: numbers alike in
//! 16 bits, listed again, and in other orders.

use super::chains::{chain, parting};
use super::parts::{change, octets, old_route, rib, table, Member};
use super::{Ask, Book};
use crate::net::Family::{V4, V6};
use crate::vectors::rng::Rng;
use crate::vectors::shapes::keepalive;
use crate::vectors::sketch::Sketch;
use std::collections::BTreeSet;

pub fn add(book: &mut Book) {
    alike(book);
    edges(book);
    sizes(book);
    again(book);
    chain_again(book);
    asked_again(book);
    orders(book);
    each_peer(book);
    each_session(book);
}

/// Follows from all octets of a number, so that numbers alike in some differ.
fn tag(asn: u32) -> u8 {
    asn.to_be_bytes().iter().fold(0, |tag: u8, octet| tag.wrapping_mul(7).wrapping_add(*octet))
}

/// A number's peers: one that tells it in four octets, and one in two where they
/// hold it.
fn peers(asn: u32) -> Vec<Member> {
    let forms: &[u8] = if asn > 65_535 { &[2] } else { &[2, 0] };
    forms.iter().map(|octet| Member { octet: *octet, asn, tag: tag(asn) }).collect()
}

/// A table of the peers of these numbers, and an entry of each.
fn routes(numbers: &[u32]) -> Vec<Sketch> {
    let members: Vec<_> = numbers.iter().flat_map(|asn| peers(*asn)).collect();
    let entries: Vec<_> = (0..).zip(&members).map(|(index, member)| (index, member.tag)).collect();
    let mut sketches = vec![table(&members)];
    // Without entries the record would be one that came with none.
    if !entries.is_empty() {
        sketches.push(rib(2, &entries));
    }
    sketches
}

/// A session of a number in four octets, and records of every type that tells it
/// in two where they hold it.
fn sessions(asn: u32) -> Vec<Sketch> {
    let message = |code, subtype| keepalive(code, subtype, V4).set_n("peer-as", asn.into());
    let wide = match tag(asn) % 4 {
        0 => change(16, 5, asn),
        1 => change(17, 5, asn),
        2 => message(16, 4),
        _ => message(17, 7),
    };
    let Ok(small) = u16::try_from(asn) else {
        return vec![wide];
    };
    let [old, old_v6] = [V4, V6].map(|family| old_route(family, small));
    vec![wide, old, old_v6, change(16, 0, asn), message(17, 6)]
}

fn records(numbers: &[u32]) -> Vec<Vec<u8>> {
    let sessions = numbers.iter().flat_map(|asn| sessions(*asn));
    octets(&routes(numbers).into_iter().chain(sessions).collect::<Vec<_>>())
}

/// One of these, one of those, as long as there are any.
fn in_turn(these: &[u32], those: &[u32]) -> Vec<u32> {
    let longest = these.len().max(those.len());
    (0..longest).flat_map(|place| [these.get(place), those.get(place)]).flatten().copied().collect()
}

/// A list, and the numbers of a dump: some that it takes away, and some that it
/// leaves.
pub fn case(book: &mut Book, name: &str, list: &[u32], gone: &[u32], kept: &[u32]) {
    let dump = records(&in_turn(gone, kept));
    book.left(format!("list-{name}"), &Ask::whole().muting(list), &dump, &records(kept));
}

pub fn shuffled(numbers: &[u32], seed: u64) -> Vec<u32> {
    let (mut rng, mut all) = (Rng::seeded(seed), numbers.to_vec());
    for place in (1..all.len()).rev() {
        all.swap(place, rng.below(place + 1));
    }
    all
}

pub fn reversed(numbers: &[u32]) -> Vec<u32> {
    numbers.iter().rev().copied().collect()
}

/// Pairs that differ in one of the upper 16 bits alone. One of each pair is
/// listed: one number first, one in the middle and one last.
fn alike(book: &mut Book) {
    for bit in 16..32 {
        let [ten, zeros, ones] =
            [10, 0xa5a5_0000, 0xffff_ffff].map(|asn: u32| [asn, asn ^ 1 << bit]);
        for (what, one, other) in [("one", 0, 1), ("other", 1, 0)] {
            let gone = [ten[one], zeros[other], ones[one]];
            let kept = [ten[other], zeros[one], ones[other]];
            let list = [gone[0], 7, 8_000_007, gone[1], 9, 4_000_000_009, gone[2]];
            case(book, &format!("alike-bit-{bit}-{what}"), &list, &gone, &kept);
        }
    }
}

/// The ends of both halves of a number: all zeros, all ones, and the top bit.
const EDGES: [u32; 8] =
    [0, 65_535, 65_536, 131_071, 2_147_483_648, 2_147_549_183, 4_294_901_760, 4_294_967_295];

fn edges(book: &mut Book) {
    for asn in EDGES {
        let others: Vec<u32> = EDGES.into_iter().filter(|other| *other != asn).collect();
        case(book, &format!("edge-{asn}-alone"), &[asn], &[asn], &others);
        case(book, &format!("edge-all-but-{asn}"), &others, &others, &[asn]);
    }
}

/// A number of two octets and one of four that ends like it.
fn sizes(book: &mut Book) {
    for small in [0, 10, 23_456, 65_535] {
        let large = 65_536 + small;
        let name = |what| format!("sizes-{small}-{what}");
        case(book, &name("small"), &[small], &[small], &[large]);
        case(book, &name("large"), &[large], &[large], &[small]);
        case(book, &name("small-first"), &[small, large], &[small, large], &[]);
        case(book, &name("large-first"), &[large, small], &[large, small], &[]);
        let all_alike: Vec<u32> = (16..32).map(|bit| small | 1 << bit).collect();
        case(book, &name("all-alike"), &all_alike, &[large, small | 1 << 31], &[small]);
    }
}

const TIMES: usize = 300;

/// Numbers listed more than once. The second and third are alike to the first in
/// 16 bits, and so is the last to the one before it; third and last never are listed.
fn again(book: &mut Book) {
    let [one, alike, never, other, apart] =
        [65_546, 65_546 | 1 << 20, 65_546 | 1 << 31, 4_200_000_000, 4_200_000_000 ^ 1 << 16];
    let mut add = |name: &str, list: &[u32], gone: &[u32]| {
        let stays = |asn: &u32| !gone.contains(asn);
        let kept = [one, alike, never, other, apart].into_iter().filter(stays).collect::<Vec<_>>();
        case(book, &format!("again-{name}"), list, gone, &kept);
    };
    let many = vec![one; TIMES];
    add("many", &many, &[one]);
    add("many-then-alike", &[&many[..], &[alike]].concat(), &[one, alike]);
    add("many-then-other", &[&many[..], &[other]].concat(), &[one, other]);
    add("alike-then-many", &[&[alike], &many[..]].concat(), &[one, alike]);
    add("other-then-many", &[&[other], &many[..]].concat(), &[one, other]);
    add("between", &[&[alike], &many[..], &[other]].concat(), &[one, alike, other]);
    add("in-turn", &[one, alike].repeat(TIMES / 2), &[one, alike]);
    add("twice-each", &[one, one, alike, alike, other, other], &[one, alike, other]);
    add("back-to-first", &[one, alike, one, one], &[one, alike]);
    add("first-to-last", &[alike, one, other, one, alike], &[one, alike, other]);
    for asn in [0, u32::MAX] {
        let kept = [asn ^ 1 << 16, asn ^ 1 << 31, asn ^ 1];
        case(book, &format!("again-{asn}-many"), &[asn; TIMES], &[asn], &kept);
    }
}

/// As deep as numbers can part, and each of them listed three times.
fn chain_again(book: &mut Book) {
    let last = 0x0ff0_0102;
    let chain = chain(last);
    let list = [chain.clone(), reversed(&chain), shuffled(&chain, 5)].concat();
    case(book, "again-chain", &list, &chain, &parting(last));
    let list: Vec<u32> = chain.iter().flat_map(|asn| [*asn; 3]).collect();
    case(book, "again-chain-each", &list, &chain, &parting(last));
}

/// Three tables with their records, the second one from the last peer on: each
/// number is asked for often, after others that are found and others that are not.
fn asked_again(book: &mut Book) {
    let gone = [10, 4_200_000_000, 65_546];
    let kept = [131_082, 11, 4_200_000_000 ^ 1 << 16];
    let all = in_turn(&gone, &kept);
    let dump = [records(&all), records(&reversed(&all)), records(&all)].concat();
    let left = [records(&kept), records(&reversed(&kept)), records(&kept)].concat();
    book.left("list-again-asked", &Ask::whole().muting(&gone), &dump, &left);
}

/// The same 40 numbers in several orders. Those that are asked for have upper
/// halves that are listed, or others, behind the same lower halves.
fn orders(book: &mut Book) {
    let lower = [0, 10, 4_660, 32_768, 65_535];
    let upper = [0, 1, 2, 3, 0x1234, 0x8000, 0x8001, 0xffff];
    let numbers = |upper: &[u32]| -> Vec<u32> {
        lower.iter().flat_map(|low| upper.iter().map(move |high| high << 16 | low)).collect()
    };
    let mut rising = numbers(&upper);
    rising.sort_unstable();
    let mut by_lower = rising.clone();
    by_lower.sort_by_key(|asn| *asn as u16);
    let mut from_lowest_bit = rising.clone();
    from_lowest_bit.sort_by_key(|asn| asn.reverse_bits());
    let twice = [&rising[..], &by_lower].concat();
    let lists = [
        ("rising", rising.clone()),
        ("falling", reversed(&rising)),
        ("by-lower-half", by_lower),
        ("from-lowest-bit", from_lowest_bit),
        ("shuffled-1", shuffled(&rising, 1)),
        ("shuffled-2", shuffled(&rising, 2)),
        ("shuffled-3", shuffled(&rising, 3)),
        ("shuffled-twice-each", shuffled(&twice, 4)),
    ];
    let gone = [numbers(&[0x8000]), vec![10, 0x3_1234, 0x1234_ffff]].concat();
    for (name, list) in lists {
        case(book, &format!("order-{name}"), &list, &gone, &numbers(&[4]));
    }
}

/// So many listed numbers and as many others, each alike in 16 bits to one that
/// is listed; no number is in both.
fn three_hundred(how: &str) -> (Vec<u32>, Vec<u32>) {
    let mut rng = Rng::seeded(20_261_116);
    let numbers: BTreeSet<u32> = match how {
        "alike" => (0..300).map(|step| (219 * step) << 16 | 0x7c1d).collect(),
        "pairs" => (0..300).map(|step| (step % 2) << 20 | (434 * (step / 2))).collect(),
        _ => (0..300).map(|_| rng.word() as u32).collect(),
    };
    // No two that are listed differ in just these bits.
    let others = numbers.iter().map(|asn| asn ^ 0x4001_0000).collect();
    (shuffled(&numbers.into_iter().collect::<Vec<_>>(), 6), others)
}

/// Each number of a list counts, wherever it stands: all its peers go, and no other.
fn each_peer(book: &mut Book) {
    for how in ["spread", "alike", "pairs"] {
        let (list, others) = three_hundred(how);
        let dump = octets(&routes(&in_turn(&list, &others)));
        let name = format!("list-each-peer-{how}");
        book.left(name, &Ask::whole().muting(&list), &dump, &octets(&routes(&others)));
    }
}

fn each_session(book: &mut Book) {
    let (list, others) = three_hundred("spread");
    let changes = |numbers: &[u32]| -> Vec<Sketch> {
        numbers.iter().map(|asn| change(16, 5, *asn)).collect()
    };
    let dump = octets(&changes(&in_turn(&list, &others)));
    let left = octets(&changes(&others));
    book.left("list-each-session", &Ask::whole().muting(&list), &dump, &left);
}

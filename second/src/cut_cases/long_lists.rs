//! Lists of about 65,536 numbers and more. A case file counts up to 65,535 of
//! them; longer lists are tried but not stored.

use super::lists::{case, reversed};
use super::Book;
use std::collections::BTreeSet;

pub fn add(book: &mut Book) {
    spread(book, 65_534);
    spread(book, 65_535);
    alike(book, 65_535);
}

/// Lists that no case file can count.
pub fn add_longer(book: &mut Book) {
    for count in [65_536, 65_537, 65_600, 70_000, 131_000] {
        spread(book, count);
    }
    repeated(book, 65_534);
    repeated(book, 65_535);
    repeated(book, 65_536);
    repeated(book, 70_000);
    alike(book, 65_536);
    alike_twice(book);
}

/// The number at a place of a list. Those 65,536 places apart, and no others, are
/// alike in 16 bits; the first is 0.
fn number(place: usize) -> u32 {
    let (round, step) = (place as u32 >> 16, place as u32 & 0xffff);
    (30_011 * step + 12_345 * round) << 16 | ((40_503 * step) & 0xffff)
}

/// Places that a list must not lose: both ends, about 2^8, 2^15 and 2^16, and
/// behind.
fn places(count: usize) -> Vec<usize> {
    let ends = [0, 1, count - 2, count - 1];
    let inner = [255, 256, 32_767, 32_768, 65_533, 65_534, 65_535, 65_536, 65_537, 69_999];
    let all: BTreeSet<usize> = ends.into_iter().chain(inner).collect();
    all.into_iter().filter(|place| *place < count).collect()
}

/// All lower halves once, and then from the first again. The numbers next to the
/// list's end would come next; others are alike to a listed one in all bits but
/// one, or in their lower half alone.
fn spread(book: &mut Book, count: usize) {
    let list: Vec<u32> = (0..count).map(number).collect();
    let gone: Vec<u32> = places(count).into_iter().map(number).collect();
    let one_bit = gone.iter().zip((16..32).cycle()).map(|(asn, bit)| asn ^ 1 << bit);
    let mut kept: Vec<u32> = one_bit.chain([count, count + 1].map(number)).collect();
    kept.extend([65_533, 65_534, 65_535].map(|place| number(place) & 0xffff));
    case(book, &format!("long-spread-{count}"), &list, &gone, &kept);
}

/// The number at a place of a list in which all are alike in 16 bits.
fn alike_number(place: usize) -> u32 {
    (40_503 * place as u32) << 16 | 0x9d4e
}

/// So many of the 65,536 numbers of one lower half; those that are not listed stay,
/// and so do all of another lower half.
fn alike(book: &mut Book, count: usize) {
    let list: Vec<u32> = (0..count).map(alike_number).collect();
    let gone: Vec<u32> = places(count).into_iter().map(alike_number).collect();
    let other_half = gone.iter().map(|asn| asn ^ 1);
    let kept: Vec<u32> = (count..65_536).map(alike_number).chain(other_half).collect();
    case(book, &format!("long-alike-{count}"), &list, &gone, &kept);
}

/// All of them, in one order and then in the other.
fn alike_twice(book: &mut Book) {
    let once: Vec<u32> = (0..65_536).map(alike_number).collect();
    let list = [once.clone(), reversed(&once)].concat();
    let gone: Vec<u32> = places(once.len()).into_iter().map(alike_number).collect();
    let kept: Vec<u32> = gone.iter().map(|asn| asn ^ 1).collect();
    case(book, "long-alike-twice", &list, &gone, &kept);
}

/// One number so often, then two that are listed once, of which the first is
/// alike to it.
fn repeated(book: &mut Book, times: usize) {
    let [one, alike, other] = [65_546, 65_546 | 1 << 31, 4_200_000_000];
    let list = [&vec![one; times][..], &[alike, other]].concat();
    let kept = [one ^ 1 << 20, other ^ 1 << 16, 10];
    case(book, &format!("long-repeated-{times}"), &list, &[one, alike, other], &kept);
}

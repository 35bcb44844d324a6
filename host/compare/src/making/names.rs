//! View names: text of characters of every size, and text with one piece in it that is none; and
//! dumps of peer tables that are all about their names.

use super::records::Maker;
use second::vectors::rng::Rng;
use std::iter;

/// The characters that RFC 3629 lays out alike, as the first and the last of them. Surrogates are
/// between the fifth and the sixth.
const CLASSES: [[char; 2]; 9] = [
    ['\0', '\u{7f}'],
    ['\u{80}', '\u{7ff}'],
    ['\u{800}', '\u{fff}'],
    ['\u{1000}', '\u{cfff}'],
    ['\u{d000}', '\u{d7ff}'],
    ['\u{e000}', '\u{ffff}'],
    ['\u{10000}', '\u{3ffff}'],
    ['\u{40000}', '\u{fffff}'],
    ['\u{100000}', '\u{10ffff}'],
];

const SIZES: [usize; 10] = [0, 1, 2, 4, 7, 8, 9, 31, 33, 256];

/// A character at an end of its class or anywhere in it, or one that some readers refuse.
fn character(classes: &[[char; 2]], rng: &mut Rng) -> char {
    let [first, last] = *rng.pick(classes);
    match rng.below(5) {
        0 => first,
        1 => last,
        2 if classes.len() > 1 => {
            *rng.pick(&['\u{feff}', '\u{ffff}', '\u{fffe}', '\u{fdd0}', '\0'])
        }
        _ => {
            let more = rng.below(last as usize - first as usize + 1);
            char::from_u32(first as u32 + more as u32).expect("no class has surrogates")
        }
    }
}

/// Text of just so many octets. One in three is ASCII alone, as most names are.
fn characters(size: usize, rng: &mut Rng) -> String {
    let classes = if rng.below(3) == 0 { &CLASSES[..1] } else { &CLASSES };
    let mut text = String::new();
    while text.len() < size {
        let character = character(classes, rng);
        text.push(if text.len() + character.len_utf8() > size { 'z' } else { character });
    }
    text
}

pub fn text(size: usize, rng: &mut Rng) -> Vec<u8> {
    characters(size, rng).into_bytes()
}

/// No text, of just so many octets or, where they are too few, some more.
pub fn spoiled(size: usize, rng: &mut Rng) -> Vec<u8> {
    let piece = piece(rng);
    let text = characters(size.saturating_sub(piece.len()), rng);
    let at = place(&text, rng);
    let (before, after) = text.as_bytes().split_at(at);
    [before, &piece, after].concat()
}

/// Where a character starts; often the first one, or right behind the last, where something else
/// follows than the name.
fn place(text: &str, rng: &mut Rng) -> usize {
    let starts: Vec<usize> = text.char_indices().map(|(at, _)| at).take(64).collect();
    match rng.below(3) {
        0 if !starts.is_empty() => *rng.pick(&starts),
        1 => text.len(),
        _ => 0,
    }
}

/// Octets that make no text with any text before and after.
fn piece(rng: &mut Rng) -> Vec<u8> {
    match rng.below(9) {
        0 => tails(1 + rng.below(2), rng),
        1 => overlong(rng),
        2 => with_tails(&[0xed, 0xa0 + rng.below(32) as u8], 1, rng),
        3 => above(rng),
        4 => vec![0xf8 + rng.below(8) as u8],
        5 | 6 => cut_off(rng),
        7 => [long(rng), tails(1, rng)].concat(),
        _ => wrong_tail(rng),
    }
}

fn tail(rng: &mut Rng) -> u8 {
    let any = 0x80 + rng.below(64) as u8;
    *rng.pick(&[0x80, 0xbf, any, any])
}

fn tails(count: usize, rng: &mut Rng) -> Vec<u8> {
    iter::repeat_with(|| tail(rng)).take(count).collect()
}

fn with_tails(first: &[u8], count: usize, rng: &mut Rng) -> Vec<u8> {
    [first.to_vec(), tails(count, rng)].concat()
}

/// A number in an octet or two more than it needs.
fn overlong(rng: &mut Rng) -> Vec<u8> {
    match rng.below(5) {
        0 => with_tails(&[0xc0 + rng.below(2) as u8], 1, rng),
        1 => with_tails(&[0xe0, 0x80 + rng.below(32) as u8], 1, rng),
        2 => with_tails(&[0xf0, 0x80 + rng.below(16) as u8], 2, rng),
        3 => with_tails(&[0xf8, 0x80 + rng.below(8) as u8], 3, rng),
        _ => with_tails(&[0xfc, 0x80 + rng.below(4) as u8], 4, rng),
    }
}

/// Four octets for a number above U+10FFFF, or more octets.
fn above(rng: &mut Rng) -> Vec<u8> {
    match rng.below(4) {
        0 | 1 => with_tails(&[0xf4, 0x90 + rng.below(48) as u8], 2, rng),
        2 => with_tails(&[0xf5 + rng.below(3) as u8], 3, rng),
        _ => with_tails(&[0xf8 + rng.below(4) as u8, 0x88 + rng.below(56) as u8], 3, rng),
    }
}

/// A character that has tails.
fn long(rng: &mut Rng) -> Vec<u8> {
    let [first, last] = *rng.pick(&CLASSES[1..]);
    let character = *rng.pick(&[first, last]);
    character.encode_utf8(&mut [0; 4]).as_bytes().to_vec()
}

fn cut_off(rng: &mut Rng) -> Vec<u8> {
    let mut octets = long(rng);
    octets.truncate(1 + rng.below(octets.len() - 1));
    octets
}

/// An octet that is no tail in the place of one.
fn wrong_tail(rng: &mut Rng) -> Vec<u8> {
    let mut octets = long(rng);
    let at = 1 + rng.below(octets.len() - 1);
    octets[at] = *rng.pick(&[0, 0x3f, 0x40, 0x7f, 0xc0, 0xc2, 0xff]);
    octets
}

/// One in three is no text.
fn name(rng: &mut Rng) -> Vec<u8> {
    let size = *rng.pick(&SIZES);
    match rng.below(3) {
        0 => spoiled(size, rng),
        _ => text(size, rng),
    }
}

/// One to three peer tables, perhaps with other records between.
pub fn tables(rng: &mut Rng) -> Vec<u8> {
    let mut dump = Vec::new();
    for _ in 0..1 + rng.below(3) {
        let name = name(rng);
        dump.extend(table(&name, rng));
        if rng.below(3) == 0 {
            let mut maker = Maker::new(rng, 0);
            maker.change();
            dump.extend(maker.into_octets());
        }
    }
    dump
}

/// The peer count, or another one; among these some that start like the tails of a character.
fn told(count: usize, rng: &mut Rng) -> usize {
    match rng.below(12) {
        0 => *rng.pick(&[0x8080, 0x9f9f, 0xbfbf]),
        1 => count ^ 1,
        _ => count,
    }
}

/// A peer table with this name. Of one in four the message ends inside the name, right behind it
/// or inside the peer count, or has an octet more, or the count is another one.
fn table(name: &[u8], rng: &mut Rng) -> Vec<u8> {
    let count = rng.below(4);
    let mut maker = Maker::new(rng, 0);
    (0..count).for_each(|_| maker.peer());
    let peers = maker.into_octets();
    let told = told(count, rng);
    let head = [&rng.octets(4)[..], &(name.len() as u16).to_be_bytes()].concat();
    let mut message = [&head, name, &(told as u16).to_be_bytes(), &peers].concat();
    let behind = head.len() + name.len();
    match rng.below(26) {
        0 => message.truncate(head.len() + rng.below(name.len() + 1)),
        1 => message.truncate(behind.saturating_sub(1)),
        2 => message.truncate(behind),
        3 => message.truncate(behind + 1),
        4 => message.push(tail(rng)),
        _ => {}
    }
    let length = (message.len() as u32).to_be_bytes();
    [&rng.octets(4)[..], &[0, 13, 0, 1], &length, &message].concat()
}

#[cfg(test)]
mod tests {
    use super::{piece, spoiled, text, SIZES};
    use second::vectors::rng::Rng;

    fn is_text(octets: &[u8]) -> bool {
        std::str::from_utf8(octets).is_ok()
    }

    #[test]
    fn text_is_text_of_its_size() {
        let mut rng = Rng::seeded(1);
        for _ in 0..2_000 {
            for size in SIZES {
                let name = text(size, &mut rng);
                assert!(name.len() == size && is_text(&name), "{name:02x?}");
            }
        }
    }

    /// And of its size, where that is not less than the piece's.
    #[test]
    fn spoiled_text_is_none() {
        let mut rng = Rng::seeded(2);
        for _ in 0..2_000 {
            for size in SIZES {
                let name = spoiled(size, &mut rng);
                assert!(!is_text(&name), "{name:02x?}");
                assert!(name.len() == size || size < 7, "{size}: {name:02x?}");
            }
        }
    }

    /// Characters of every size stand in text, and pieces of every kind are made.
    #[test]
    fn all_sorts_are_made() {
        let (mut rng, mut sizes, mut firsts) = (Rng::seeded(3), [0; 5], [0; 9]);
        for _ in 0..2_000 {
            let name = String::from_utf8(text(33, &mut rng)).unwrap();
            name.chars().for_each(|character| sizes[character.len_utf8()] += 1);
            firsts[piece(&mut rng)[0].leading_ones() as usize] += 1;
        }
        assert!(sizes[1..].iter().all(|count| *count > 1_000), "{sizes:?}");
        assert!(firsts[1..].iter().all(|count| *count > 10), "{firsts:?}");
    }
}

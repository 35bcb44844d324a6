//! What passes as text, held against the standard library's own answer and
//! against RFC 3629's table and grammar.

use second::fault::Fault;
use second::text::judge;
use second::vectors::rng::Rng;

fn passes(octets: &[u8]) -> bool {
    match judge(octets) {
        Ok(()) => true,
        Err(fault) => {
            assert_eq!(fault.number(), 17);
            false
        }
    }
}

/// The answer, which must be the standard library's too.
fn agreed(octets: &[u8]) -> bool {
    let answer = passes(octets);
    assert_eq!(answer, std::str::from_utf8(octets).is_ok(), "{octets:02x?}");
    answer
}

fn all() -> std::ops::RangeInclusive<u8> {
    0..=255
}

/// Where any bound of RFC 3629's grammar lies, on both sides.
const EDGES: [u8; 14] =
    [0, 0x41, 0x7f, 0x80, 0x8f, 0x90, 0x9f, 0xa0, 0xbf, 0xc0, 0xc2, 0xe1, 0xf1, 0xff];

#[test]
fn up_to_two_octets() {
    assert!(agreed(&[]));
    let good = all().filter(|one| agreed(&[*one])).count();
    assert_eq!(good, 128);
    let pairs = all().flat_map(|one| all().map(move |two| [one, two]));
    // Two of ASCII, or one of U+80 to U+7FF.
    assert_eq!(pairs.filter(|pair| agreed(pair)).count(), 128 * 128 + 0x780);
}

#[test]
fn three_octets() {
    let mut good = 0;
    for one in all() {
        for two in all() {
            good += all().filter(|three| agreed(&[one, two, *three])).count();
        }
    }
    // All of ASCII, one of two octets before or behind it, and U+800 to U+FFFF without surrogates.
    assert_eq!(good, 128 * 128 * 128 + 2 * 128 * 0x780 + 0xf800 - 0x800);
}

#[test]
fn four_octets_at_the_edges() {
    let mut good = 0;
    for one in all() {
        for two in all() {
            for three in EDGES {
                good += EDGES.iter().filter(|four| agreed(&[one, two, three, **four])).count();
            }
        }
    }
    assert!(good > 0);
}

/// Every character there is, and what is left of it without its last octets.
#[test]
fn every_character() {
    for character in '\0'..=char::MAX {
        let mut room = [0; 4];
        let octets = character.encode_utf8(&mut room).as_bytes();
        assert!(passes(octets), "{character:?}");
        assert!((1..octets.len()).all(|size| !passes(&octets[..size])), "{character:?}");
    }
}

/// A number in the form of so many octets, fit or not.
fn laid_out(number: u32, size: usize) -> Vec<u8> {
    let mark = [0, 0, 0xc0, 0xe0, 0xf0, 0xf8, 0xfc][size];
    let tails = (0..size - 1).rev().map(|place| 0x80 | (number >> (6 * place) & 0x3f) as u8);
    std::iter::once(mark | (number >> (6 * (size - 1))) as u8).chain(tails).collect()
}

/// A form that is longer than it needs to be never passes.
#[test]
fn overlong_forms() {
    for (size, bound) in [(2, 0x80), (3, 0x800), (4, 0x1_0000), (5, 0x20_0000), (6, 0x20_0000)] {
        for number in (0..bound).chain([bound]) {
            let octets = laid_out(number, size);
            assert_eq!(passes(&octets), number == bound && size < 5, "{octets:02x?}");
        }
    }
}

#[test]
fn surrogates_and_beyond() {
    for number in 0xd7ff..=0xe000 {
        let is_surrogate = (0xd800..=0xdfff).contains(&number);
        assert_eq!(passes(&laid_out(number, 3)), !is_surrogate, "{number:x}");
    }
    // A pair of UTF-16, each half laid out by itself.
    assert!(!passes(&[0xed, 0xa0, 0x80, 0xed, 0xb0, 0x80]));
    for number in 0x10_ff00..0x20_0000 {
        assert_eq!(passes(&laid_out(number, 4)), number <= 0x10_ffff, "{number:x}");
    }
}

/// What a stricter reader might refuse.
#[test]
fn text_of_all_kinds_passes() {
    assert!(passes(&[]));
    assert!(passes(&[0]));
    assert!(passes("\u{feff}desk".as_bytes()));
    assert!(passes("\u{ffff}\u{fffe}\u{10ffff}\u{fdd0}".as_bytes()));
    assert!(passes("e\u{301}\u{7}\u{202e}\n".as_bytes()));
}

/// Long text of characters of every size, with an octet changed, put in or taken out.
#[test]
fn long_text_with_slips() {
    let mut rng = Rng::seeded(3629);
    let mut good = 0;
    for _ in 0..200_000 {
        let mut octets = text(&mut rng);
        let at = rng.below(octets.len());
        match rng.below(4) {
            0 => octets[at] = *rng.pick(&EDGES),
            1 => octets.insert(at, *rng.pick(&EDGES)),
            2 => drop(octets.remove(at)),
            _ => octets.truncate(at),
        }
        good += u32::from(agreed(&octets));
    }
    assert!((20_000..180_000).contains(&good), "{good}");
}

fn text(rng: &mut Rng) -> Vec<u8> {
    let mut text = String::new();
    for _ in 0..1 + rng.below(12) {
        let (first, end) =
            *rng.pick(&[(0, 0x80), (0x80, 0x800), (0x800, 0xd800), (0x1_0000, 0x11_0000)]);
        let number = first + rng.below((end - first) as usize) as u32;
        text.push(char::from_u32(number).expect("no surrogate"));
    }
    text.into_bytes()
}

#[test]
fn the_fault_has_the_number_of_document_02() {
    assert_eq!(judge(&[0x80]), Err(Fault::NameNotText));
    assert_eq!(Fault::NameNotText.number(), 17);
}

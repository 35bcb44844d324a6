//! View names about RFC 3629's bounds, under names that are their octets.

/// A name, or a piece of one, and its octets in hexadecimal.
pub struct Piece {
    pub label: String,
    pub octets: Vec<u8>,
}

impl Piece {
    fn of(octets: &[u8]) -> Piece {
        let digits: Vec<String> = octets.iter().map(|octet| format!("{octet:02x}")).collect();
        Piece { label: digits.join("-"), octets: octets.to_vec() }
    }
}

fn pieces(all: &[&[u8]]) -> Vec<Piece> {
    all.iter().map(|octets| Piece::of(octets)).collect()
}

/// The first and the last sequence of every line of RFC 3629's grammar, and
/// U+FEFF, which some readers take for a mark before the text.
pub fn good() -> Vec<Piece> {
    pieces(&[
        &[0x00],
        &[0x7f],
        &[0xc2, 0x80],
        &[0xdf, 0xbf],
        &[0xe0, 0xa0, 0x80],
        &[0xe0, 0xbf, 0xbf],
        &[0xe1, 0x80, 0x80],
        &[0xec, 0xbf, 0xbf],
        &[0xed, 0x80, 0x80],
        &[0xed, 0x9f, 0xbf],
        &[0xee, 0x80, 0x80],
        &[0xef, 0xbb, 0xbf],
        &[0xef, 0xbf, 0xbf],
        &[0xf0, 0x90, 0x80, 0x80],
        &[0xf0, 0xbf, 0xbf, 0xbf],
        &[0xf1, 0x80, 0x80, 0x80],
        &[0xf3, 0xbf, 0xbf, 0xbf],
        &[0xf4, 0x80, 0x80, 0x80],
        &[0xf4, 0x8f, 0xbf, 0xbf],
    ])
}

/// All octets that their first one asks for, but no character: a tail first,
/// overlong, surrogates and a pair of them, above U+10FFFF, and first octets
/// that no sequence has.
pub fn outside() -> Vec<Piece> {
    pieces(&[
        &[0x80],
        &[0xbf],
        &[0xc0, 0x80],
        &[0xc0, 0xaf],
        &[0xc1, 0xbf],
        &[0xe0, 0x80, 0x80],
        &[0xe0, 0x9f, 0xbf],
        &[0xed, 0xa0, 0x80],
        &[0xed, 0xbf, 0xbf],
        &[0xed, 0xa0, 0x80, 0xed, 0xb0, 0x80],
        &[0xf0, 0x80, 0x80, 0x80],
        &[0xf0, 0x8f, 0xbf, 0xbf],
        &[0xf4, 0x90, 0x80, 0x80],
        &[0xf5],
        &[0xf5, 0x80, 0x80, 0x80],
        &[0xf7, 0xbf, 0xbf, 0xbf],
        &[0xf8, 0x88, 0x80, 0x80, 0x80],
        &[0xfc, 0x84, 0x80, 0x80, 0x80, 0x80],
        &[0xfe],
        &[0xff],
    ])
}

/// One good sequence for each line of the grammar that has tails.
const WITH_TAILS: [&[u8]; 8] = [
    &[0xc2, 0x80],
    &[0xe0, 0xa0, 0x80],
    &[0xe1, 0x80, 0x80],
    &[0xed, 0x9f, 0xbf],
    &[0xef, 0xbf, 0xbf],
    &[0xf0, 0x90, 0x80, 0x80],
    &[0xf3, 0xbf, 0xbf, 0xbf],
    &[0xf4, 0x8f, 0xbf, 0xbf],
];

/// Good sequences without their last tail, their last two, and so on.
pub fn cut_off() -> Vec<Piece> {
    let shorter = |octets: &&'static [u8]| {
        let octets = *octets;
        (1..octets.len()).map(move |size| Piece::of(&octets[..size]))
    };
    WITH_TAILS.iter().flat_map(shorter).collect()
}

/// A good sequence of each size, and a tail behind it.
pub fn tail_too_many() -> Vec<Piece> {
    pieces(&[
        &[0x7f, 0x80],
        &[0xdf, 0xbf, 0xbf],
        &[0xe1, 0x80, 0x80, 0x80],
        &[0xf1, 0x80, 0x80, 0x80, 0x80],
    ])
}

/// In the place of each tail the octet before the least and the one behind the
/// largest that a tail can be.
pub fn wrong_tail() -> Vec<Piece> {
    let mut all = Vec::new();
    for octets in WITH_TAILS {
        for place in 1..octets.len() {
            for wrong in [0x7f, 0xc0] {
                let mut octets = octets.to_vec();
                octets[place] = wrong;
                all.push(Piece::of(&octets));
            }
        }
    }
    all
}

/// Every kind of piece that no text has anywhere, by what is wrong.
pub fn bad() -> Vec<(&'static str, Vec<Piece>)> {
    vec![
        ("outside", outside()),
        ("cut-off", cut_off()),
        ("tail-more", tail_too_many()),
        ("wrong-tail", wrong_tail()),
    ]
}

/// Characters of one, two, three and four octets.
pub const MIXED: &str = "r\u{e9}\u{4e2d}\u{1f600}";

/// Characters of every size, most of them at an end of one.
const CHARACTERS: &str = "az\0\u{7f}\u{80}\u{e9}\u{7ff}\u{800}\u{4e2d}\u{d7ff}\
                          \u{e000}\u{feff}\u{ffff}\u{10000}\u{1f600}\u{10ffff}";

/// Text in the place of chance octets: each picks a character, so that no more
/// has to be drawn than for the octets.
pub fn text(chance: &[u8]) -> Vec<u8> {
    let characters: Vec<char> = CHARACTERS.chars().collect();
    let picked = chance.iter().map(|octet| characters[usize::from(*octet) % characters.len()]);
    picked.collect::<String>().into_bytes()
}

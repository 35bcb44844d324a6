//! A view name that is no text, shown so that a person sees which octets are in the way.

use crate::escaped;
use std::str;

/// Of a long name, as many characters are shown before the first octet that is not text, and as
/// many from there on.
const SHOWN: usize = 40;

/// The octets of the name's length, which stand right before it.
const LENGTH: usize = 2;

/// The words for the name at `place`; none if it is text, or not there.
pub fn told(dump: &[u8], place: usize) -> Option<String> {
    let name = name(dump, place)?;
    let good = str::from_utf8(name).err()?.valid_up_to();
    let (shown, size, at) = (shown(name, good), name.len(), place + good);
    Some(format!(
        "The name is {shown}, {size} octet(s); the first that is not text is at octet {at} \
         (0x{at:x})."
    ))
}

fn name(dump: &[u8], place: usize) -> Option<&[u8]> {
    let length = dump.get(place.checked_sub(LENGTH)?..)?;
    let size = length.first_chunk().copied().map(u16::from_be_bytes)?;
    length.get(LENGTH..)?.get(..size.into())
}

/// In quotation marks; dots stand for what is left out. The first `good` octets are text.
fn shown(name: &[u8], good: usize) -> String {
    let (before, rest) = (pieces(&name[..good]), pieces(&name[good..]));
    let (from, to) = (before.len().saturating_sub(SHOWN), rest.len().min(SHOWN));
    let dots = |left_out| if left_out { "..." } else { "" };
    let (earlier, later) = (dots(from > 0), dots(to < rest.len()));
    format!("{earlier}\"{}{}\"{later}", before[from..].concat(), rest[..to].concat())
}

/// Marks as those around the name are spelled out.
fn pieces(name: &[u8]) -> Vec<String> {
    escaped::pieces(name).iter().map(|piece| piece.replace('"', "\\\"")).collect()
}

#[cfg(test)]
mod tests {
    use super::*;

    /// Where the name stands in the dumps here.
    const NAME: usize = 23;

    /// A name with its length, and other octets before and behind.
    fn dump(name: &[u8]) -> Vec<u8> {
        let mut dump = vec![0xff; NAME - LENGTH];
        dump.extend((name.len() as u16).to_be_bytes());
        dump.extend(name);
        dump.extend([0, 0]);
        dump
    }

    fn told_of(name: &[u8]) -> String {
        told(&dump(name), NAME).unwrap()
    }

    #[test]
    fn the_first_bad_octet_is_named() {
        let words = told_of("Zürich caf\u{e9}".as_bytes().strip_suffix(&[0xa9]).unwrap());
        let expected = "The name is \"Zürich caf\\xC3\", 12 octet(s); \
                        the first that is not text is at octet 34 (0x22).";
        assert_eq!(words, expected);
        assert!(told_of(b"\xe9").starts_with("The name is \"\\xE9\", 1 octet(s); "));
        assert!(told_of(b"a\xf0\x80\x80\x80b").contains("\"a\\xF0\\x80\\x80\\x80b\""));
        assert!(told_of(b"\xed\xa0\x80").ends_with(" at octet 23 (0x17)."));
    }

    #[test]
    fn nothing_is_obeyed_by_a_terminal() {
        let words = told_of(b"\0\n\x1b[2J\x7f\x9b\xc2\x9b\xe2\x80\xae\"\\\xff");
        assert!(!words.contains(char::is_control), "{words:?}");
        let name = r#""\0\n\u{1b}[2J\u{7f}\x9B\u{9b}\u{202e}\"\\\xFF""#;
        assert!(words.contains(name), "{words}");
    }

    #[test]
    fn of_a_long_name_the_bad_octet_is_shown() {
        let name = ["é".repeat(30_000).as_bytes(), b"\xff", &[b'z'; 5_000]].concat();
        let words = told_of(&name);
        let (before, behind) = ("é".repeat(SHOWN), "z".repeat(SHOWN - 1));
        assert!(words.contains(&format!(" ...\"{before}\\xFF{behind}\"..., 65001 ")), "{words}");
        assert!(words.contains(&format!(" at octet {} ", NAME + 60_000)), "{words}");
        let short = [&[b'a'; SHOWN][..], &[0xff; SHOWN]].concat();
        assert!(!told_of(&short).contains("..."));
    }

    #[test]
    fn what_is_text_or_not_there_is_not_told() {
        let whole = dump("Zürich \u{ffff}\0".as_bytes());
        assert_eq!(told(&whole, NAME), None);
        let whole = dump(b"\xff");
        assert!(told(&whole, NAME).is_some());
        for size in 0..NAME + 1 {
            assert_eq!(told(&whole[..size], NAME), None);
        }
        assert!([0, 1, usize::MAX].iter().all(|place| told(&whole, *place).is_none()));
    }
}

//! Lists of AS numbers or addresses that a person keeps in a file.

use crate::escaped;
use crate::input::Source;
use crate::memory::{self, Unread};
use crate::stop::Stop;
use std::fmt::Display;

/// No list that a person keeps is longer.
const LONGEST: u64 = 1_000_000_000;

/// Of a line that is no item, as many characters are shown.
const SHOWN: usize = 40;

/// The items of a list: one a line, with blank lines and comments from # on. `item` reads one, or
/// says what is wrong with it.
pub fn read<T>(source: &Source, item: fn(&str) -> Result<T, String>) -> Result<Vec<T>, Stop> {
    let stop = |error: &dyn Display| Stop::reading(source.name(), error);
    let mut file = source.open().map_err(|error| stop(&error))?;
    let mut octets = Vec::new();
    memory::append(&mut octets, &mut file, LONGEST, |_| {}).map_err(|unread| match unread {
        Unread::Limit(_) => stop(&"it is too long for a list"),
        _ => stop(&unread),
    })?;
    parse(&octets, item).map_err(|words| stop(&words))
}

fn parse<T>(octets: &[u8], item: fn(&str) -> Result<T, String>) -> Result<Vec<T>, String> {
    if octets.starts_with(b"\xff\xfe") || octets.starts_with(b"\xfe\xff") {
        return Err("it is UTF-16 text; save it as UTF-8".to_string());
    }
    let octets = octets.strip_prefix(b"\xef\xbb\xbf").unwrap_or(octets);
    let mut items = Vec::new();
    for (index, line) in octets.split(|octet| *octet == b'\n').enumerate() {
        let word = line.split(|octet| *octet == b'#').next().unwrap_or_default().trim_ascii();
        if word.is_empty() {
            continue;
        }
        let found = std::str::from_utf8(word).map_err(|_| "is no text in UTF-8".to_string());
        let found = found.and_then(item);
        let found = found.map_err(|words| format!("line {}: '{}' {words}", index + 1, cited(word)));
        items.try_reserve(1).map_err(|error| error.to_string())?;
        items.push(found?);
    }
    Ok(items)
}

/// As much of a line as is worth showing: somebody may have named a file that is no list.
fn cited(word: &[u8]) -> String {
    let pieces = escaped::pieces(&word[..word.len().min(4 * SHOWN)]);
    match pieces.len() {
        ..=SHOWN => pieces.concat(),
        _ => pieces[..SHOWN].concat() + "...",
    }
}

#[cfg(test)]
mod tests {
    use super::*;
    use crate::as_number;

    fn numbers(octets: &[u8]) -> Result<Vec<u32>, String> {
        parse(octets, as_number::parse)
    }

    #[test]
    fn one_a_line() {
        let text = b"# not agreed\n64500\n\n  AS64501 # by mail\r\n1.10\n#64999\n64502";
        assert_eq!(numbers(text), Ok(vec![64_500, 64_501, 65_546, 64_502]));
        for text in [&b""[..], b"\n", b"\r\n", b"# nobody", b"\xef\xbb\xbf"] {
            assert_eq!(numbers(text), Ok(vec![]));
        }
    }

    #[test]
    fn as_other_systems_write_it() {
        assert_eq!(numbers(b"\xef\xbb\xbf64500\r\n64501\r\n"), Ok(vec![64_500, 64_501]));
        // A comment in Latin-1 harms nobody.
        assert_eq!(numbers(b"64500 # Z\xfcrich\n"), Ok(vec![64_500]));
        for text in [&b"\xff\xfe6\x004\x00"[..], b"\xfe\xff\x006\x004"] {
            assert!(numbers(text).unwrap_err().contains("save it as UTF-8"));
        }
    }

    #[test]
    fn a_bad_line_is_named() {
        for (text, line) in [
            (&b"64500\n64501 64502\n"[..], "line 2: '64501 64502' is no AS number"),
            (b"\n\nAS\n", "line 3: 'AS' is"),
            (b"\xff\n", "line 1: '\\xFF' is no text"),
            (b"1\n\xef\xbb\xbf64500\n", "line 2: '\\u{feff}64500' is"),
            (b"64500\r64501\n", "line 1: '64500\\r64501' is"),
            (b"\x1b[2J\n", "line 1: '\\u{1b}[2J' is"),
        ] {
            let words = numbers(text).unwrap_err();
            assert!(words.starts_with(line), "{words}");
        }
        let words = numbers(&[b'x'; 1_000_000]).unwrap_err();
        assert!(words.starts_with(&format!("line 1: '{}...' is no", "x".repeat(40))), "{words}");
        let words = numbers("é".repeat(SHOWN).as_bytes()).unwrap_err();
        assert!(!words.contains("..."), "{words}");
    }
}

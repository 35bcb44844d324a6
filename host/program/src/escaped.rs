//! Names and words that others chose, as they are shown: a terminal would obey control characters,
//! so they are spelled out.

use std::os::unix::ffi::OsStrExt;
use std::path::Path;

pub fn path(path: &Path) -> String {
    octets(path.as_os_str().as_bytes())
}

pub fn text(text: &str) -> String {
    octets(text.as_bytes())
}

pub fn octets(octets: &[u8]) -> String {
    pieces(octets).concat()
}

/// One piece for each character and for each octet that belongs to none.
pub fn pieces(octets: &[u8]) -> Vec<String> {
    let mut pieces = Vec::new();
    for chunk in octets.utf8_chunks() {
        pieces.extend(chunk.valid().chars().map(letter));
        pieces.extend(chunk.invalid().iter().map(|octet| format!("\\x{octet:02X}")));
    }
    pieces
}

/// Quotation marks harm nobody.
fn letter(letter: char) -> String {
    match letter {
        '\'' | '"' => letter.to_string(),
        _ => letter.escape_debug().to_string(),
    }
}

#[cfg(test)]
mod tests {
    use super::*;
    use std::ffi::OsStr;

    #[test]
    fn what_can_be_shown_stays_as_it_is() {
        for name in ["", "a.mrt", "Zürich's \"dump\" 1.gz", "東京/updates"] {
            assert_eq!(text(name), name);
            assert_eq!(path(Path::new(name)), name);
        }
    }

    #[test]
    fn nothing_is_obeyed_by_a_terminal() {
        let name = OsStr::from_bytes(b"a\nb\x1b[2J\x07\xe9\xc2\x9b\xe2\x80\xae\\");
        let shown = path(Path::new(name));
        assert_eq!(shown, r"a\nb\u{1b}[2J\u{7}\xE9\u{9b}\u{202e}\\");
        assert!(!shown.contains(char::is_control));
    }
}

//! Words broken into lines that fit a terminal.

/// A narrower terminal breaks the lines itself: nothing could be read there anyway.
const NARROWEST: usize = 40;

/// How far the second and later lines of a paragraph stand behind its first.
const INDENT: usize = 2;

/// Breaks lines at blanks so that they fit `width` columns. A line with two blanks side by side has
/// columns that must stay below those of other lines: it is left alone. Long words are not broken.
pub fn wrapped(text: &str, width: usize) -> String {
    let width = width.max(NARROWEST);
    let lines: Vec<String> = text.split('\n').map(|line| wrapped_line(line, width)).collect();
    lines.join("\n")
}

fn wrapped_line(line: &str, width: usize) -> String {
    let words = line.trim_start_matches(' ');
    if line.chars().count() <= width || has_columns(words) {
        return line.to_string();
    }
    // What has an indent stands below a paragraph's first line already.
    let first = line.len() - words.len();
    let later = if first == 0 { INDENT } else { first };
    let (mut text, mut column) = (" ".repeat(first), first);
    let mut is_first = true;
    for word in words.split(' ') {
        let size = word.chars().count();
        if is_first {
            column += size;
        } else if column + 1 + size <= width {
            text.push(' ');
            column += 1 + size;
        } else {
            text.push('\n');
            text.push_str(&" ".repeat(later));
            column = later + size;
        }
        text.push_str(word);
        is_first = false;
    }
    text
}

/// A row of octets in hexadecimal may have a mark in place of its second blank.
fn has_columns(words: &str) -> bool {
    let is_of_row = |c: char| c.is_ascii_hexdigit() || " |[]-".contains(c);
    words.contains("  ") || words.chars().all(is_of_row)
}

#[cfg(test)]
mod tests {
    use super::*;

    #[test]
    fn a_paragraph_is_broken_at_blanks() {
        let text = "dagsumilat: aaaa bbbb cccc dddd eeee ffff gggg hhhh iiii jjjj kkkk";
        let lines = "dagsumilat: aaaa bbbb cccc dddd eeee\n  ffff gggg hhhh iiii jjjj kkkk";
        assert_eq!(wrapped(text, 40), lines);
        assert_eq!(wrapped(text, 66), text);
        assert_ne!(wrapped(text, 65), text);
        assert_eq!(wrapped("", 40), "");
    }

    #[test]
    fn an_indent_is_kept() {
        let text = "short\n  Often: aaaa bbbb cccc dddd eeee ffff gggg\n  To do: x";
        let lines = "short\n  Often: aaaa bbbb cccc dddd eeee ffff\n  gggg\n  To do: x";
        assert_eq!(wrapped(text, 40), lines);
    }

    #[test]
    fn columns_and_long_words_are_left_alone() {
        let row = "    00000020 |00 00 00 01 00 10 00 00 00 00 00 14 fb f4 fb ff";
        assert_eq!(wrapped(row, 40), row);
        let missing = format!("{row}[--]");
        assert_eq!(wrapped(&missing, 40), missing);
        let table = "  RIB entries                 1             2";
        assert_eq!(wrapped(table, 40), table);
        let long = "x".repeat(100);
        assert_eq!(wrapped(&format!("ab {long} cd"), 40), format!("ab\n  {long}\n  cd"));
    }

    #[test]
    fn letters_are_counted_and_not_octets() {
        let text = format!("{} {}", "é".repeat(20), "ü".repeat(19));
        assert_eq!(wrapped(&text, 40), text);
    }

    #[test]
    fn a_terminal_of_no_width_is_taken_as_narrow() {
        let text = format!("{} y z", "x".repeat(38));
        assert_eq!(wrapped(&text, 0), format!("{} y\n  z", "x".repeat(38)));
    }
}

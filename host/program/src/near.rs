//! The word that a mistyped one was probably meant to be.

/// With more slips than this a hint would be a guess.
const MOST: usize = 2;

/// The nearest of these words, the first of them if there are several: at most two slips away, and
/// fewer than half of the word's letters. A slip is a letter too many, too few or wrong, or two
/// neighbours swapped.
pub fn nearest<'a>(word: &str, words: &[&'a str]) -> Option<&'a str> {
    let length = word.chars().count();
    let slips = words.iter().map(|other| (slips(word, other), *other));
    let near = slips.filter(|(slips, _)| *slips <= MOST && slips * 2 < length);
    near.min_by_key(|(slips, _)| *slips).map(|(_, other)| other)
}

/// How many slips lead from one word to the other, no letter being touched twice.
fn slips(one: &str, other: &str) -> usize {
    let other: Vec<char> = other.chars().collect();
    let mut last: Option<(char, Vec<usize>)> = None;
    let mut row: Vec<usize> = (0..=other.len()).collect();
    for letter in one.chars() {
        let next = next_row(letter, &other, &row, last.as_ref());
        last = Some((letter, std::mem::replace(&mut row, next)));
    }
    row[other.len()]
}

/// The slips from what has been taken of one word, with this letter, to each beginning of the other.
/// The row before is that without the letter, and the one before that also without the last letter.
fn next_row(
    letter: char,
    other: &[char],
    before: &[usize],
    last: Option<&(char, Vec<usize>)>,
) -> Vec<usize> {
    let mut row = vec![before[0] + 1];
    for (at, found) in other.iter().enumerate() {
        let changed = before[at] + usize::from(*found != letter);
        let least = changed.min(before[at + 1] + 1).min(row[at] + 1);
        row.push(swapped(letter, other, at, last).map_or(least, |swapped| swapped.min(least)));
    }
    row
}

/// The slips if this letter and the last one are the other word's two letters up to `at`, swapped.
fn swapped(
    letter: char,
    other: &[char],
    at: usize,
    last: Option<&(char, Vec<usize>)>,
) -> Option<usize> {
    let (last, before) = last?;
    let start = at.checked_sub(1)?;
    (other[start] == letter && other[at] == *last).then(|| before[start] + 1)
}

#[cfg(test)]
mod tests {
    use super::*;

    const COMMANDS: [&str; 7] = ["list", "check", "peers", "report", "cut", "help", "version"];

    #[test]
    fn slips_are_counted() {
        let cases = [
            ("", "", 0),
            ("", "cut", 3),
            ("cut", "cut", 0),
            ("cut", "ut", 1),
            ("cut", "cuts", 1),
            ("cut", "cat", 1),
            ("cut", "ctu", 1),
            ("cut", "uct", 1),
            ("cut", "tuc", 2),
            ("report", "erpotr", 2),
            ("ca", "abc", 3),
            ("kitten", "sitting", 3),
            ("é", "e", 1),
        ];
        for (one, other, expected) in cases {
            assert_eq!(slips(one, other), expected, "{one} to {other}");
            assert_eq!(slips(other, one), expected, "{other} to {one}");
        }
    }

    #[test]
    fn mistyped_words_have_a_nearest() {
        let cases = [
            ("lst", "list"),
            ("lsit", "list"),
            ("chekc", "check"),
            ("peer", "peers"),
            ("reprot", "report"),
            ("repport", "report"),
            ("ctu", "cut"),
            ("cutt", "cut"),
            ("hlep", "help"),
            ("cut", "cut"),
        ];
        for (word, expected) in cases {
            assert_eq!(nearest(word, &COMMANDS), Some(expected), "{word}");
        }
        assert_eq!(nearest("--mtue", &["--from", "--mute", "--mute-file"]), Some("--mute"));
        assert_eq!(nearest("--mut-file", &["--mute", "--mute-file"]), Some("--mute-file"));
    }

    #[test]
    fn other_words_have_none() {
        for word in ["", "c", "cu", "slice", "lost+found", "rep", "dump.mrt"] {
            assert_eq!(nearest(word, &COMMANDS), None, "{word}");
        }
        assert_eq!(nearest("list", &[]), None);
    }
}

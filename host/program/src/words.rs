//! The words of a command line: options with and without values, and operands.

use std::collections::VecDeque;
use std::ffi::{OsStr, OsString};
use std::os::unix::ffi::{OsStrExt, OsStringExt};

#[derive(Debug, PartialEq, Eq)]
pub enum Word {
    /// As it is written, --name or -n, without its value.
    Option(String),
    Operand(OsString),
}

/// Takes words off the front of a command line.
pub struct Words {
    rest: VecDeque<OsString>,
    /// What stands behind an option in the same word.
    attached: Option<Attached>,
    only_operands: bool,
}

enum Attached {
    /// --name=value
    Value(OsString),
    /// -nrest: a value, or more options of one letter.
    Rest(OsString),
}

impl Words {
    pub fn new(words: impl IntoIterator<Item = OsString>) -> Words {
        Words { rest: words.into_iter().collect(), attached: None, only_operands: false }
    }

    /// The words that are left, as they were given.
    pub fn given(&self) -> Vec<OsString> {
        self.rest.iter().cloned().collect()
    }

    /// The next option or operand. An option's value is to be taken before, by [`Words::value`].
    pub fn next(&mut self, last: &str) -> Result<Option<Word>, String> {
        match self.attached.take() {
            Some(Attached::Value(_)) => return Err(format!("{last} takes no value")),
            Some(Attached::Rest(letters)) => {
                let mut word = OsString::from("-");
                word.push(letters);
                self.rest.push_front(word);
            }
            None => {}
        }
        let Some(word) = self.rest.pop_front() else {
            return Ok(None);
        };
        if self.only_operands || word == "-" || !word.as_bytes().starts_with(b"-") {
            return Ok(Some(Word::Operand(word)));
        }
        if word == "--" {
            self.only_operands = true;
            return self.next(last);
        }
        Ok(Some(Word::Option(self.split(&word))))
    }

    /// The option's name; what stands behind it is kept for later.
    fn split(&mut self, word: &OsStr) -> String {
        let octets = word.as_bytes();
        let owned = |octets: &[u8]| OsString::from_vec(octets.to_vec());
        let end = if octets.starts_with(b"--") {
            let end = octets.iter().position(|octet| *octet == b'=').unwrap_or(octets.len());
            self.attached = octets.get(end + 1..).map(owned).map(Attached::Value);
            end
        } else {
            let letter = word.to_string_lossy().chars().nth(1).map_or(1, char::len_utf8);
            let end = octets.len().min(1 + letter);
            let rest = Some(&octets[end..]).filter(|rest| !rest.is_empty());
            self.attached = rest.map(owned).map(Attached::Rest);
            end
        };
        String::from_utf8_lossy(&octets[..end]).into_owned()
    }

    /// The value of the option that was just taken: behind it, or the next word.
    pub fn value(&mut self, option: &str) -> Result<OsString, String> {
        match self.attached.take() {
            Some(Attached::Value(value) | Attached::Rest(value)) => Ok(value),
            None => self.rest.pop_front().ok_or_else(|| format!("{option} needs a value")),
        }
    }
}

#[cfg(test)]
mod tests {
    use super::*;

    fn words(line: &[&str]) -> Words {
        Words::new(line.iter().map(OsString::from))
    }

    fn option(name: &str) -> Result<Option<Word>, String> {
        Ok(Some(Word::Option(name.to_string())))
    }

    fn operand(name: &str) -> Result<Option<Word>, String> {
        Ok(Some(Word::Operand(name.into())))
    }

    #[test]
    fn values_in_the_word_and_behind_it() {
        let mut words = words(&["--from=5", "--to", "9", "-oclip", "-o", "-", "--mute=", "a"]);
        for (name, value) in
            [("--from", "5"), ("--to", "9"), ("-o", "clip"), ("-o", "-"), ("--mute", "")]
        {
            assert_eq!(words.next(""), option(name));
            assert_eq!(words.value(name), Ok(value.into()));
        }
        assert_eq!(words.next(""), operand("a"));
        assert_eq!(words.next(""), Ok(None));
    }

    #[test]
    fn letters_together() {
        let mut words = words(&["-qfoclip"]);
        assert_eq!(words.next(""), option("-q"));
        assert_eq!(words.next("-q"), option("-f"));
        assert_eq!(words.next("-f"), option("-o"));
        assert_eq!(words.value("-o"), Ok("clip".into()));
        assert_eq!(words.next("-o"), Ok(None));
    }

    #[test]
    fn operands_only_behind_two_dashes() {
        let mut words = words(&["-", "--", "-q", "--", "--from=5"]);
        for name in ["-", "-q", "--", "--from=5"] {
            assert_eq!(words.next(""), operand(name));
        }
        assert_eq!(words.next(""), Ok(None));
    }

    #[test]
    fn values_that_are_missing_or_too_many() {
        let mut words = words(&["--quiet=yes"]);
        assert_eq!(words.next(""), option("--quiet"));
        assert_eq!(words.next("--quiet"), Err("--quiet takes no value".to_string()));
        assert_eq!(words.value("--from"), Err("--from needs a value".to_string()));
    }

    #[test]
    fn letters_that_are_no_text() {
        let mut words = Words::new([OsString::from_vec(vec![b'-', 0xff, b'o'])]);
        assert!(matches!(words.next(""), Ok(Some(Word::Option(_)))));
    }
}

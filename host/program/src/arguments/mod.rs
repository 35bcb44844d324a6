//! From the command line to an order.

mod cut_words;
mod list_words;
mod reading_words;
mod window_words;

use crate::help;
use crate::input::{Reading, Source};
use crate::near;
use crate::output::Target;
use crate::period::Period;
use crate::words::{Word, Words};
use std::ffi::OsString;
use std::net::IpAddr;

/// What the program is asked to do.
#[derive(Debug, PartialEq, Eq)]
pub enum Request {
    /// To print a text.
    Text(&'static str),
    List(ListOrder),
    Check(Reading),
    Peers(Reading),
    Report(ReportOrder),
    Cut(Box<CutOrder>),
}

/// Records to be shown: all, or those of some peers and times.
#[derive(Debug, PartialEq, Eq)]
pub struct ListOrder {
    pub reading: Reading,
    pub long: bool,
    /// None: of all.
    pub peers: Vec<u32>,
    pub period: Period,
    /// What the order may not have been meant to say.
    pub doubts: Vec<String>,
}

/// Recordings to be counted together, each read by itself; as a table, or as lines for a program.
#[derive(Debug, PartialEq, Eq)]
pub struct ReportOrder {
    pub readings: Vec<Reading>,
    pub table: bool,
}

/// Items that are given one by one, and in files.
#[derive(Clone, Debug, PartialEq, Eq)]
pub struct Listed<T> {
    pub items: Vec<T>,
    pub files: Vec<Source>,
}

impl<T> Default for Listed<T> {
    fn default() -> Listed<T> {
        Listed { items: Vec::new(), files: Vec::new() }
    }
}

impl<T> Listed<T> {
    fn is_asked(&self) -> bool {
        !self.items.is_empty() || !self.files.is_empty()
    }
}

/// Whose routes do not go out.
#[derive(Clone, Debug, PartialEq, Eq)]
pub enum Whose {
    /// Those of these AS numbers, and of the AS numbers behind these addresses.
    Muted { numbers: Listed<u32>, addresses: Listed<IpAddr> },
    /// Everybody's but of these AS numbers.
    AllBut(Listed<u32>),
}

#[derive(Debug, PartialEq, Eq)]
pub struct CutOrder {
    pub reading: Reading,
    pub period: Period,
    pub whose: Whose,
    /// None only in a dry run.
    pub target: Option<Target>,
    /// Where the report goes that is kept with the clip.
    pub report: Option<Target>,
    pub is_dry: bool,
    pub is_strict: bool,
    pub is_forced: bool,
    pub is_quiet: bool,
    pub is_brief: bool,
    pub is_verbose: bool,
    /// What the order may not have been meant to say.
    pub doubts: Vec<String>,
    /// The words of the command line.
    pub given: Vec<OsString>,
}

/// Words for a person, and the command whose help may serve them.
pub type Misuse = (String, Option<&'static str>);

/// The commands that take FILEs.
const COMMANDS: [(&str, &str, Parser); 5] = [
    ("list", help::LIST, list_words::parse),
    ("check", help::CHECK, check),
    ("peers", help::PEERS, peers),
    ("report", help::REPORT, report),
    ("cut", help::CUT, cut_words::parse),
];

type Parser = fn(&mut Words) -> Result<Request, Refused>;

/// Why the words of a command are no order.
enum Refused {
    /// They ask for help, which comes first.
    Help,
    Misuse(String),
    Unknown(String),
}

impl<T: Into<String>> From<T> for Refused {
    fn from(words: T) -> Refused {
        Refused::Misuse(words.into())
    }
}

pub fn parse(words: impl IntoIterator<Item = OsString>) -> Result<Request, Misuse> {
    let mut words = Words::new(words);
    match words.next("").map_err(|error| (error, None))? {
        None => Err(("which command?".to_string(), None)),
        Some(Word::Option(option)) => top_option(&option).map_err(|error| (error, None)),
        Some(Word::Operand(name)) => command(&name.to_string_lossy(), &mut words),
    }
}

fn top_option(option: &str) -> Result<Request, String> {
    match option {
        "-h" | "--help" => Ok(Request::Text(help::PROGRAM)),
        "-V" | "--version" => Ok(Request::Text(help::VERSION)),
        _ => Err(unknown("option", option, &["--help", "--version"])),
    }
}

fn command(name: &str, words: &mut Words) -> Result<Request, Misuse> {
    let found = COMMANDS.iter().find(|(command, ..)| *command == name);
    let Some((command, text, parse)) = found else {
        return other_command(name, words).map_err(|error| (error, None));
    };
    parse(words).or_else(|refused| match refused {
        Refused::Help => Ok(Request::Text(text)),
        Refused::Misuse(words) => Err((words, Some(*command))),
        Refused::Unknown(option) => {
            let known: Vec<&str> = help::options(text).collect();
            Err((unknown("option", &option, &known), Some(*command)))
        }
    })
}

fn other_command(name: &str, words: &mut Words) -> Result<Request, String> {
    match name {
        "help" => help_for(words),
        "version" => no_more(words, name).map(|()| Request::Text(help::VERSION)),
        _ => Err(unknown("command", name, &names())),
    }
}

fn names() -> Vec<&'static str> {
    COMMANDS.iter().map(|(name, ..)| *name).chain(["help", "version"]).collect()
}

/// The text of a command, or of the program.
fn help_for(words: &mut Words) -> Result<Request, String> {
    let Some(word) = words.next("")? else {
        return Ok(Request::Text(help::PROGRAM));
    };
    let name = match word {
        Word::Operand(name) => name.to_string_lossy().into_owned(),
        Word::Option(option) => return top_option(&option),
    };
    no_more(words, "help COMMAND")?;
    match COMMANDS.iter().find(|(command, ..)| *command == name) {
        Some((_, text, _)) => Ok(Request::Text(text)),
        None if ["help", "version"].contains(&name.as_str()) => Ok(Request::Text(help::PROGRAM)),
        None => Err(unknown("command", &name, &names())),
    }
}

fn no_more(words: &mut Words, name: &str) -> Result<(), String> {
    match words.next("")? {
        None => Ok(()),
        Some(_) => Err(format!("{name} takes no more words")),
    }
}

/// A word that nothing is known of, with the one that may have been meant.
fn unknown(what: &str, word: &str, known: &[&str]) -> String {
    let hint = near::nearest(word, known).map(|near| format!(" (did you mean {near}?)"));
    format!("no such {what}: {}{}", word.escape_debug(), hint.unwrap_or_default())
}

/// What takes the words of a command.
trait Taker {
    fn operand(&mut self, operand: OsString) -> Result<(), Refused>;

    /// Takes an option with its value, if it has one.
    fn option(&mut self, option: &str, words: &mut Words) -> Result<(), Refused>;
}

/// Has all words taken.
fn take_all(taker: &mut impl Taker, words: &mut Words) -> Result<(), Refused> {
    let mut last = String::new();
    while let Some(word) = words.next(&last)? {
        match word {
            Word::Operand(operand) => taker.operand(operand)?,
            Word::Option(option) if option == "-h" || option == "--help" => {
                return Err(Refused::Help)
            }
            Word::Option(option) => {
                taker.option(&option, words)?;
                last = option;
            }
        }
    }
    Ok(())
}

fn check(words: &mut Words) -> Result<Request, Refused> {
    reading_words::read_only(words).map(Request::Check)
}

fn peers(words: &mut Words) -> Result<Request, Refused> {
    reading_words::read_only(words).map(Request::Peers)
}

fn report(words: &mut Words) -> Result<Request, Refused> {
    reading_words::report(words).map(Request::Report)
}

/// What is said twice may be said in two ways.
fn once<T>(place: &mut Option<T>, value: T, name: &str) -> Result<(), String> {
    match place.replace(value) {
        None => Ok(()),
        Some(_) => Err(format!("more than one {name}")),
    }
}

/// An option's value, read by a function whose error goes on from the value.
fn value<T>(
    words: &mut Words,
    option: &str,
    parse: impl FnOnce(&str) -> Result<T, String>,
) -> Result<T, String> {
    let value = words.value(option)?;
    let text = value.to_string_lossy();
    parse(&text).map_err(|words| format!("{option}: '{}' {words}", text.escape_debug()))
}

/// Standard input has nothing left for a second time.
fn refuse_standard_twice<'a>(sources: impl IntoIterator<Item = &'a Source>) -> Result<(), String> {
    let standard = sources.into_iter().filter(|source| **source == Source::Standard).count();
    match standard {
        0 | 1 => Ok(()),
        _ => Err("standard input (-) more than once".to_string()),
    }
}

#[cfg(test)]
mod tests;

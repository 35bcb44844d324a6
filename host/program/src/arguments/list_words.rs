//! The options of the command that lists.

use super::reading_words::ReadingWords;
use super::window_words::WindowWords;
use super::{take_all, value, ListOrder, Refused, Request, Taker};
use crate::as_number;
use crate::words::Words;
use std::ffi::OsString;

#[derive(Default)]
struct ListWords {
    reading: ReadingWords,
    window: WindowWords,
    peers: Vec<u32>,
    long: bool,
}

impl Taker for ListWords {
    fn operand(&mut self, operand: OsString) -> Result<(), Refused> {
        self.reading.operand(operand)
    }

    fn option(&mut self, option: &str, words: &mut Words) -> Result<(), Refused> {
        match option {
            "--long" => self.long = true,
            "--peer" => self.peers.push(value(words, option, as_number::parse)?),
            "--from" | "--to" | "--around" | "--seconds" => self.window.option(option, words)?,
            _ => self.reading.option(option, words)?,
        }
        Ok(())
    }
}

pub fn parse(words: &mut Words) -> Result<Request, Refused> {
    let mut found = ListWords::default();
    take_all(&mut found, words)?;
    let period = found.window.period()?;
    let (long, peers, doubts) = (found.long, found.peers, found.window.doubts);
    let reading = found.reading.reading()?;
    Ok(Request::List(ListOrder { reading, long, peers, period, doubts }))
}

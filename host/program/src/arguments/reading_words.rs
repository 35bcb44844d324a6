//! The options of every command that reads dumps.

use super::{once, refuse_standard_twice, take_all, value, Refused, ReportOrder, Taker};
use crate::input::{Reading, Source, LIMIT};
use crate::size;
use crate::words::Words;
use std::ffi::OsString;

#[derive(Default)]
pub struct ReadingWords {
    pub sources: Vec<Source>,
    limit: Option<u64>,
    no_progress: bool,
}

impl Taker for ReadingWords {
    fn operand(&mut self, operand: OsString) -> Result<(), Refused> {
        self.sources.push(Source::of_word(&operand));
        Ok(())
    }

    fn option(&mut self, option: &str, words: &mut Words) -> Result<(), Refused> {
        match option {
            "--limit" => once(&mut self.limit, value(words, option, size::parse)?, option)?,
            "--no-progress" => self.no_progress = true,
            _ => return Err(Refused::Unknown(option.to_string())),
        }
        Ok(())
    }
}

impl ReadingWords {
    /// All FILEs as one recording.
    pub fn reading(self) -> Result<Reading, String> {
        if self.sources.is_empty() {
            return Err("which FILE? (- is standard input)".to_string());
        }
        refuse_standard_twice(&self.sources)?;
        let limit = self.limit.unwrap_or(LIMIT);
        Ok(Reading { sources: self.sources, progress: !self.no_progress, limit, digests: false })
    }
}

pub fn read_only(words: &mut Words) -> Result<Reading, Refused> {
    let mut found = ReadingWords::default();
    take_all(&mut found, words)?;
    Ok(found.reading()?)
}

#[derive(Default)]
struct ReportWords {
    reading: ReadingWords,
    table: bool,
}

impl Taker for ReportWords {
    fn operand(&mut self, operand: OsString) -> Result<(), Refused> {
        self.reading.operand(operand)
    }

    fn option(&mut self, option: &str, words: &mut Words) -> Result<(), Refused> {
        match option {
            "--table" => self.table = true,
            _ => self.reading.option(option, words)?,
        }
        Ok(())
    }
}

/// Each FILE by itself.
pub fn report(words: &mut Words) -> Result<ReportOrder, Refused> {
    let mut found = ReportWords::default();
    take_all(&mut found, words)?;
    let all = found.reading.reading()?;
    let alone = |source: &Source| Reading { sources: vec![source.clone()], ..all.clone() };
    Ok(ReportOrder { readings: all.sources.iter().map(alone).collect(), table: found.table })
}

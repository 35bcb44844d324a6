//! The options of the command that cuts.

use super::reading_words::ReadingWords;
use super::window_words::WindowWords;
use super::{
    once, refuse_standard_twice, take_all, value, CutOrder, Listed, Refused, Request, Taker, Whose,
};
use crate::as_number;
use crate::input::Source;
use crate::muting::address;
use crate::output::Target;
use crate::words::Words;
use std::ffi::OsString;
use std::net::IpAddr;

/// As far as they were read.
#[derive(Default)]
struct CutWords {
    reading: ReadingWords,
    window: WindowWords,
    out: Option<OsString>,
    report: Option<OsString>,
    mute: Listed<u32>,
    addresses: Listed<IpAddr>,
    only: Listed<u32>,
    switches: Switches,
}

#[derive(Default)]
struct Switches {
    force: bool,
    quiet: bool,
    brief: bool,
    verbose: bool,
    strict: bool,
    dry_run: bool,
}

pub fn parse(words: &mut Words) -> Result<Request, Refused> {
    let mut found = CutWords::default();
    let given = words.given();
    take_all(&mut found, words)?;
    let order = found.order(given)?;
    Ok(Request::Cut(Box::new(order)))
}

impl Taker for CutWords {
    fn operand(&mut self, operand: OsString) -> Result<(), Refused> {
        self.reading.operand(operand)
    }

    fn option(&mut self, option: &str, words: &mut Words) -> Result<(), Refused> {
        let file = |words: &mut Words| words.value(option).map(|word| Source::of_word(&word));
        match option {
            "-o" | "--output" => once(&mut self.out, words.value(option)?, "OUT")?,
            "--report" => once(&mut self.report, words.value(option)?, option)?,
            "--mute" => self.mute.items.push(value(words, option, as_number::parse)?),
            "--mute-file" => self.mute.files.push(file(words)?),
            "--only" => self.only.items.push(value(words, option, as_number::parse)?),
            "--only-file" => self.only.files.push(file(words)?),
            "--mute-address" => self.addresses.items.push(value(words, option, address)?),
            "--mute-address-file" => self.addresses.files.push(file(words)?),
            "--from" | "--to" | "--around" | "--seconds" => self.window.option(option, words)?,
            _ => return self.switch(option, words),
        }
        Ok(())
    }
}

impl CutWords {
    fn switch(&mut self, option: &str, words: &mut Words) -> Result<(), Refused> {
        let place = match option {
            "-f" | "--force" => &mut self.switches.force,
            "-q" | "--quiet" => &mut self.switches.quiet,
            "--brief" => &mut self.switches.brief,
            "--verbose" => &mut self.switches.verbose,
            "--strict" => &mut self.switches.strict,
            "--dry-run" => &mut self.switches.dry_run,
            _ => return self.reading.option(option, words),
        };
        *place = true;
        Ok(())
    }

    fn order(self, given: Vec<OsString>) -> Result<CutOrder, String> {
        let period = self.window.period()?;
        let Switches { force, quiet, brief, verbose, strict, dry_run } = self.switches;
        let target = self.out.filter(|out| !out.is_empty()).map(|it| Target::of_word(&it, force));
        if target.is_none() && !dry_run {
            return Err("where to? -o OUT is missing".to_string());
        }
        let report = self.report.map(|word| Target::of_word(&word, force));
        let files = [&self.mute.files, &self.addresses.files, &self.only.files];
        refuse_standard_twice(self.reading.sources.iter().chain(files.into_iter().flatten()))?;
        let mut reading = self.reading.reading()?;
        reading.digests = report.is_some();
        Ok(CutOrder {
            reading,
            period,
            whose: whose(self.mute, self.addresses, self.only)?,
            target,
            report,
            is_dry: dry_run,
            is_strict: strict,
            is_forced: force,
            is_quiet: quiet,
            is_brief: brief,
            is_verbose: verbose,
            doubts: self.window.doubts,
            given,
        })
    }
}

/// Who is muted and who alone is kept are two answers to one question.
fn whose(
    numbers: Listed<u32>,
    addresses: Listed<IpAddr>,
    only: Listed<u32>,
) -> Result<Whose, String> {
    match only.is_asked() {
        true if numbers.is_asked() || addresses.is_asked() => {
            Err("--only mutes everybody else, so it has no --mute beside it".to_string())
        }
        true => Ok(Whose::AllBut(only)),
        false => Ok(Whose::Muted { numbers, addresses }),
    }
}

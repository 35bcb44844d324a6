//! The command line.

use second::cut::cut;
use second::cut_cases::Book;
use second::dump::Dump;
use second::listing::listing;
use second::report;
use second::report_cases;
use second::sample;
use second::vectors::Suite;
use second::write_cases;
use std::io::{self, Write};
use std::path::Path;
use std::process::ExitCode;
use std::str::FromStr;
use std::{env, fs};

const USAGE: &str = "usage: second list FILE..
       second report FILE..
       second roundtrip FILE..
       second cut FILE START END [AS..] > OUT
       second vectors DIR
       second cuts DIR
       second writes DIR
       second reports DIR
       second sample FILE";

fn main() -> ExitCode {
    let arguments: Vec<String> = env::args().skip(1).collect();
    match run(&arguments) {
        Ok(true) => ExitCode::SUCCESS,
        Ok(false) => ExitCode::FAILURE,
        Err(error) => {
            eprintln!("second: {error}");
            ExitCode::from(2)
        }
    }
}

fn run(arguments: &[String]) -> io::Result<bool> {
    let Some((command, operands)) = arguments.split_first() else {
        return Err(io::Error::other(USAGE));
    };
    match (command.as_str(), operands) {
        ("list", [_, ..]) => print_each(operands, listing),
        ("report", [_, ..]) => print_each(operands, report::text),
        ("roundtrip", [_, ..]) => roundtrip(operands),
        ("vectors", [directory]) => Suite::generate().write_to(Path::new(directory)).map(|()| true),
        ("cut", [file, start, end, list @ ..]) => cut_file(file, start, end, list),
        ("cuts", [directory]) => Book::generate().write_to(Path::new(directory)).map(|()| true),
        ("writes", [directory]) => {
            write_cases::Book::generate().write_to(Path::new(directory)).map(|()| true)
        }
        ("reports", [directory]) => {
            report_cases::Book::generate().write_to(Path::new(directory)).map(|()| true)
        }
        ("sample", [file]) => fs::write(file, sample::octets()).map(|()| true),
        _ => Err(io::Error::other(USAGE)),
    }
}

fn read(file: &str) -> io::Result<Vec<u8>> {
    fs::read(file).map_err(|error| io::Error::new(error.kind(), format!("{file}: {error}")))
}

/// Prints a text of each file, under its name where there are more than one.
fn print_each(files: &[String], text_of: fn(&[u8]) -> String) -> io::Result<bool> {
    let mut text = String::new();
    for file in files {
        if files.len() > 1 {
            text.push_str(&format!("{file}\n"));
        }
        text.push_str(&text_of(&read(file)?));
    }
    io::stdout().write_all(text.as_bytes())?;
    Ok(true)
}

/// Reads each file and compares it, up to its first fault, with what writing
/// its records gives.
fn roundtrip(files: &[String]) -> io::Result<bool> {
    let mut all_same = true;
    for file in files {
        let octets = read(file)?;
        let dump = Dump::read(&octets);
        let good = dump.end.record;
        let same = dump.to_octets() == octets[..good];
        let verdict = if same { "same" } else { "differs" };
        println!("{file}: {verdict}, {good} of {} octets", octets.len());
        all_same &= same;
    }
    Ok(all_same)
}

/// Writes what is left of a file to standard output, or says why nothing is.
fn cut_file(file: &str, start: &str, end: &str, list: &[String]) -> io::Result<bool> {
    let list = list.iter().map(|asn| number(asn)).collect::<io::Result<Vec<u32>>>()?;
    let (start, end, dump) = (number(start)?, number(end)?, read(file)?);
    let answer = cut(&dump, start, end, &list, dump.len());
    if answer.fault != 0 {
        eprintln!("{file}: fault={} place={}", answer.fault, answer.place);
        return Ok(false);
    }
    io::stdout().write_all(&answer.octets)?;
    Ok(true)
}

fn number<T: FromStr>(text: &str) -> io::Result<T> {
    text.parse().map_err(|_| io::Error::other(format!("{text}: not a number that fits here")))
}

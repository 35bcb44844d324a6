//! Checks, lists, counts and cuts MRT dumps. A thin shell around the library: it reads files, calls, and
//! tells people what came of it.

#![deny(unsafe_code)]

mod advice;
mod archive;
mod arguments;
mod as_number;
mod beside;
mod bgp_length;
mod check;
mod contents;
mod cut;
mod digest;
mod escaped;
mod evidence;
mod excerpt;
mod filter;
mod header;
mod help;
mod input;
mod json;
mod kinds;
mod list;
mod lists;
mod long_list;
mod memory;
mod moment;
mod muting;
mod near;
mod number;
mod outcome;
mod output;
mod peers;
mod period;
mod progress;
mod room;
mod session_report;
mod session_table;
mod show;
mod sides;
mod size;
mod stop;
#[allow(unsafe_code)]
mod system;
mod tally;
mod view_name;
mod warnings;
mod words;
mod wrap;

use arguments::Request;
use std::env;
use std::io::{self, Write};
use std::process::ExitCode;
use stop::Stop;

fn main() -> ExitCode {
    match run() {
        Ok(()) => ExitCode::SUCCESS,
        Err(stop) => stop.tell(),
    }
}

fn run() -> Result<(), Stop> {
    let request = arguments::parse(env::args_os().skip(1)).map_err(|(words, command)| {
        let command = command.map(|name| format!(" {name}")).unwrap_or_default();
        Stop::Usage(format!("{words}\n  `dagsumilat{command} --help` says how it is used"))
    })?;
    if !matches!(request, Request::Cut(_)) {
        // Before anything is read that could not be told to anybody.
        output::refuse_closed()?;
    }
    match request {
        Request::Text(text) => {
            let printed = io::stdout().lock().write_all(text.as_bytes());
            printed.map_err(|error| Stop::printing(&error))
        }
        Request::List(order) => list::list(&order),
        Request::Check(reading) => check::check(&reading),
        Request::Peers(reading) => peers::peers(&reading),
        Request::Report(order) => session_report::report(&order),
        Request::Cut(order) => cut::cut(&order),
    }
}

//! Why a command ends before its work is done, and what is told on standard error.

use crate::{escaped, system, wrap};
use std::fmt::Display;
use std::io::{self, ErrorKind, IsTerminal, Write};
use std::path::Path;
use std::process::ExitCode;

/// Each holds the words for a person.
#[derive(Debug)]
pub enum Stop {
    /// The dump or the order was refused.
    Refused(String),
    /// The command line says nothing that can be done.
    Usage(String),
    /// Something could not be read or written.
    Trouble(String),
    /// Whoever read standard output has read enough.
    Closed,
}

impl Stop {
    /// An error of reading `name`.
    pub fn reading(name: &Path, error: &dyn Display) -> Stop {
        Stop::Trouble(format!("cannot read {}: {error}", escaped::path(name)))
    }

    /// An error of writing `name`.
    pub fn writing(name: &Path, error: &dyn Display) -> Stop {
        Stop::Trouble(format!("cannot write {}: {error}", escaped::path(name)))
    }

    /// An error of writing text to standard output: `| head` is no trouble.
    pub fn printing(error: &io::Error) -> Stop {
        match error.kind() {
            ErrorKind::BrokenPipe => Stop::Closed,
            _ => Stop::writing(Path::new("standard output"), error),
        }
    }

    /// The same, with what has happened before.
    pub fn after(self, before: &str) -> Stop {
        match self {
            Stop::Trouble(words) => Stop::Trouble(format!("{before}: {words}")),
            other => other,
        }
    }

    /// Tells the words and gives the exit status.
    pub fn tell(&self) -> ExitCode {
        match self {
            Stop::Refused(words) => {
                tell(words);
                ExitCode::from(1)
            }
            Stop::Usage(words) | Stop::Trouble(words) => {
                tell(words);
                ExitCode::from(2)
            }
            Stop::Closed => ExitCode::SUCCESS,
        }
    }
}

/// A line without words, before what is not to be overlooked.
pub fn apart() {
    let _ = writeln!(io::stderr().lock());
}

/// Writes to standard error under the program's name, in lines that fit a terminal. That nobody can
/// read it stops nothing.
pub fn tell(words: &str) {
    let text = format!("dagsumilat: {words}");
    let mut err = io::stderr().lock();
    let width = system::terminal_width().filter(|_| err.is_terminal());
    let text = width.map_or(text.clone(), |width| wrap::wrapped(&text, width));
    let _ = writeln!(err, "{text}");
}

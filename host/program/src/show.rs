//! What the commands that show something of a recording have in common.

use crate::advice;
use crate::input::{Reading, Recording};
use crate::progress::Progress;
use crate::stop::Stop;
use dagsumilat::Refusal;
use std::io::{self, BufWriter, StdoutLock, Write};

const BUFFER: usize = 1 << 16;

/// Standard output.
pub type Out = BufWriter<StdoutLock<'static>>;

pub fn read(reading: &Reading) -> Result<Recording, Stop> {
    reading.read(&mut Progress::new(reading.progress))
}

/// Has something written to standard output.
pub fn print<T>(write: impl FnOnce(&mut Out) -> io::Result<T>) -> Result<T, Stop> {
    let mut out = BufWriter::with_capacity(BUFFER, io::stdout().lock());
    let written = write(&mut out).and_then(|written| out.flush().map(|()| written));
    written.map_err(|error| Stop::printing(&error))
}

/// Ends a command: a fault, where there is one, is told last.
pub fn end(recording: &Recording, refusal: Option<Refusal>) -> Result<(), Stop> {
    match refusal {
        None => Ok(()),
        Some(Refusal { fault, .. }) => Err(Stop::Refused(advice::dump_refused(recording, fault))),
    }
}

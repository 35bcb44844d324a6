//! The command that says whether a recording is good, and what is in it.

use crate::beside::both;
use crate::input::{Reading, Recording};
use crate::moment;
use crate::show::{self, Out};
use crate::stop::Stop;
use crate::tally::{Span, Tally, KINDS};
use std::io::{self, Write};

pub fn check(reading: &Reading) -> Result<(), Stop> {
    let recording = show::read(reading)?;
    let (dump, count) = (&recording.octets, || Tally::of(&recording.octets));
    let (tally, check) = both(count, || dagsumilat::check(dump));
    show::end(&recording, check.refusal)?;
    show::print(|out| write(&recording, &tally, out))
}

fn write(recording: &Recording, tally: &Tally, out: &mut Out) -> io::Result<()> {
    let (name, records, octets) = (recording.name(), tally.records(), recording.octets.len());
    writeln!(out, "{name}: good, {records} records, {octets} octets")?;
    write_files(recording, out)?;
    if let Some(Span { first, last }) = tally.span {
        let (first, last) = (moment::shown(first), moment::shown(last));
        writeln!(out, "  times from {first} to {last} (not those of peer tables)")?;
    }
    for (name, count) in rows(tally) {
        writeln!(out, "  {name:<16}{count:>14}")?;
    }
    Ok(())
}

/// Which files they are, where it is not just one, and which have nothing in them.
fn write_files(recording: &Recording, out: &mut Out) -> io::Result<()> {
    for part in &recording.parts {
        let (name, size) = (&part.name, part.end - part.start);
        match (recording.parts.len(), size) {
            (_, 0) => writeln!(out, "  {name} is empty")?,
            (1, _) => {}
            _ => writeln!(out, "  {name}: {size} octets, from octet {} on", part.start)?,
        }
    }
    Ok(())
}

/// What there is of each, and how much.
fn rows(tally: &Tally) -> Vec<(&'static str, u64)> {
    let kinds = KINDS.iter().zip(tally.kinds).map(|((_, name), count)| (*name, count));
    let rest = [
        ("RIB entries", tally.entries),
        ("peers in tables", tally.peers),
        ("peer AS numbers", tally.by_as().len() as u64),
        ("peers by address", tally.by_peer.len() as u64),
    ];
    kinds.chain(rest).filter(|(_, count)| *count > 0).collect()
}

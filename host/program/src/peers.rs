//! The command that shows whose records a recording has.

use crate::input::Reading;
use crate::moment;
use crate::show::{self, Out};
use crate::stop::Stop;
use crate::tally::{Count, Of, Tally};
use std::io::{self, Write};
use std::net::IpAddr;

pub fn peers(reading: &Reading) -> Result<(), Stop> {
    let recording = show::read(reading)?;
    let tally = Tally::of(&recording.octets);
    show::print(|out| write(&tally, out))?;
    show::end(&recording, tally.refusal)
}

fn write(tally: &Tally, out: &mut Out) -> io::Result<()> {
    write!(out, "{:>10} {:>10} {:>14} {:>14}", "AS", "peers", "entries", "records")?;
    writeln!(out, "  {:<27}  {:<27}  addresses", "first", "last")?;
    for (number, of) in tally.by_as() {
        let Of { count: Count { peers, entries, records, span }, addresses } = of;
        let [first, last] = match span {
            Some(span) => [span.first, span.last].map(moment::shown),
            None => ["-", "-"].map(String::from),
        };
        let addresses: Vec<String> = addresses.iter().map(IpAddr::to_string).collect();
        write!(out, "{number:>10} {peers:>10} {entries:>14} {records:>14}")?;
        writeln!(out, "  {first:<27}  {last:<27}  {}", addresses.join(","))?;
    }
    Ok(())
}

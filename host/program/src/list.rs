//! The command that shows the records, all or those of some peers and times.

use crate::arguments::ListOrder;
use crate::long_list::LongList;
use crate::period::Period;
use crate::show::{self, Out};
use crate::stop::{self, Stop};
use dagsumilat::{records, Kind, Record, Refusal};
use std::collections::HashSet;
use std::io::{self, Write};

pub fn list(order: &ListOrder) -> Result<(), Stop> {
    order.doubts.iter().for_each(|doubt| stop::tell(&format!("WARNING: {doubt}")));
    // As the cut does: nothing would be shown, as if there were nothing.
    order.period.refuse_backward()?;
    let recording = show::read(&order.reading)?;
    let refusal = show::print(|out| write(order, &recording.octets, out))?;
    show::end(&recording, refusal)
}

fn write(order: &ListOrder, dump: &[u8], out: &mut Out) -> io::Result<Option<Refusal>> {
    let mut wanted = Wanted::new(order);
    let mut lines = match order.long {
        true => Lines::Long(LongList::new(dump)),
        false => Lines::Short,
    };
    lines.start(out)?;
    let mut refusal = None;
    for found in records(dump) {
        match found {
            Ok(record) if wanted.shows(&record) => lines.record(&record, out)?,
            Ok(_) => {}
            Err(found) => refusal = Some(found),
        }
    }
    lines.end(dump, refusal, out)?;
    Ok(refusal)
}

/// The records that are to be shown.
struct Wanted {
    /// None: of all.
    peers: HashSet<u32>,
    period: Period,
    /// Which peers of the table in force are among them.
    table: Vec<bool>,
}

impl Wanted {
    fn new(order: &ListOrder) -> Wanted {
        let peers = order.peers.iter().copied().collect();
        Wanted { peers, period: order.period, table: Vec::new() }
    }

    /// To be asked of every record in turn.
    fn shows(&mut self, record: &Record) -> bool {
        self.is_of_peer(record) && self.period.holds(record.time)
    }

    fn is_of_peer(&mut self, record: &Record) -> bool {
        if self.peers.is_empty() {
            return true;
        }
        match record.kind() {
            Kind::PeerTable => {
                let peers = record.peers();
                self.table = peers.map(|peer| self.peers.contains(&peer.as_number)).collect();
                self.table.contains(&true)
            }
            Kind::Rib => record.entries().any(|entry| self.table[usize::from(entry.peer_index)]),
            _ => record.peer_as().is_some_and(|number| self.peers.contains(&number)),
        }
    }
}

/// For a program, or for a person.
enum Lines {
    Short,
    Long(LongList),
}

impl Lines {
    fn start(&self, out: &mut Out) -> io::Result<()> {
        match self {
            Lines::Short => Ok(()),
            Lines::Long(list) => list.start(out),
        }
    }

    fn record(&mut self, record: &Record, out: &mut Out) -> io::Result<()> {
        match self {
            Lines::Short => short(record, out),
            Lines::Long(list) => list.record(record, out),
        }
    }

    fn end(&self, dump: &[u8], refusal: Option<Refusal>, out: &mut Out) -> io::Result<()> {
        match (self, refusal) {
            (Lines::Long(list), _) => list.end(dump, out),
            (Lines::Short, None) => writeln!(out, "fault=0 place={}", dump.len()),
            (Lines::Short, Some(Refusal { fault, place })) => {
                writeln!(out, "fault={} place={place}", fault.number())
            }
        }
    }
}

fn short(record: &Record, out: &mut Out) -> io::Result<()> {
    let Record { at, time, type_code, subtype, length, .. } = record;
    writeln!(out, "at={at} time={time} type={type_code} subtype={subtype} length={length}")
}

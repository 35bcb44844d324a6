//! One record read by both programs, all its fields, and written again.

use crate::desk::Desk;
use crate::desks::Desks;
use crate::expected_fields;
use crate::tally::Tally;
use crate::telling::{same, Told};
use crate::writing::{self, Shown, Spots};
use dagsumilat::calls::NONE;
use second::dump::Dump;
use second::vectors::rng::Rng;

fn call(at: usize, table: u64) -> impl FnOnce() -> String {
    move || format!("read at={at} table={table}")
}

/// Every record of the laid dump, then its fault.
pub fn compare(
    dump: &[u8],
    read: &Dump,
    rng: &mut Rng,
    desks: &mut Desks,
    tally: &mut Tally,
) -> Told<()> {
    let (mut table, spots) = (NONE, Spots::draw(rng));
    for located in &read.records {
        let at = located.offset;
        let words = desks.dump.read(at, table)?;
        same(call(at, table), words, expected_fields::record(&located.record))?;
        let octets = &dump[at..][..words[1] as usize];
        let shown = Shown { octets, table, words: &words };
        writing::write_back(&shown, &spots, &mut desks.record, tally)?;
        tally.read[0] += 1;
        table = located.record.as_table().map_or(table, |it| it.peers as u64);
    }
    let (at, fault) = (read.end.record, read.end.number());
    tally.read[usize::from(fault)] += 1;
    let words = expected_fields::no_record(fault, read.end.place - at);
    same(call(at, table), desks.dump.read(at, table)?, words)
}

/// Any place of the laid dump, and any table.
pub fn compare_at(
    dump: &[u8],
    at: usize,
    table: u64,
    desk: &mut Desk,
    tally: &mut Tally,
) -> Told<()> {
    let octets = dump.get(at..).unwrap_or_default();
    let words = expected_fields::read(octets, table);
    tally.read[words[0] as usize] += 1;
    same(call(at, table), desk.read(at, table)?, words)
}

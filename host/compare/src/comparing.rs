//! One dump, read by both programs in every way there is.

use crate::cutting;
use crate::desk::{Desk, Spots};
use crate::desks::Desks;
use crate::expected;
use crate::itself;
use crate::making;
use crate::muting;
use crate::naming::{self, NameCalls};
use crate::placing;
use crate::reading;
use crate::reporting;
use crate::tally::Tally;
use crate::telling::{same, Told};
use crate::writing;
use dagsumilat::calls::{self, NONE};
use second::dump::{Dump, Located};
use second::record::Body;
use second::vectors::rng::Rng;
use std::fmt;

/// Dumps with a damaged field that the library alone reads, for each that the second program reads
/// too: it takes far less time for them.
const ALONE: usize = 12;

/// So that the dumps made to be counted have nothing to do with the others of their seed.
const SESSIONS: u64 = 0x5e55_1075;

/// The same for those made for their view names.
const NAMES: u64 = 0x4a3e_5017;

/// The same for those made for a fault's place.
const PLACES: u64 = 0x91ac_e000;

/// Both answers to a call, and the dump it was made with.
#[derive(Debug)]
pub struct Difference {
    pub seed: u64,
    pub dump: Vec<u8>,
    pub told: String,
}

impl fmt::Display for Difference {
    fn fmt(&self, f: &mut fmt::Formatter) -> fmt::Result {
        let digits: String = self.dump.iter().map(|octet| format!("{octet:02x}")).collect();
        write!(f, "seed {}\n{}\ndump: {digits}", self.seed, self.told)
    }
}

/// Makes a dump from a seed and compares all calls with it; then the writers with fields of their
/// own, the report with dumps of its own, names with tables of their own, and places and a list with
/// a dump of their own.
pub fn compare_seed(seed: u64, desks: &mut Desks, tally: &mut Tally) -> Result<(), Difference> {
    let mut rng = Rng::seeded(seed);
    let made = making::any(&mut rng);
    let differs = |dump: &[u8], told| Difference { seed, dump: dump.to_vec(), told };
    tally.kind(made.kind);
    let fault = compare_dump(&made.dump, &mut rng, desks, tally)
        .map_err(|told| differs(&made.dump, told))?;
    writing::compare(&mut Rng::seeded(!seed), &mut desks.record, tally)
        .map_err(|told| differs(&[], told))?;
    let mut apart = Rng::seeded(seed ^ SESSIONS);
    reporting::compare_sessions(&calls::report, &mut apart, &mut desks.dump, tally)
        .map_err(|(dump, told)| differs(&dump, told))?;
    let calls = NameCalls { check: &calls::check, write: &writing::written };
    naming::compare(calls, &mut Rng::seeded(seed ^ NAMES), desks, tally)
        .map_err(|(dump, told)| differs(&dump, told))?;
    let mut apart = Rng::seeded(seed ^ PLACES);
    placing::compare_ended(&calls::first_fault, &mut apart, &mut desks.dump, tally)
        .map_err(|(dump, told)| differs(&dump, told))?;
    muting::compare(&calls::cut, seed, &mut desks.dump, tally)
        .map_err(|(dump, told)| differs(&dump, told))?;
    let Some(field) = made.field else {
        return Ok(());
    };
    tally.field(field, fault != 0);
    for dump in making::with_fields_damaged(ALONE, &mut rng) {
        desks.dump.lay(&dump, Spots::draw(&mut rng));
        itself::compare(&mut desks.dump).map_err(|told| differs(&dump, told))?;
        tally.itself += 1;
    }
    Ok(())
}

/// Compares all calls with this dump; the number of its fault.
pub fn compare_dump(dump: &[u8], rng: &mut Rng, desks: &mut Desks, tally: &mut Tally) -> Told<u8> {
    let read = Dump::read(dump);
    let fault = read.end.number();
    tally.dumps += 1;
    tally.faults[usize::from(fault)] += 1;
    desks.dump.lay(dump, Spots::draw(rng));
    reading::compare(dump, &read, rng, desks, tally)?;
    let desk = &mut desks.dump;
    same(|| "check".into(), desk.check()?, expected::check(&read))?;
    placing::compare(&calls::first_fault, dump, &read, desk, tally)?;
    itself::compare(desk)?;
    walk(&read, desk, tally)?;
    for _ in 0..4 {
        stray(dump, &read, rng, desk, tally)?;
    }
    desk.is_unchanged()?;
    cutting::compare(dump, &read, rng, desk, tally)?;
    reporting::compare(&calls::report, dump, &read, rng, desk, tally)?;
    Ok(fault)
}

/// From record to record, as the header says that a dump is gone through.
fn walk(read: &Dump, desk: &mut Desk, tally: &mut Tally) -> Told<()> {
    let mut table = NONE;
    for located in &read.records {
        let at = located.offset;
        let words = expected::record(&located.record, at, table);
        same(|| format!("record at={at} table={table}"), desk.record(at, table)?, words)?;
        table = words[2];
        items(located, words[8] as usize, desk, tally)?;
        tally.records += 1;
    }
    let at = read.end.record;
    let words = expected::no_record(read.end.number(), read.end.place, table);
    same(|| format!("record at={at} table={table}"), desk.record(at, table)?, words)
}

/// The peers of a table, or the entries of a RIB record.
fn items(located: &Located, from: usize, desk: &mut Desk, tally: &mut Tally) -> Told<()> {
    let mut at = located.offset + from;
    match &located.record.body {
        Body::PeerTable(peers) => {
            for words in expected::peers(peers, at) {
                same(|| format!("peer at={at}"), desk.peer(at)?, words)?;
                at = words[1] as usize;
                tally.items += 1;
            }
        }
        Body::Rib(rib) => {
            for words in expected::entries(rib, at) {
                same(|| format!("entry at={at}"), desk.entry(at)?, words)?;
                at = words[1] as usize;
                tally.items += 1;
            }
        }
        Body::Unread(_) | Body::TableDump(_) | Body::Bgp4mp(_) => {}
    }
    Ok(())
}

/// Any place, and any table.
fn stray(dump: &[u8], read: &Dump, rng: &mut Rng, desk: &mut Desk, tally: &mut Tally) -> Told<()> {
    let at = stray_place(dump, read, rng);
    let table = match rng.below(4) {
        0 => rng.word(),
        _ => *rng.pick(&[NONE, NONE - 1, 0, 1, 2, 5, 255, 65_535, 65_536]),
    };
    tally.stray += 4;
    reading::compare_at(dump, at, table, desk, tally)?;
    let call = |name: &str| format!("{name} at={at} table={table}");
    same(|| call("record"), desk.record(at, table)?, expected::record_at(dump, at, table))?;
    same(|| call("peer"), desk.peer(at)?, expected::peer_at(dump, at))?;
    same(|| call("entry"), desk.entry(at)?, expected::entry_at(dump, at))
}

/// Inside, about the end, at the end of all offsets, or some octets behind a record's start, where
/// its items or its neighbours are.
fn stray_place(dump: &[u8], read: &Dump, rng: &mut Rng) -> usize {
    match rng.below(6) {
        0 => usize::MAX - rng.below(20),
        1 => (dump.len() + rng.below(20)).saturating_sub(10),
        2 | 3 if !read.records.is_empty() => {
            let start = rng.pick(&read.records).offset;
            start + rng.below(40)
        }
        _ => rng.below(dump.len() + 1),
    }
}

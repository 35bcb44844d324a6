//! The second program's reading of one record in the twenty words of `dagsumilat_read`: numbers from
//! its fields, and parts from where document 01 lays them out.

use crate::expected::in_force;
use second::bgp4mp::{Bgp4mp, Event};
use second::net::AsWidth;
use second::peer_table::PeerTable;
use second::reader::Reader;
use second::record::{Body, Record};
use second::rib::Rib;
use second::table_dump::TableDump;

/// An answer with no record; the place counts from its header.
pub fn no_record(fault: u8, place: usize) -> [u64; 20] {
    let mut words = [0; 20];
    words[..2].copy_from_slice(&[fault.into(), place as u64]);
    words
}

/// The record that these octets start with, and any table.
pub fn read(octets: &[u8], table: u64) -> [u64; 20] {
    if octets.is_empty() {
        return no_record(0, 0);
    }
    match Record::read(&mut Reader::over(octets), in_force(table)) {
        Ok(good) => record(&good),
        Err(flaw) => no_record(flaw.number(), flaw.spot.place),
    }
}

/// A good record.
pub fn record(record: &Record) -> [u64; 20] {
    let end = 12 + record.length();
    let from = if record.microsecond.is_some() { 16 } else { 12 };
    let (kind, fields) = body(&record.body, from, end);
    let mut words = [0; 20];
    words[..8].copy_from_slice(&[
        0,
        end as u64,
        kind,
        record.timestamp.into(),
        record.kind.code.into(),
        record.kind.subtype.into(),
        record.length() as u64,
        record.microsecond.unwrap_or(0).into(),
    ]);
    words[8..][..fields.len()].copy_from_slice(&fields);
    words
}

/// Its kind, and the words from the eighth on, where its first field stands at `from`.
fn body(body: &Body, from: usize, end: usize) -> (u64, Vec<u64>) {
    match body {
        Body::Unread(contents) => (1, part(from, contents.len()).to_vec()),
        Body::TableDump(route) => (2, table_dump(route, from, end)),
        Body::PeerTable(table) => (3, peer_table(table, from, end)),
        Body::Rib(rib) => (if rib.stated.is_some() { 5 } else { 4 }, routes(rib, from, end)),
        Body::Bgp4mp(event) => bgp4mp(event, from),
    }
}

fn part(from: usize, size: usize) -> [u64; 2] {
    [from as u64, size as u64]
}

/// From there up to the record's end.
fn rest(from: usize, end: usize) -> [u64; 2] {
    part(from, end - from)
}

fn table_dump(route: &TableDump, from: usize, end: usize) -> Vec<u64> {
    let address = route.prefix.octets().len();
    let mut words = vec![route.view.into(), route.sequence.into()];
    words.extend(part(from + 4, address));
    words.extend([u64::from(route.prefix_bits), route.status.into(), route.originated.into()]);
    words.extend(part(from + 10 + address, address));
    words.push(route.peer_as.number().into());
    words.extend(rest(from + 14 + 2 * address, end));
    words
}

fn peer_table(table: &PeerTable, from: usize, end: usize) -> Vec<u64> {
    let name = table.view_name.len();
    let mut words = vec![table.collector.into()];
    words.extend(part(from + 6, name));
    words.push(table.peers.len() as u64);
    words.extend(rest(from + 8 + name, end));
    words
}

/// Family and SAFI come last, where the record states them.
fn routes(rib: &Rib, from: usize, end: usize) -> Vec<u64> {
    let prefix = from + if rib.stated.is_some() { 8 } else { 5 };
    let size = rib.prefix.octets.len();
    let mut words = vec![rib.sequence.into(), rib.prefix.bits.into()];
    words.extend(part(prefix, size));
    words.push(rib.entries.len() as u64);
    words.extend(rest(prefix + size + 2, end));
    if let Some(stated) = &rib.stated {
        words.extend([u64::from(stated.family.code()), stated.safi.code().into()]);
    }
    words
}

fn bgp4mp(event: &Bgp4mp, from: usize) -> (u64, Vec<u64>) {
    let session = &event.session;
    let (peer, local) = (session.ends.peer(), session.ends.local());
    let numbers = match session.peer_as.width() {
        AsWidth::Two => 4,
        AsWidth::Four => 8,
    };
    let (address, size) = (from + numbers + 4, peer.octets().len());
    let mut words = vec![session.peer_as.number().into(), session.local_as.number().into()];
    words.extend([u64::from(session.interface), peer.family().code().into()]);
    words.extend(part(address, size));
    words.extend(part(address + size, local.octets().len()));
    match &event.event {
        Event::StateChange { old, new } => {
            words.extend([*old as u64, *new as u64]);
            (6, words)
        }
        Event::Message(message) => {
            words.extend(part(address + 2 * size, 19 + message.rest.len()));
            words.push(message.code.into());
            (7, words)
        }
    }
}

//! Records as a person reads them: a line each, in columns.

use crate::show::Out;
use crate::{kinds, moment};
use dagsumilat::{records, Fields, PeerTable, Record, Refusal};
use std::io::{self, Write};
use std::net::{IpAddr, Ipv4Addr, Ipv6Addr};

/// Of a view name as many characters are shown.
const SHOWN: usize = 40;

/// A line under a head, and how wide its columns are.
pub struct LongList {
    offset: usize,
    address: usize,
    /// How many records were shown.
    shown: u64,
}

impl LongList {
    /// For this dump: the columns are as wide as its offsets and addresses need.
    pub fn new(dump: &[u8]) -> LongList {
        let offset = dump.len().to_string().len().max("offset".len());
        let has_peer = |record: &Record| record.peer_as().is_some();
        let peers = records(dump).flatten().filter(has_peer).filter_map(|it| peer(&it.fields()));
        let address = peers.map(|(_, address)| width(address)).max().unwrap_or(0);
        LongList { offset, address: address.max("address".len()), shown: 0 }
    }

    pub fn start(&self, out: &mut Out) -> io::Result<()> {
        self.line(out, ["offset", "time", "kind", "peer AS", "address", "contents"])
    }

    fn line(&self, out: &mut Out, columns: [&str; 6]) -> io::Result<()> {
        let [offset, time, kind, number, address, contents] = columns;
        let LongList { offset: wide, address: long, .. } = *self;
        writeln!(
            out,
            "{offset:>wide$}  {time:<27}  {kind:<18}  {number:<12}  {address:<long$}  {contents}"
        )
    }

    pub fn record(&mut self, record: &Record, out: &mut Out) -> io::Result<()> {
        self.shown += 1;
        let fields = record.fields();
        let (number, address) = match peer(&fields) {
            Some((number, address)) => (format!("AS{number}"), address.to_string()),
            None => Default::default(),
        };
        let (offset, time) = (record.at.to_string(), moment::shown(record.time));
        let contents = contents(&fields);
        self.line(out, [&offset, &time, kind(record), &number, &address, &contents])
    }

    /// The last line says what was found of the whole dump.
    pub fn end(&self, dump: &[u8], out: &mut Out) -> io::Result<()> {
        let check = dagsumilat::check(dump);
        let (records, octets) = (check.records, dump.len());
        let shown = match self.shown == records {
            true => String::new(),
            false => format!(", {} of them shown", self.shown),
        };
        match check.refusal {
            None => writeln!(out, "good: {records} record(s), {octets} octets{shown}"),
            Some(Refusal { fault, place }) => {
                let (number, words) = (fault.number(), fault.words());
                let before = format!("behind {records} good record(s){shown}");
                writeln!(out, "fault {number} at octet {place}, {before}: {words}")
            }
        }
    }
}

/// All addresses of 4 octets have the same room.
fn width(address: IpAddr) -> usize {
    match address {
        IpAddr::V4(_) => "255.255.255.255".len(),
        IpAddr::V6(address) => address.to_string().len(),
    }
}

/// Who sent what the record has, where that is one peer.
fn peer(fields: &Fields) -> Option<(u32, IpAddr)> {
    match fields {
        Fields::TableDump(route) => Some((route.peer_as.into(), route.peer()?)),
        Fields::StateChange(change) => Some((change.session.peer_as, change.session.peer()?)),
        Fields::Message(message) => Some((message.session.peer_as, message.session.peer()?)),
        _ => None,
    }
}

fn kind(record: &Record) -> &'static str {
    let Record { type_code, subtype, .. } = *record;
    kinds::of_subtype(type_code, subtype).or(kinds::of_type(type_code)).unwrap_or_default()
}

fn contents(fields: &Fields) -> String {
    match fields {
        Fields::Unread(unread) => counted(unread.contents.len(), "octet", "octets"),
        Fields::TableDump(route) => prefix(route.prefix, route.prefix_length),
        Fields::PeerTable(table) => peers(table),
        Fields::Rib(rib) => {
            let is_long = matches!(rib.subtype, 4 | 5);
            entries(&address(rib.prefix, is_long), rib.prefix_length, rib.count)
        }
        Fields::RibGeneric(rib) => {
            let family = if rib.family == 2 { "IPv6" } else { "IPv4" };
            let safi = if rib.safi == 2 { "multicast" } else { "unicast" };
            let prefix = address(rib.prefix, rib.family == 2);
            format!("{family} {safi} {}", entries(&prefix, rib.prefix_length, rib.count))
        }
        Fields::StateChange(change) => {
            format!("{} -> {}", kinds::of_state(change.old), kinds::of_state(change.new))
        }
        Fields::Message(message) => {
            let name = kinds::of_message(message.type_octet().unwrap_or(0));
            format!("{name}, {}", counted(message.message.len(), "octet", "octets"))
        }
    }
}

fn counted(count: usize, one: &str, more: &str) -> String {
    format!("{count} {}", if count == 1 { one } else { more })
}

fn entries(address: &IpAddr, length: u8, count: u16) -> String {
    format!("{address}/{length}, {}", counted(count.into(), "entry", "entries"))
}

fn prefix(octets: &[u8], length: u8) -> String {
    format!("{}/{length}", address(octets, octets.len() > 4))
}

/// A prefix's octets as they stand, with zeros for those that are not there.
fn address(prefix: &[u8], is_long: bool) -> IpAddr {
    let octet = |at: usize| prefix.get(at).copied().unwrap_or(0);
    match is_long {
        true => Ipv6Addr::from(std::array::from_fn::<u8, 16, _>(octet)).into(),
        false => Ipv4Addr::from(std::array::from_fn::<u8, 4, _>(octet)).into(),
    }
}

/// A terminal would obey control characters in the name: they are spelled out.
fn peers(table: &PeerTable) -> String {
    let count = counted(table.count.into(), "peer", "peers");
    let name = table.name_text().unwrap_or_default();
    if name.is_empty() {
        return count;
    }
    let shown: String = name.chars().take(SHOWN).collect();
    let dots = if shown.len() < name.len() { "..." } else { "" };
    format!("view \"{}\"{dots}, {count}", shown.escape_debug())
}

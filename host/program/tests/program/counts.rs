//! What peers and the report of a cut count, against the second program's records of made-up dumps.

use crate::clock::micros;
use crate::run::{is_emulated, run_fed};
use compare::making::{any, ask, good, Known};
use second::bgp4mp::Event;
use second::dump::{Dump, Located};
use second::net::{Address, AsNumber};
use second::peer_table::Peer;
use second::record::Body;
use second::vectors::rng::Rng;
use std::collections::{BTreeMap, BTreeSet};
use std::net::IpAddr;

fn rounds() -> usize {
    if is_emulated() {
        40
    } else {
        500
    }
}

/// The rows of the report without that of octets, and what each AS has.
#[derive(Default)]
struct Seen {
    rows: [u64; 8],
    by_as: BTreeMap<u32, Of>,
}

#[derive(Default)]
struct Of {
    /// Peers, entries and records.
    counts: [u64; 3],
    times: Vec<u64>,
    addresses: BTreeSet<IpAddr>,
}

/// A peer, and a place to count it.
struct Named {
    number: u32,
    address: Address,
    column: usize,
}

impl Named {
    fn new(number: AsNumber, address: Address, column: usize) -> Named {
        Named { number: number.number(), address, column }
    }
}

const ENTRIES: usize = 6;
const PEERS: usize = 7;

impl Seen {
    fn of(octets: &[u8]) -> Seen {
        let (mut seen, mut table) = (Seen::default(), Vec::new());
        for Located { record, .. } in &Dump::read(octets).records {
            seen.rows[row(&record.body)] += 1;
            if let Body::PeerTable(found) = &record.body {
                table = found.peers.clone();
                seen.rows[PEERS] += table.len() as u64;
            }
            if let Body::Rib(rib) = &record.body {
                seen.rows[ENTRIES] += rib.entries.len() as u64;
            }
            let time = Some(record.time()).filter(|_| row(&record.body) != 0);
            named(&record.body, &table).iter().for_each(|named| seen.add(named, time));
        }
        seen
    }

    fn add(&mut self, named: &Named, time: Option<u64>) {
        let of = self.by_as.entry(named.number).or_default();
        of.counts[named.column] += 1;
        of.times.extend(time);
        of.addresses.insert(match named.address {
            Address::V4(octets) => octets.into(),
            Address::V6(octets) => octets.into(),
        });
    }
}

/// Who is named in a record; `table` has the peers of the table in force, or of this very record.
fn named(body: &Body, table: &[Peer]) -> Vec<Named> {
    let peer = |peer: &Peer, column| Named::new(peer.asn, peer.address, column);
    match body {
        Body::PeerTable(_) => table.iter().map(|it| peer(it, 0)).collect(),
        Body::Rib(rib) => {
            let peers = rib.entries.iter().map(|entry| &table[usize::from(entry.peer_index)]);
            peers.map(|it| peer(it, 1)).collect()
        }
        Body::TableDump(route) => vec![Named::new(route.peer_as, route.peer, 2)],
        Body::Bgp4mp(event) => {
            vec![Named::new(event.session.peer_as, event.session.ends.peer(), 2)]
        }
        Body::Unread(_) => Vec::new(),
    }
}

fn row(body: &Body) -> usize {
    match body {
        Body::PeerTable(_) => 0,
        Body::Rib(_) => 1,
        Body::TableDump(_) => 2,
        Body::Bgp4mp(event) => match event.event {
            Event::StateChange { .. } => 3,
            Event::Message(_) => 4,
        },
        Body::Unread(_) => 5,
    }
}

/// The numbers in a line, whatever stands between them.
fn numbers(line: &str) -> Vec<u64> {
    let words = line.split(|c: char| !c.is_ascii_digit());
    words.filter(|word| !word.is_empty()).map(|word| word.parse().unwrap()).collect()
}

/// An AS and its three counts, as lines of numbers.
fn lines_of(seen: &Seen) -> Vec<Vec<u64>> {
    let line = |(number, of): (&u32, &Of)| [&[u64::from(*number)], &of.counts[..]].concat();
    seen.by_as.iter().map(line).collect()
}

/// A line of peers: four numbers, two times or dashes, and addresses.
fn assert_line(line: &str, number: u32, of: &Of) {
    let words: Vec<&str> = line.split_whitespace().collect();
    assert_eq!(words.len(), 7, "{line}");
    let counts = words[..4].iter().map(|word| word.parse::<u64>().unwrap());
    assert!(counts.eq([u64::from(number)].into_iter().chain(of.counts)), "{line}");
    let times = words[4..6].iter().map(|word| (*word != "-").then(|| micros(word)));
    assert!(times.eq([of.times.iter().min(), of.times.iter().max()].map(|time| time.copied())));
    let addresses = words[6].split(',').map(|word| word.parse::<IpAddr>().unwrap());
    assert!(addresses.eq(of.addresses.iter().copied()), "{line}");
}

#[test]
fn peers_are_those_of_the_second_program() {
    let mut rng = Rng::seeded(64_500);
    let mut lines = 0;
    for _ in 0..rounds() {
        let octets = any(&mut rng).dump;
        let status = i32::from(Dump::read(&octets).end.fault.is_some());
        let run = run_fed(&["peers", "-"], &octets).ended(status);
        let (told, seen) = (run.out_text().lines().skip(1), Seen::of(&octets));
        assert_eq!(told.clone().count(), seen.by_as.len());
        told.zip(&seen.by_as).for_each(|(line, (number, of))| assert_line(line, *number, of));
        lines += seen.by_as.len();
    }
    assert!(lines > rounds());
}

/// What the report says: kept and gone, then who is left.
fn assert_report(words: &str, before: &Seen, after: &Seen) {
    let lines: Vec<&str> = words.lines().collect();
    let start = lines.iter().position(|line| line.starts_with("  peer tables ")).unwrap();
    for (row, line) in lines[start..][..8].iter().enumerate() {
        // The name of a row may have a number in it.
        let counts = numbers(&line[18..]);
        assert_eq!(counts, [after.rows[row], before.rows[row] - after.rows[row]], "{words}");
    }
    let left = lines.iter().filter(|line| line.starts_with("    AS"));
    let left: Vec<_> = left.map(|line| numbers(line)).collect();
    let expected = lines_of(after);
    assert_eq!(left, expected[..expected.len().min(20)], "{words}");
}

/// Small whole numbers are refused.
fn seconds(micros: u64) -> String {
    format!("{}.{:06}", micros / 1_000_000, micros % 1_000_000)
}

#[test]
fn the_report_is_that_of_the_second_program() {
    let mut rng = Rng::seeded(64_501);
    let mut changed = 0;
    for _ in 0..rounds() {
        let octets = [good(&mut rng), good(&mut rng), good(&mut rng)].concat();
        let ask = ask(&Known::of(&Dump::read(&octets)), &mut rng);
        let (from, to) = (ask.from.min(ask.to), ask.from.max(ask.to));
        let clip = second::cut::cut(&octets, from, to, &ask.list, octets.len()).octets;
        let mut words = vec![format!("--from={}", seconds(from)), format!("--to={}", seconds(to))];
        words.extend(ask.list.iter().map(|number| format!("--mute={number}")));
        words.extend(["cut", "-", "-o", "-"].map(String::from));
        words.rotate_right(4);
        let run = run_fed(&words, &octets).ended(0);
        assert_eq!(run.out, clip);
        assert_report(&run.err, &Seen::of(&octets), &Seen::of(&clip));
        changed += usize::from(!clip.is_empty() && clip != octets);
    }
    assert!(changed * 3 > rounds(), "few cuts change something");
}

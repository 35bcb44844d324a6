//! Dumps as a route collector writes them, made up.

use crate::random::Random;
use std::ops::RangeInclusive;

const ROUND: u32 = 1_772_366_400;

/// A dump, and the AS numbers of its peers.
pub struct Made {
    pub dump: Vec<u8>,
    pub numbers: Vec<u32>,
    /// Timestamps from the first record's up to and including the last one's.
    pub seconds: RangeInclusive<u32>,
}

pub struct Peer {
    pub wide_as: bool,
    ipv6: bool,
    octets: [u8; 40],
}

impl Peer {
    fn as_octets(&self) -> &[u8] {
        &self.octets[..if self.wide_as { 4 } else { 2 }]
    }

    pub fn number(&self) -> u32 {
        self.as_octets().iter().fold(0, |number, octet| number << 8 | u32::from(*octet))
    }

    pub fn renumber(&mut self, number: u32) {
        let size = self.as_octets().len();
        self.octets[..size].copy_from_slice(&number.to_be_bytes()[4 - size..]);
    }
}

pub fn peers(random: &mut Random, count: usize) -> Vec<Peer> {
    let mut peers = Vec::new();
    for _ in 0..count {
        let mut octets = [0; 40];
        octets.fill_with(|| random.next() as u8);
        peers.push(Peer { wide_as: !random.once_in(4), ipv6: random.once_in(3), octets });
    }
    peers
}

fn numbers(peers: &[Peer]) -> Vec<u32> {
    peers.iter().map(Peer::number).collect()
}

/// A record whose message `fill` writes.
pub fn record(
    out: &mut Vec<u8>,
    time: u32,
    kind: u16,
    subtype: u16,
    fill: impl FnOnce(&mut Vec<u8>),
) {
    out.extend(time.to_be_bytes());
    out.extend(kind.to_be_bytes());
    out.extend(subtype.to_be_bytes());
    let at = out.len();
    out.extend([0; 4]);
    fill(out);
    let length = (out.len() - at - 4) as u32;
    out[at..at + 4].copy_from_slice(&length.to_be_bytes());
}

/// Something behind the 2 octets of its length.
pub fn counted(out: &mut Vec<u8>, fill: impl FnOnce(&mut Vec<u8>)) {
    let at = out.len();
    out.extend([0; 2]);
    fill(out);
    let length = (out.len() - at - 2) as u16;
    out[at..at + 2].copy_from_slice(&length.to_be_bytes());
}

fn attribute(random: &mut Random, out: &mut Vec<u8>, flags: u8, code: u8, size: usize) {
    if size > 255 || random.once_in(6) {
        out.extend([flags | 16, code, (size >> 8) as u8, size as u8]);
    } else {
        out.extend([flags, code, size as u8]);
    }
    random.octets(out, size);
}

/// 40 to 120 octets of attributes.
pub fn attributes(random: &mut Random, out: &mut Vec<u8>, ipv6: bool) {
    let start = out.len();
    loop {
        attribute(random, out, 0x40, 1, 1); // ORIGIN
        let hops = random.within(1, 8);
        attribute(random, out, 0x40, 2, 2 + 4 * hops); // AS_PATH
        if ipv6 {
            attribute(random, out, 0x80, 14, 17); // MP_REACH_NLRI
        } else {
            attribute(random, out, 0x40, 3, 4); // NEXT_HOP
        }
        if random.once_in(2) {
            attribute(random, out, 0x80, 4, 4); // MULTI_EXIT_DISC
        }
        if random.once_in(10) {
            attribute(random, out, 0x40, 6, 0); // ATOMIC_AGGREGATE
            attribute(random, out, 0xc0, 7, 8); // AGGREGATOR
        }
        if !random.once_in(4) {
            let count = random.within(1, 12);
            attribute(random, out, 0xc0, 8, 4 * count); // COMMUNITIES
        }
        if random.once_in(5) {
            let count = random.within(1, 3);
            attribute(random, out, 0xc0, 32, 12 * count); // LARGE_COMMUNITY
        }
        if (40..=120).contains(&(out.len() - start)) {
            return;
        }
        out.truncate(start);
    }
}

pub fn session(out: &mut Vec<u8>, peer: &Peer) {
    let size = if peer.ipv6 { 16 } else { 4 };
    out.extend(peer.as_octets());
    out.extend(&64_512_u32.to_be_bytes()[4 - peer.as_octets().len()..]);
    out.extend([0, 0, 0, if peer.ipv6 { 2 } else { 1 }]);
    out.extend(&peer.octets[4..4 + size]);
    out.extend(&peer.octets[20..20 + size]);
}

pub fn bgp(out: &mut Vec<u8>, kind: u8, fill: impl FnOnce(&mut Vec<u8>)) {
    let at = out.len();
    out.extend([255; 16]);
    out.extend([0, 0, kind]);
    fill(out);
    let length = (out.len() - at) as u16;
    out[at + 16..at + 18].copy_from_slice(&length.to_be_bytes());
}

/// An UPDATE of about `size` octets.
fn update(random: &mut Random, out: &mut Vec<u8>, ipv6: bool, size: usize) {
    let start = out.len();
    bgp(out, 2, |out| {
        out.extend([0, 0]);
        counted(out, |out| attributes(random, out, ipv6));
        while out.len() - start + 4 <= size {
            out.push(24);
            random.octets(out, 3);
        }
    });
}

/// Updates: types 16 and 17, subtypes 1 and 4, and a few state changes.
pub fn updates(size: usize) -> Made {
    let mut random = Random::new(16);
    let random = &mut random;
    let peers = peers(random, 30);
    let mut out = Vec::with_capacity(size + 1000);
    let mut time = ROUND;
    while out.len() < size {
        time += random.once_in(300) as u32;
        let peer = &peers[random.within(0, 29)];
        let kind = if random.once_in(2) { 17 } else { 16 };
        let change = random.once_in(500);
        let subtype = match (change, peer.wide_as) {
            (true, false) => 0,
            (true, true) => 5,
            (false, false) => 1,
            (false, true) => 4,
        };
        record(&mut out, time, kind, subtype, |out| {
            if kind == 17 {
                out.extend((random.within(0, 999_999) as u32).to_be_bytes());
            }
            session(out, peer);
            if change {
                out.extend([0, random.within(1, 6) as u8, 0, random.within(1, 6) as u8]);
            } else if random.once_in(50) {
                bgp(out, 4, |_| {});
            } else {
                let size = random.within(63, 300);
                update(random, out, peer.ipv6, size);
            }
        });
    }
    Made { dump: out, numbers: numbers(&peers), seconds: ROUND..=time }
}

pub fn peer_table(out: &mut Vec<u8>, peers: &[Peer]) {
    named_table(out, b"view", peers);
}

pub fn named_table(out: &mut Vec<u8>, name: &[u8], peers: &[Peer]) {
    record(out, ROUND, 13, 1, |out| {
        out.extend([192, 0, 2, 1]);
        counted(out, |out| out.extend(name));
        out.extend((peers.len() as u16).to_be_bytes());
        for peer in peers {
            out.push(peer.ipv6 as u8 | (peer.wide_as as u8) << 1);
            let size = 4 + if peer.ipv6 { 16 } else { 4 };
            out.extend(&peer.octets[4..4 + size]);
            out.extend(peer.as_octets());
        }
    });
}

pub fn prefix(random: &mut Random, out: &mut Vec<u8>, bits: usize) {
    out.push(bits as u8);
    random.octets(out, bits.div_ceil(8));
}

/// So many entries of rising peers.
pub fn entries(random: &mut Random, out: &mut Vec<u8>, ipv6: bool, count: usize, peers: usize) {
    out.extend((count as u16).to_be_bytes());
    for number in 0..count {
        let index = random.within(number * peers / count, (number + 1) * peers / count - 1);
        entry(random, out, ipv6, index);
    }
}

fn entry(random: &mut Random, out: &mut Vec<u8>, ipv6: bool, index: usize) {
    out.extend((index as u16).to_be_bytes());
    out.extend((ROUND - random.within(0, 1_000_000) as u32).to_be_bytes());
    counted(out, |out| attributes(random, out, ipv6));
}

/// A table of so many peers, then type 13, subtypes 2 and 4, with 5 to 30 entries each.
pub fn table(size: usize, count: usize) -> Made {
    let mut random = Random::new(13);
    let peers = peers(&mut random, count);
    table_of(&mut random, size, &peers, |random, out, ipv6| {
        let entry_count = random.within(5, 30);
        entries(random, out, ipv6, entry_count, count);
    })
}

/// The same with these peers, and 5 to 20 entries of peers drawn anew for each: the entries' number
/// and how well they are foreseen is the same for 20 peers as for more.
pub fn drawn_table(random: &mut Random, size: usize, peers: &[Peer]) -> Made {
    table_of(random, size, peers, |random, out, ipv6| {
        let entry_count = random.within(5, 20);
        out.extend((entry_count as u16).to_be_bytes());
        for _ in 0..entry_count {
            let index = random.within(0, peers.len() - 1);
            entry(random, out, ipv6, index);
        }
    })
}

/// A table of these peers, then type 13, subtypes 2 and 4, whose counts and entries `fill` writes.
fn table_of(
    random: &mut Random,
    size: usize,
    peers: &[Peer],
    fill: impl Fn(&mut Random, &mut Vec<u8>, bool),
) -> Made {
    let mut out = Vec::with_capacity(size + 5000);
    peer_table(&mut out, peers);
    let mut sequence = 0_u32;
    while out.len() < size {
        let ipv6 = random.once_in(5);
        record(&mut out, ROUND, 13, if ipv6 { 4 } else { 2 }, |out| {
            out.extend(sequence.to_be_bytes());
            let bits = if ipv6 { random.within(24, 48) } else { random.within(12, 24) };
            prefix(random, out, bits);
            fill(random, out, ipv6);
        });
        sequence += 1;
    }
    Made { dump: out, numbers: numbers(peers), seconds: ROUND..=ROUND }
}

/// State changes alone, of types 16 and 17.
pub fn changes(size: usize) -> Made {
    let mut random = Random::new(17);
    let random = &mut random;
    let peers = peers(random, 30);
    let mut out = Vec::with_capacity(size + 1000);
    while out.len() < size {
        let peer = &peers[random.within(0, 29)];
        let kind = if random.once_in(2) { 17 } else { 16 };
        record(&mut out, ROUND, kind, if peer.wide_as { 5 } else { 0 }, |out| {
            if kind == 17 {
                out.extend((random.within(0, 999_999) as u32).to_be_bytes());
            }
            session(out, peer);
            out.extend([0, random.within(1, 6) as u8, 0, random.within(1, 6) as u8]);
        });
    }
    Made { dump: out, numbers: numbers(&peers), seconds: ROUND..=ROUND }
}

/// Records of type 12 alone. One sequence in a hundred does not follow the one before.
pub fn routes(size: usize) -> Made {
    let mut random = Random::new(12);
    let random = &mut random;
    let mut out = Vec::with_capacity(size + 1000);
    let (mut sequence, mut numbers) = (0_u16, Vec::new());
    while out.len() < size {
        let number = random.within(1, 30) as u16;
        route(random, &mut out, sequence, number);
        numbers.push(number.into());
        sequence = sequence.wrapping_add(if random.once_in(100) { 2 } else { 1 });
    }
    numbers.sort_unstable();
    numbers.dedup();
    Made { dump: out, numbers, seconds: ROUND..=ROUND }
}

/// A record of type 12 with this sequence and peer AS.
fn route(random: &mut Random, out: &mut Vec<u8>, sequence: u16, number: u16) {
    let (subtype, size) = if random.once_in(5) { (2, 16) } else { (1, 4) };
    record(out, ROUND, 12, subtype, |out| {
        out.extend([0, 0]);
        out.extend(sequence.to_be_bytes());
        random.octets(out, size);
        out.extend([random.within(8, 8 * size) as u8, 1]);
        random.octets(out, 4 + size);
        out.extend(number.to_be_bytes());
        counted(out, |out| attributes(random, out, size == 16));
    });
}

/// The most octets that a view name can have.
const NAME: usize = 65_535;

/// Peer tables without peers, at least one, each with a name as long as can be: this text over and
/// over.
pub fn names(size: usize, text: &str) -> Made {
    let mut name = text.repeat(NAME / text.len()).into_bytes();
    name.resize(NAME, b'z');
    let mut out = Vec::with_capacity(size + 2 * NAME);
    named_table(&mut out, &name, &[]);
    while out.len() < size {
        named_table(&mut out, &name, &[]);
    }
    Made { dump: out, numbers: Vec::new(), seconds: ROUND..=ROUND }
}

/// Names of characters of one octet, and of one to four in turn.
pub const ASCII: &str = "view";
pub const MIXED: &str = "v\u{e9}\u{4e2d}\u{1f600}";

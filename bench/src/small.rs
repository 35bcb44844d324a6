//! Small dumps with every layout, and damage to them.

use crate::made::Peer;
use crate::made::{attributes, bgp, counted, entries, named_table, peers, prefix, record, session};
use crate::random::Random;

/// Peer AS numbers: few, so that lists meet them, and some the same in their last 16 bits.
const NUMBERS: [u32; 6] = [0, 10, 20, 65_546, 655_370, u32::MAX];

pub fn number(random: &mut Random) -> u32 {
    NUMBERS[random.within(0, NUMBERS.len() - 1)]
}

fn numbered_peers(random: &mut Random, count: usize) -> Vec<Peer> {
    let mut peers = peers(random, count);
    for peer in &mut peers {
        peer.renumber(number(random));
    }
    peers
}

/// View names with characters of every size.
const NAMES: [&str; 5] =
    ["", "view", "vu\u{e9}", "\u{feff}\u{4e2d}\u{ffff}", "\0\u{1f600}\u{10ffff}"];

/// A surrogate, which is no text.
const NOT_TEXT: &[u8] = b"\xed\xa0\x80";

/// A peer table; once in 40 its name is not text.
fn table(random: &mut Random, out: &mut Vec<u8>, count: usize) {
    let text = NAMES[random.within(0, NAMES.len() - 1)];
    let name = if random.once_in(40) { NOT_TEXT } else { text.as_bytes() };
    named_table(out, name, &numbered_peers(random, count));
}

/// A table, most times, and up to seven records of any layout.
pub fn dump(random: &mut Random) -> Vec<u8> {
    let mut out = Vec::new();
    let most = random.within(1, 6);
    let mut told = random.within(1, 5);
    if !random.once_in(8) {
        table(random, &mut out, told);
    }
    for _ in 0..random.within(1, 7) {
        match random.within(1, 8) {
            1 => unread(random, &mut out),
            2 => table_dump(random, &mut out),
            3 => {
                told = random.within(1, 5);
                table(random, &mut out, told);
            }
            4 | 5 => rib(random, &mut out, most.min(told), told),
            _ => bgp4mp(random, &mut out),
        }
    }
    out
}

/// Up to 20 records of types 12, 16 and 17; sequences mostly go on, and often wrap.
pub fn sessions(random: &mut Random) -> Vec<u8> {
    let mut out = Vec::new();
    let mut sequence = [0, 250, 65_530][random.within(0, 2)];
    for _ in 0..random.within(1, 20) {
        if random.once_in(2) {
            bgp4mp(random, &mut out);
            continue;
        }
        let start = out.len();
        table_dump(random, &mut out);
        out[start + 14..start + 16].copy_from_slice(&u16::to_be_bytes(sequence));
        let step = if random.once_in(4) { random.within(0, 3) } else { 1 };
        sequence = sequence.wrapping_add(step as u16);
    }
    out
}

fn unread(random: &mut Random, out: &mut Vec<u8>) {
    let kind = [11, 32, 48, 33, 49][random.within(0, 4)];
    let (subtype, size) = (random.within(0, 9), random.within(4, 12));
    record(out, 1, kind, subtype as u16, |out| random.octets(out, size));
}

fn table_dump(random: &mut Random, out: &mut Vec<u8>) {
    let (subtype, size) = [(1, 4), (2, 16)][random.within(0, 1)];
    record(out, 2, 12, subtype, |out| {
        random.octets(out, 4 + size);
        out.push(random.within(0, 8 * size) as u8);
        random.octets(out, 5 + size);
        out.extend((number(random) as u16).to_be_bytes());
        counted(out, |out| attributes(random, out, size == 16));
    });
}

/// At most `most` entries, of a table that has `told` peers.
fn rib(random: &mut Random, out: &mut Vec<u8>, most: usize, told: usize) {
    let kinds = [(2, 32), (3, 32), (4, 128), (5, 128), (6, 32), (6, 128)];
    let (subtype, width) = kinds[random.within(0, 5)];
    record(out, 3, 13, subtype, |out| {
        random.octets(out, 4);
        if subtype == 6 {
            let family = if width == 32 { 1 } else { 2 };
            out.extend([0, family, random.within(1, 2) as u8]);
        }
        let bits = random.within(0, width);
        prefix(random, out, bits);
        let count = random.within(0, most);
        entries(random, out, width == 128, count, told);
    });
}

fn bgp4mp(random: &mut Random, out: &mut Vec<u8>) {
    let peer = &numbered_peers(random, 1)[0];
    let kind = random.within(16, 17) as u16;
    let subtypes = if peer.wide_as { [4, 5, 7] } else { [0, 1, 6] };
    let subtype = subtypes[random.within(0, 2)];
    record(out, 4, kind, subtype, |out| {
        random.octets(out, if kind == 17 { 4 } else { 0 });
        session(out, peer);
        if matches!(subtype, 0 | 5) {
            out.extend([0, random.within(1, 6) as u8, 0, random.within(1, 6) as u8]);
            return;
        }
        let (low, high) = if random.once_in(10) { (4095, 4097) } else { (19, 80) };
        let size = random.within(low, high);
        bgp(out, 2, |out| random.octets(out, size - 19));
    });
}

/// A few octets changed, inserted or removed, or the end cut off.
pub fn damage(random: &mut Random, dump: &mut Vec<u8>) {
    for _ in 0..random.within(0, 3) {
        if dump.is_empty() {
            return;
        }
        let at = random.within(0, dump.len() - 1);
        match random.within(1, 8) {
            1 => dump.truncate(at),
            2 => dump.insert(at, random.next() as u8),
            3 => drop(dump.remove(at)),
            4 | 5 => dump[at] = dump[at].wrapping_add(1),
            6 => dump[at] = dump[at].wrapping_sub(1),
            _ => dump[at] = random.next() as u8,
        }
    }
}

//! Document 01's cut in plain, safe Rust, written for speed: the dump is checked, then gone through
//! once more and written. Neighbouring records that stay as they are go to the buffer together.

#![forbid(unsafe_code)]

use crate::plain::{self, peer_size};
use std::ops::Range;

/// 0, or the number and place of the refusal, and how many octets were written.
#[derive(Clone, Copy, Debug, PartialEq, Eq)]
pub struct Answer {
    pub fault: u64,
    pub place: u64,
    pub written: u64,
}

fn refused(fault: u64, place: u64) -> Answer {
    Answer { fault, place, written: 0 }
}

/// What is left of a dump from `from` up to but not including `to`, without the listed peers.
pub fn cut(dump: &[u8], from: u64, to: u64, list: &[u32], out: &mut [u8]) -> Answer {
    if from > to {
        return refused(14, 0);
    }
    let checked = plain::dump(dump);
    if checked.fault != 0 {
        return refused(checked.fault, checked.place);
    }
    let muted = Muted::new(list);
    let window = from..to;
    // It is never longer than the dump.
    if out.len() < dump.len() && leave(dump, &window, &muted, Size(0)).0 > out.len() {
        return refused(15, 0);
    }
    let written = leave(dump, &window, &muted, Filled { out, size: 0 }).size();
    Answer { fault: 0, place: 0, written: written as u64 }
}

/// Puts what is left of a good dump.
fn leave<S: Sink>(dump: &[u8], window: &Range<u64>, muted: &Muted, sink: S) -> S {
    let mut cutter = Cutter { dump, window, muted, sink, run: 0, indexes: Vec::new(), lost: false };
    let mut at = 0;
    while at < dump.len() {
        at = cutter.record(at);
    }
    cutter.put_run(at, at);
    cutter.sink
}

/// Takes what is left, piece by piece.
trait Sink {
    fn size(&self) -> usize;
    fn put(&mut self, octets: &[u8]);
    /// An entry with another index.
    fn put_entry(&mut self, index: u16, entry: &[u8]);
    /// Other octets in the place of some that were put before.
    fn correct<const N: usize>(&mut self, at: usize, octets: [u8; N]);
}

/// How long it is.
struct Size(usize);

impl Sink for Size {
    #[inline(always)]
    fn size(&self) -> usize {
        self.0
    }

    #[inline(always)]
    fn put(&mut self, octets: &[u8]) {
        self.0 += octets.len();
    }

    #[inline(always)]
    fn put_entry(&mut self, _: u16, entry: &[u8]) {
        self.put(entry);
    }

    #[inline(always)]
    fn correct<const N: usize>(&mut self, _: usize, _: [u8; N]) {}
}

/// A buffer that is long enough, filled up to `size`.
struct Filled<'a> {
    out: &'a mut [u8],
    size: usize,
}

impl Sink for Filled<'_> {
    #[inline(always)]
    fn size(&self) -> usize {
        self.size
    }

    #[inline(always)]
    fn put(&mut self, octets: &[u8]) {
        let end = self.size + octets.len();
        self.out[self.size..end].copy_from_slice(octets);
        self.size = end;
    }

    #[inline(always)]
    fn put_entry(&mut self, index: u16, entry: &[u8]) {
        let end = self.size + entry.len();
        let put = &mut self.out[self.size..end];
        put.copy_from_slice(entry);
        put[..2].copy_from_slice(&index.to_be_bytes());
        self.size = end;
    }

    #[inline(always)]
    fn correct<const N: usize>(&mut self, at: usize, octets: [u8; N]) {
        self.out[at..at + N].copy_from_slice(&octets);
    }
}

/// The list, sorted, and a mark for the last 16 bits of each of its numbers, since most numbers
/// that are looked for are not on it.
struct Muted {
    marks: [u64; 1024],
    sorted: Vec<u32>,
}

impl Muted {
    fn new(list: &[u32]) -> Muted {
        let mut marks = [0; 1024];
        for number in list {
            marks[Muted::word(*number)] |= 1 << (number % 64);
        }
        let mut sorted = list.to_vec();
        sorted.sort_unstable();
        Muted { marks, sorted }
    }

    #[inline(always)]
    fn word(number: u32) -> usize {
        (number % 65_536 / 64) as usize
    }

    #[inline(always)]
    fn has(&self, number: u32) -> bool {
        self.marks[Muted::word(number)] >> (number % 64) & 1 != 0
            && self.sorted.binary_search(&number).is_ok()
    }
}

/// No index: a table has at most 65,535 peers.
const GONE: u16 = u16::MAX;

/// A run is put once it is longer, while it is still in the cache.
const RUN: usize = 2_048;

struct Cutter<'a, S> {
    dump: &'a [u8],
    window: &'a Range<u64>,
    muted: &'a Muted,
    sink: S,
    /// From here up to the record at hand everything stays and is not yet put.
    run: usize,
    /// The new index of each peer of the table in force.
    indexes: Vec<u16>,
    /// Whether a peer of that table went.
    lost: bool,
}

#[inline(always)]
fn u16_at(octets: &[u8], at: usize) -> u16 {
    u16::from_be_bytes(*octets[at..].first_chunk().expect("a field of a good record"))
}

#[inline(always)]
fn u32_at(octets: &[u8], at: usize) -> u32 {
    u32::from_be_bytes(*octets[at..].first_chunk().expect("a field of a good record"))
}

impl<S: Sink> Cutter<'_, S> {
    /// The record at `at`; where the next one starts.
    #[inline(always)]
    fn record(&mut self, at: usize) -> usize {
        let next = at + 12 + u32_at(&self.dump[at..], 8) as usize;
        let record = &self.dump[at..next];
        let (kind, subtype) = (u16_at(record, 4), u16_at(record, 6));
        if at - self.run > RUN {
            self.put_run(at, at);
        }
        match (kind, subtype) {
            (13, 1) => self.peer_table(at, next),
            (13, _) if self.holds(record, 0) && self.lost => self.rib(at, next, subtype),
            _ if self.stays(record, kind, subtype) => {}
            _ => self.put_run(at, next),
        }
        next
    }

    /// Puts what stays up to `at`; the next run starts at `next`.
    #[inline(always)]
    fn put_run(&mut self, at: usize, next: usize) {
        self.sink.put(&self.dump[self.run..at]);
        self.run = next;
    }

    #[inline(always)]
    fn holds(&self, record: &[u8], micro: u32) -> bool {
        self.window.contains(&(u64::from(u32_at(record, 0)) * 1_000_000 + u64::from(micro)))
    }

    /// Whether a record stays as it is. RIB records are asked after only where no peer went.
    #[inline(always)]
    fn stays(&self, record: &[u8], kind: u16, subtype: u16) -> bool {
        match kind {
            16 | 17 => {
                // Both are there in either type; a misprediction takes longer than loading both.
                let (first, second) = (u32_at(record, 12), u32_at(record, 16));
                let (micro, number) = if kind == 17 { (first, second) } else { (0, first) };
                let narrow = if matches!(subtype, 4 | 5 | 7) { 0 } else { 16 };
                self.holds(record, micro) && !self.muted.has(number >> narrow)
            }
            12 => {
                let at = if subtype == 1 { 30 } else { 54 };
                self.holds(record, 0) && !self.muted.has(u16_at(record, at).into())
            }
            33 | 49 => self.holds(record, u32_at(record, 12)),
            _ => self.holds(record, 0),
        }
    }

    fn peer_table(&mut self, at: usize, next: usize) {
        let first = at + 20 + u16_at(self.dump, at + 16) as usize;
        let kept = self.number_peers(&self.dump[first..next]);
        if !self.lost {
            return;
        }
        self.put_run(at, at);
        let start = self.sink.size();
        let mut place = first;
        for index in 0..self.indexes.len() {
            let after = place + peer_size(self.dump[place]);
            if self.indexes[index] == GONE {
                self.put_run(place, after);
            }
            place = after;
        }
        self.put_run(next, next);
        self.correct(start, first - at, kept);
    }

    /// Gives each peer its new index; how many stay.
    fn number_peers(&mut self, mut peers: &[u8]) -> u16 {
        self.indexes.clear();
        let mut kept = 0;
        while !peers.is_empty() {
            let (peer, after) = peers.split_at(peer_size(peers[0]));
            let wide = peer[0] & 2 != 0;
            let last = u32_at(peer, peer.len() - 4);
            let gone = self.muted.has(if wide { last } else { last % 65_536 });
            self.indexes.push(if gone { GONE } else { kept });
            kept += u16::from(!gone);
            peers = after;
        }
        self.lost = usize::from(kept) != self.indexes.len();
        kept
    }

    fn rib(&mut self, at: usize, next: usize, subtype: u16) {
        let record = &self.dump[at..next];
        // Where the prefix length stands.
        let bits = if subtype == 6 { 19 } else { 16 };
        let (head, mut entries) = record.split_at(bits + 3 + record[bits].div_ceil(8) as usize);
        if entries.is_empty() {
            return;
        }
        self.put_run(at, next);
        let start = self.sink.size();
        let mut kept = 0_u16;
        while let Some([i0, i1, _, _, _, _, s0, s1]) = entries.first_chunk() {
            let size = 8 + usize::from(u16::from_be_bytes([*s0, *s1]));
            let index = self.indexes[usize::from(u16::from_be_bytes([*i0, *i1]))];
            let (entry, after) = entries.split_at(size);
            entries = after;
            if index == GONE {
                continue;
            }
            // Not before it is known that an entry stays.
            if kept == 0 {
                self.sink.put(head);
            }
            self.sink.put_entry(index, entry);
            kept += 1;
        }
        if kept > 0 {
            self.correct(start, head.len(), kept);
        }
    }

    /// Length, and the count that ends a head of so many octets.
    fn correct(&mut self, start: usize, head: usize, count: u16) {
        let length = (self.sink.size() - start - 12) as u32;
        self.sink.correct(start + 8, length.to_be_bytes());
        self.sink.correct(start + head - 2, count.to_be_bytes());
    }
}

//! Records of every layout, written octet by octet from document 01.

use super::names;
use second::vectors::rng::Rng;

/// Each type that is read, and the subtypes to draw from; any will do where it is carried unread.
pub const LAYOUTS: [(u16, &[u16]); 9] = [
    (11, &[0, 1, 65_535]),
    (12, &[1, 2]),
    (13, &[1, 2, 3, 4, 5, 6]),
    (16, &[0, 1, 4, 5, 6, 7]),
    (17, &[0, 1, 4, 5, 6, 7]),
    (32, &[0, 7]),
    (33, &[0, 7]),
    (48, &[0, 9]),
    (49, &[0, 9]),
];

/// Few Timestamps, so that a window's edges meet them, the largest ones included.
const TIMESTAMPS: [u32; 7] = [0, 1, 2, 3, 1_772_366_400, u32::MAX - 1, u32::MAX];

/// Microseconds up to and past one second, and the largest.
const MICROSECONDS: [u32; 7] = [0, 1, 999_999, 1_000_000, 1_000_001, 2_500_000, u32::MAX];

/// AS numbers that meet each other and lists; 10, 65,546 and 131,082 are the same in 16 bits, as
/// are 0 and 655,360.
pub const NUMBERS: [u32; 9] = [0, 10, 20, 23_456, 65_535, 65_546, 131_082, 655_360, u32::MAX];

/// Writes records one after the other, minding the table in force.
pub struct Maker<'a> {
    pub rng: &'a mut Rng,
    /// One field in so many slips over an edge; 0 for none at all.
    slips: usize,
    /// AS numbers to draw from.
    numbers: &'a [u32],
    out: Vec<u8>,
    /// The peers of the table in force.
    peers: Option<usize>,
}

impl<'a> Maker<'a> {
    pub fn new(rng: &'a mut Rng, slips: usize) -> Maker<'a> {
        Maker { rng, slips, numbers: &NUMBERS, out: Vec::new(), peers: None }
    }

    /// Without slips, and most AS numbers are of these.
    pub fn drawing(numbers: &'a [u32], rng: &'a mut Rng) -> Maker<'a> {
        Maker { numbers, ..Maker::new(rng, 0) }
    }

    /// So many records.
    pub fn records(mut self, count: usize) -> Vec<u8> {
        for _ in 0..count {
            self.any();
        }
        self.out
    }

    pub fn size(&self) -> usize {
        self.out.len()
    }

    pub fn into_octets(self) -> Vec<u8> {
        self.out
    }

    pub fn any(&mut self) {
        let (code, subtypes) = *self.rng.pick(&LAYOUTS);
        let subtype = *self.rng.pick(subtypes);
        let tables_first = self.peers.is_none() && !self.slip();
        match (code, subtype) {
            (12, _) => self.table_dump(subtype),
            (13, 2..) if tables_first => self.small_table(),
            (13, 1) => self.small_table(),
            (13, _) => {
                let count = self.rng.below(6);
                self.rib(subtype, count);
            }
            (16 | 17, _) => self.bgp4mp(code, subtype),
            _ => {
                let subtype = if self.half() { subtype } else { self.rng.word() as u16 };
                let size = self.rng.below(20);
                self.record(code, subtype, |maker| maker.any_octets(size));
            }
        }
    }

    fn half(&mut self) -> bool {
        self.rng.below(2) == 0
    }

    fn slip(&mut self) -> bool {
        self.slips != 0 && self.rng.below(self.slips) == 0
    }

    fn u16(&mut self, value: usize) {
        self.out.extend((value as u16).to_be_bytes());
    }

    fn any_octets(&mut self, count: usize) {
        for _ in 0..count {
            self.out.push(self.rng.word() as u8);
        }
    }

    /// A header, the microseconds where there are some, and what `fill` writes. A slip spoils the
    /// end of the message, its Length or its type.
    fn record(&mut self, code: u16, subtype: u16, fill: impl FnOnce(&mut Self)) {
        let start = self.out.len();
        self.out.extend(self.rng.pick(&TIMESTAMPS).to_be_bytes());
        self.out.extend(code.to_be_bytes());
        self.out.extend(subtype.to_be_bytes());
        self.out.extend([0; 4]);
        if matches!(code, 17 | 33 | 49) {
            let any = self.rng.word() as u32;
            let microsecond = if self.half() { any } else { *self.rng.pick(&MICROSECONDS) };
            self.out.extend(microsecond.to_be_bytes());
        }
        fill(self);
        if self.slip() {
            self.spoil_end(start + 12);
        }
        let length = (self.out.len() - start - 12) as u32;
        self.out[start + 8..start + 12].copy_from_slice(&length.to_be_bytes());
        if self.slip() {
            self.spoil_header(start);
        }
    }

    /// Octets missing or too many, with the right Length for them.
    fn spoil_end(&mut self, message: usize) {
        if self.half() {
            let size = self.out.len() - message;
            let fewer = 1 + if self.half() { self.rng.below(4) } else { self.rng.below(size + 1) };
            self.out.truncate(message + size.saturating_sub(fewer));
        } else {
            let more = 1 + self.rng.below(4);
            self.any_octets(more);
        }
    }

    /// Another type, subtype or Length.
    fn spoil_header(&mut self, start: usize) {
        let [field, value] = match self.rng.below(4) {
            0 => [5, self.rng.below(60) as u8],
            1 => [7, self.rng.below(10) as u8],
            2 => [11, self.out[start + 11].wrapping_add(1)],
            _ => [11, self.out[start + 11].wrapping_sub(1)],
        };
        self.out[start + usize::from(field)] = value;
    }

    /// An AS number of 2 or 4 octets.
    fn number(&mut self, wide: bool) {
        let drawn = *self.rng.pick(self.numbers);
        let number = if self.rng.below(6) == 0 { self.rng.word() as u32 } else { drawn };
        let octets = number.to_be_bytes();
        self.out.extend(if wide { &octets } else { &octets[2..] });
    }

    fn small_table(&mut self) {
        let count = self.rng.below(6);
        self.table(count);
    }

    pub fn table(&mut self, count: usize) {
        let name = self.name();
        self.record(13, 1, |maker| {
            maker.any_octets(4);
            maker.u16(name.len());
            maker.out.extend(name);
            let slipped = if maker.half() { count + 1 } else { count.wrapping_sub(1) };
            let told = if maker.slip() { slipped } else { count };
            maker.u16(told);
            for _ in 0..count {
                maker.peer();
            }
        });
        self.peers = Some(count);
    }

    /// Text; a slip is none.
    fn name(&mut self) -> Vec<u8> {
        let size = *self.rng.pick(&[0, 0, 1, 4, 255, 256]);
        // More often than other fields, since few records are tables.
        if self.slip() || self.slip() {
            return names::spoiled(size, self.rng);
        }
        names::text(size, self.rng)
    }

    pub fn peer(&mut self) {
        let octet = self.rng.word() as u8;
        self.out.push(octet);
        self.any_octets(4 + if octet & 1 != 0 { 16 } else { 4 });
        self.number(octet & 2 != 0);
    }

    /// A RIB record with up to `count` entries: none if there are no peers to name.
    pub fn rib(&mut self, subtype: u16, count: usize) {
        let peers = self.peers.unwrap_or(0);
        let count = if peers == 0 && !self.slip() { 0 } else { count };
        self.record(13, subtype, |maker| {
            maker.any_octets(4);
            let bits = match subtype {
                2 | 3 => 32,
                4 | 5 => 128,
                _ => maker.stated_family(),
            };
            let prefix = maker.prefix_length(bits);
            maker.any_octets(prefix.div_ceil(8));
            let told = if maker.slip() { count + 1 } else { count };
            maker.u16(told);
            for _ in 0..count {
                maker.entry(peers);
            }
        });
    }

    pub fn entry(&mut self, peers: usize) {
        let index = match self.rng.below(4) {
            // More often than other fields, since so much has to be right before it.
            _ if self.slip() || self.slip() => peers + self.rng.below(3),
            0 => 0,
            1 => peers.saturating_sub(1),
            _ => self.rng.below(peers.max(1)),
        };
        self.u16(index);
        self.any_octets(4);
        self.attributes();
    }

    /// The family and SAFI of subtype 6; the most bits of a prefix.
    fn stated_family(&mut self) -> usize {
        let bits = self.family();
        let safi = if self.slip() { *self.rng.pick(&[0, 3, 128]) } else { 1 + self.rng.below(2) };
        self.out.push(safi as u8);
        bits
    }

    /// A family; the bits of its addresses.
    fn family(&mut self) -> usize {
        let good = 1 + self.rng.below(2);
        let family = if self.slip() { *self.rng.pick(&[0, 3, 256, 257, 513]) } else { good };
        self.u16(family);
        if good == 2 {
            128
        } else {
            32
        }
    }

    fn prefix_length(&mut self, most: usize) -> usize {
        let length = match self.rng.below(6) {
            _ if self.slip() => *self.rng.pick(&[most + 1, 255]),
            0 => most,
            1 => 8 * self.rng.below(most / 8),
            _ => self.rng.below(most + 1),
        };
        self.out.push(length as u8);
        length
    }

    /// Attributes behind their length; a slip makes it one off.
    fn attributes(&mut self) {
        let at = self.out.len();
        self.u16(0);
        for _ in 0..self.rng.below(4) {
            self.attribute();
        }
        let mut size = self.out.len() - at - 2;
        if self.slip() {
            size = if self.half() { size + 1 } else { size.saturating_sub(1) };
        }
        self.out[at..at + 2].copy_from_slice(&(size as u16).to_be_bytes());
    }

    pub fn attribute(&mut self) {
        let flags = self.rng.word() as u8;
        let extended = flags & 16 != 0;
        let size = match self.rng.below(2000) {
            0 if extended => 20_000,
            0..=99 => 255,
            100..=199 if extended => 256,
            _ => self.rng.below(12),
        };
        self.out.extend([flags, self.rng.word() as u8]);
        if extended {
            self.out.push((size >> 8) as u8);
        }
        self.out.push(size as u8);
        self.any_octets(size);
    }

    fn table_dump(&mut self, subtype: u16) {
        let size = if subtype == 2 { 16 } else { 4 };
        self.record(12, subtype, |maker| {
            maker.any_octets(4 + size);
            maker.prefix_length(8 * size);
            maker.any_octets(1 + 4 + size);
            maker.number(false);
            maker.attributes();
        });
    }

    /// A type 12 record with this sequence; without slips, so that it is all there.
    pub fn route(&mut self, sequence: u16) {
        let (start, subtype) = (self.out.len(), 1 + self.rng.below(2) as u16);
        self.table_dump(subtype);
        self.out[start + 14..start + 16].copy_from_slice(&sequence.to_be_bytes());
    }

    /// A state change of either type and either subtype.
    pub fn change(&mut self) {
        let (code, subtype) = (*self.rng.pick(&[16, 17]), *self.rng.pick(&[0, 5]));
        self.bgp4mp(code, subtype);
    }

    fn bgp4mp(&mut self, code: u16, subtype: u16) {
        let wide = matches!(subtype, 4 | 5 | 7);
        self.record(code, subtype, |maker| {
            maker.number(wide);
            maker.number(wide);
            maker.any_octets(2);
            let address = maker.family() / 8;
            maker.any_octets(2 * address);
            if matches!(subtype, 0 | 5) {
                maker.state();
                maker.state();
            } else {
                maker.bgp_message();
            }
        });
    }

    fn state(&mut self) {
        let good = 1 + self.rng.below(6);
        let state = if self.slip() { *self.rng.pick(&[0, 7, 8, 256, 257]) } else { good };
        self.u16(state);
    }

    /// A BGP message: mostly short, now and then of the most octets there may be or one fewer. A
    /// slip is one octet less or more than it may have, or a length field that is one off.
    pub fn bgp_message(&mut self) {
        let size = match self.rng.below(40) {
            _ if self.slip() => *self.rng.pick(&[18, 4097]),
            0 => 4096,
            1 => 4095,
            2..=9 => 19,
            _ => 19 + self.rng.below(60),
        };
        let slipped = if self.half() { size + 1 } else { size - 1 };
        let told = if self.slip() { slipped } else { size };
        self.any_octets(16);
        self.u16(told);
        self.any_octets(size - 18);
    }
}

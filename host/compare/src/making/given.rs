//! What the seven writers are given: fields at and over their bounds, any two of them at fault.

use super::names;
use super::records::Maker;
use second::vectors::rng::Rng;
use second::writers::{
    Change, Given, Message, PeerTable, Rib, RibGeneric, Routes, Session, TableDump, Time, Unread,
};

#[derive(Clone, Copy, Debug, PartialEq, Eq)]
pub enum Writer {
    Unread,
    TableDump,
    PeerTable,
    Rib,
    RibGeneric,
    Change,
    Message,
}

impl Writer {
    pub const ALL: [Writer; 7] = [
        Writer::Unread,
        Writer::TableDump,
        Writer::PeerTable,
        Writer::Rib,
        Writer::RibGeneric,
        Writer::Change,
        Writer::Message,
    ];

    pub fn of(given: &Given) -> Writer {
        match given {
            Given::Unread(_) => Writer::Unread,
            Given::TableDump(_) => Writer::TableDump,
            Given::PeerTable(_) => Writer::PeerTable,
            Given::Rib(_) => Writer::Rib,
            Given::RibGeneric(_) => Writer::RibGeneric,
            Given::Change(_) => Writer::Change,
            Given::Message(_) => Writer::Message,
        }
    }

    /// The most turns that one has.
    pub const MOST_TURNS: usize = 11;

    /// How many turns its fields have: one each, but two for a name, for entries and for a message,
    /// and none for contents, which are never at fault.
    pub fn turns(self) -> usize {
        match self {
            Writer::Unread => 4,
            Writer::TableDump => 11,
            Writer::PeerTable => 6,
            Writer::Rib => 9,
            Writer::RibGeneric => 10,
            Writer::Change | Writer::Message => 11,
        }
    }

    /// The numbers that it can answer, by the documents' tables and its fields.
    pub fn answers(self) -> &'static [u8] {
        match self {
            Writer::Unread => &[0, 3, 6, 15],
            Writer::TableDump => &[0, 4, 5, 6, 8, 11, 15],
            Writer::PeerTable => &[0, 5, 6, 15, 17],
            Writer::Rib => &[0, 4, 5, 6, 8, 11, 12, 13, 15],
            Writer::RibGeneric => &[0, 5, 6, 7, 8, 11, 12, 13, 15],
            Writer::Change => &[0, 4, 5, 6, 7, 9, 15],
            Writer::Message => &[0, 4, 5, 6, 7, 10, 15],
        }
    }
}

/// The turn of a peer table's name to be text.
const NAME: usize = 3;

/// A call of a writer.
pub struct MadeGiven {
    pub given: Given,
    /// Which turns slipped.
    pub slipped: [bool; Writer::MOST_TURNS],
}

pub fn given(writer: Writer, rng: &mut Rng) -> MadeGiven {
    let turns = writer.turns();
    let slips = match rng.below(5) {
        0 => Slips::None,
        1 => Slips::Often,
        _ => Slips::Two([rng.below(turns), rng.below(turns)]),
    };
    let mut maker = GivenMaker { rng, slips, slipped: [false; Writer::MOST_TURNS], turn: 0 };
    let given = maker.given(writer);
    debug_assert_eq!(maker.turn, turns, "{writer:?}");
    MadeGiven { given, slipped: maker.slipped }
}

/// A call of the writer of peer tables, one in two with a name that is not text, some of these with
/// another fault, before or after it.
pub fn named(rng: &mut Rng) -> Given {
    let turn = rng.below(Writer::PeerTable.turns());
    let slips = match rng.below(8) {
        0..=2 => Slips::Two([NAME; 2]),
        3 => Slips::Two([NAME, turn]),
        4 => Slips::Two([turn; 2]),
        _ => Slips::None,
    };
    let mut maker = GivenMaker { rng, slips, slipped: [false; Writer::MOST_TURNS], turn: 0 };
    Given::PeerTable(maker.peer_table())
}

/// Room about the size of what is written; any where nothing is.
pub fn room(size: usize, rng: &mut Rng) -> usize {
    match rng.below(6) {
        0 => 0,
        1 => size.saturating_sub(1),
        2 => rng.below(size + 40),
        3 => size + 1 + rng.below(100),
        _ => size,
    }
}

/// Which fields are at fault.
enum Slips {
    None,
    /// One field in four.
    Often,
    /// Those whose turn it is.
    Two([usize; 2]),
}

struct GivenMaker<'a> {
    rng: &'a mut Rng,
    slips: Slips,
    slipped: [bool; Writer::MOST_TURNS],
    /// How many turns there have been.
    turn: usize,
}

impl GivenMaker<'_> {
    fn given(&mut self, writer: Writer) -> Given {
        match writer {
            Writer::Unread => Given::Unread(self.unread()),
            Writer::TableDump => Given::TableDump(self.table_dump()),
            Writer::PeerTable => Given::PeerTable(self.peer_table()),
            Writer::Rib => Given::Rib(self.rib()),
            Writer::RibGeneric => Given::RibGeneric(self.rib_generic()),
            Writer::Change => Given::Change(self.change()),
            Writer::Message => Given::Message(self.message()),
        }
    }

    /// Asked once in each turn.
    fn slip(&mut self) -> bool {
        let slips = match self.slips {
            Slips::None => false,
            Slips::Often => self.rng.below(4) == 0,
            Slips::Two(turns) => turns.contains(&self.turn),
        };
        self.slipped[self.turn] = slips;
        self.turn += 1;
        slips
    }

    /// A number of so many octets; a slip is too large, and often the same in its low bits as one
    /// that is not.
    fn number(&mut self, octets: u32) -> u64 {
        let bound = 1 << (8 * octets);
        let any = self.rng.word() % bound;
        let good = *self.rng.pick(&[0, 1, bound - 1, any, any]);
        if !self.slip() {
            return good;
        }
        self.too_large(good, bound)
    }

    fn too_large(&mut self, good: u64, bound: u64) -> u64 {
        let wider = good | (bound << self.rng.below(bound.leading_zeros() as usize + 1));
        *self.rng.pick(&[bound, bound + 1, wider, wider, 1 << 32 | bound, 1 << 63, u64::MAX])
    }

    /// A number of two octets that is one of these; a slip is one of the others or too large.
    fn choice(&mut self, good: &[u64], bad: &[u64]) -> u64 {
        let one = *self.rng.pick(good);
        if !self.slip() {
            return one;
        }
        match self.rng.below(3) {
            0 => self.too_large(one, 1 << 16),
            _ => *self.rng.pick(bad),
        }
    }

    /// So many octets; a slip has a few less or more, or another family's.
    fn part(&mut self, size: usize) -> Vec<u8> {
        let size = match self.rng.below(6) {
            _ if !self.slip() => size,
            0 | 1 => size.saturating_sub(1),
            2 | 3 => size + 1,
            4 => 0,
            _ => *self.rng.pick(&[4, 16, 17, 70_000]),
        };
        self.rng.octets(size)
    }

    fn timestamp(&mut self) -> u64 {
        self.number(4)
    }

    /// Half of them have no microseconds, whatever became of that turn.
    fn time(&mut self) -> Time {
        let (seconds, micro) = (self.timestamp(), self.number(4));
        if self.rng.below(2) == 0 {
            return Time::Seconds(seconds);
        }
        Time::Micro { seconds, micro }
    }

    fn unread(&mut self) -> Unread {
        let time = self.time();
        let codes: &[u64] = match time {
            Time::Seconds(_) => &[11, 32, 48],
            Time::Micro { .. } => &[33, 49],
        };
        let code = self.choice(codes, &[0, 10, 11, 12, 13, 16, 17, 32, 33, 34, 48, 49, 65_535]);
        let size = *self.rng.pick(&[0, 1, 20, 300]);
        Unread { time, code, subtype: self.number(2), contents: self.rng.octets(size) }
    }

    fn table_dump(&mut self) -> TableDump {
        let timestamp = self.timestamp();
        let subtype = self.choice(&[1, 2], &[0, 3, 4, 257, 65_535]);
        let address = if subtype == 2 { 16 } else { 4 };
        TableDump {
            timestamp,
            subtype,
            view: self.number(2),
            sequence: self.number(2),
            prefix: self.part(address),
            bits: self.bits(8 * address as u64),
            status: self.number(1),
            originated: self.number(4),
            address: self.part(address),
            peer_as: self.number(2),
            attributes: self.attributes(),
        }
    }

    /// A prefix length up to this one.
    fn bits(&mut self, most: u64) -> u64 {
        let any = self.rng.word() % (most + 1);
        let good = *self.rng.pick(&[0, most, any, any, any]);
        if !self.slip() {
            return good;
        }
        *self.rng.pick(&[most + 1, most + 8, 129, 255, 256, 256 + good, u64::MAX])
    }

    /// Rarely as many octets as there may be, or one more; a slip does not fill its octets.
    fn attributes(&mut self) -> Vec<u8> {
        let slip = self.slip();
        if self.rng.below(400) == 0 {
            return filling(if slip { 65_536 } else { 65_535 });
        }
        let count = self.rng.below(4);
        let mut maker = Maker::new(self.rng, 0);
        (0..count).for_each(|_| maker.attribute());
        let octets = maker.into_octets();
        if slip {
            return self.spoilt(octets);
        }
        octets
    }

    /// An octet less or more at the end.
    fn spoilt(&mut self, mut octets: Vec<u8>) -> Vec<u8> {
        if self.rng.below(2) == 0 && octets.pop().is_some() {
            return octets;
        }
        octets.push(self.rng.word() as u8);
        octets
    }

    fn peer_table(&mut self) -> PeerTable {
        let (timestamp, collector) = (self.timestamp(), self.number(4));
        let name = self.name();
        let count = self.count();
        let mut maker = Maker::new(self.rng, 0);
        (0..count).for_each(|_| maker.peer());
        let peers = maker.into_octets();
        let told = self.told(count);
        let peers = if self.slip() { self.spoilt(peers) } else { peers };
        PeerTable { timestamp, collector, name, count: told, peers }
    }

    /// A slip is too long, another one is no text.
    fn name(&mut self) -> Vec<u8> {
        let size = match (self.slip(), self.rng.below(300)) {
            (true, _) => *self.rng.pick(&[65_536, 65_537, 131_072]),
            (false, 0) => 65_535,
            (false, _) => *self.rng.pick(&[0, 1, 7, 255, 256]),
        };
        if self.slip() {
            return names::spoiled(size, self.rng);
        }
        names::text(size, self.rng)
    }

    /// How many items: few, rarely more than one octet can count, and more rarely the most.
    fn count(&mut self) -> usize {
        match self.rng.below(20_000) {
            0 => 65_535,
            1..=50 => 255 + self.rng.below(50),
            drawn => drawn % 6,
        }
    }

    /// The count that goes with them; a slip is another one.
    fn told(&mut self, count: usize) -> u64 {
        let count = count as u64;
        if !self.slip() {
            return count;
        }
        *self.rng.pick(&[count + 1, count.saturating_sub(1), 65_535, 65_536, 65_536 + count])
    }

    /// A table, and how many peers the entries may name. A slip is none, or a smaller one.
    fn table(&mut self) -> (Option<u64>, usize) {
        let peers = *self.rng.pick(&[0, 1, 2, 5, 300, 65_535, 65_536]);
        let large = *self.rng.pick(&[peers as u64, peers as u64, u64::MAX - 1]);
        match self.rng.below(3) {
            _ if !self.slip() => (Some(large), peers),
            0 => (Some(0), peers),
            1 => (Some(peers.saturating_sub(1) as u64), peers),
            _ => (None, peers),
        }
    }

    fn rib(&mut self) -> Rib {
        let timestamp = self.timestamp();
        let subtype = self.choice(&[2, 3, 4, 5], &[0, 1, 6, 7, 258, 65_535]);
        let (table, peers) = self.table();
        let most = if matches!(subtype, 4 | 5) { 128 } else { 32 };
        let sequence = self.number(4);
        Rib { timestamp, subtype, table, sequence, routes: self.routes(most, peers) }
    }

    fn rib_generic(&mut self) -> RibGeneric {
        let timestamp = self.timestamp();
        let (table, peers) = self.table();
        let sequence = self.number(4);
        let (family, safi) = (self.family(), self.safi());
        let most = if family == 2 { 128 } else { 32 };
        RibGeneric { timestamp, table, sequence, family, safi, routes: self.routes(most, peers) }
    }

    fn family(&mut self) -> u64 {
        self.choice(&[1, 2], &[0, 3, 256, 257, 258, 65_535])
    }

    fn safi(&mut self) -> u64 {
        if self.slip() {
            return *self.rng.pick(&[0, 3, 128, 255, 256, 257, 258, u64::MAX]);
        }
        1 + self.rng.below(2) as u64
    }

    fn routes(&mut self, most: u64, peers: usize) -> Routes {
        let bits = self.bits(most);
        // A prefix length that is refused comes with any prefix.
        let prefix = self.part(bits.min(most).div_ceil(8) as usize);
        let count = if peers == 0 { 0 } else { self.count().min(2000) };
        let slips = if self.slip() { 6 } else { 0 };
        let mut maker = Maker::new(self.rng, slips);
        (0..count).for_each(|_| maker.entry(peers));
        let entries = maker.into_octets();
        let told = self.told(count);
        let entries = if self.slip() { self.spoilt(entries) } else { entries };
        Routes { bits, prefix, count: told, entries }
    }

    /// AS numbers have the Subtype's size, and now and then the other one.
    fn session(&mut self, good: &[u64], bad: &[u64]) -> Session {
        let time = self.time();
        let subtype = self.choice(good, bad);
        let width = if matches!(subtype, 4 | 5 | 7) { 4 } else { 2 };
        let (peer_as, local_as) = (self.number(width), self.number(width));
        let (interface, family) = (self.number(2), self.family());
        let address = if family == 2 { 16 } else { 4 };
        Session {
            time,
            subtype,
            peer_as,
            local_as,
            interface,
            family,
            peer_address: self.part(address),
            local_address: self.part(address),
        }
    }

    fn change(&mut self) -> Change {
        let session = self.session(&[0, 5], &[1, 2, 3, 4, 6, 7, 8, 256, 65_535]);
        Change { session, old: self.state(), new: self.state() }
    }

    fn state(&mut self) -> u64 {
        self.choice(&[1, 2, 3, 4, 5, 6], &[0, 7, 8, 256, 257, 65_535])
    }

    fn message(&mut self) -> Message {
        let session = self.session(&[1, 4, 6, 7], &[0, 2, 3, 5, 8, 257, 65_535]);
        let slips = if self.slip() { 2 } else { 0 };
        let mut maker = Maker::new(self.rng, slips);
        maker.bgp_message();
        let message = maker.into_octets();
        let message = if self.slip() { self.spoilt(message) } else { message };
        Message { session, message }
    }
}

/// One attribute with a length of two octets, so many octets in all.
fn filling(size: usize) -> Vec<u8> {
    let mut octets = vec![0; size];
    let contents = (size - 4) as u16;
    octets[0] = 16;
    octets[2..4].copy_from_slice(&contents.to_be_bytes());
    octets
}

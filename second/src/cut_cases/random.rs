//! Random dumps, windows and lists, from fixed seeds. Times and AS
//! numbers come from few values, so that they often meet.

use super::parts::{change, named_table, octets, old_route, rib, withdrawal, Member};
use super::{Ask, Book};
use crate::vectors::random::spoiled;
use crate::vectors::rng::Rng;
use crate::vectors::sequences;
use crate::vectors::shapes::{unread, FAMILIES, MESSAGES, STATE_CHANGES};
use crate::vectors::sketch::Sketch;

const NUMBERS: [u32; 9] = [0, 10, 20, 30, 23_456, 65_535, 65_546, 655_360, 4_294_967_295];
const MICROS: [u64; 7] = [0, 1, 500_000, 999_999, 1_000_000, 1_000_001, 2_500_000];
const SECONDS: u32 = 5;

pub fn add(book: &mut Book) {
    let mut rng = Rng::seeded(20_260_401);
    for number in 0..70 {
        let (dump, ask) = (dump(&mut rng), ask(&mut rng));
        let room = room(&mut rng, &dump, &ask);
        book.chance(format!("random-good-{number:02}"), &ask, room, dump);
    }
    for number in 0..30 {
        let dump = dump(&mut rng);
        let dump = spoiled(dump, &mut rng);
        book.chance(format!("random-spoiled-{number:02}"), &ask(&mut rng), dump.len(), dump);
    }
}

/// Mostly the dump's size, else about the size of what is left.
fn room(rng: &mut Rng, dump: &[u8], ask: &Ask) -> usize {
    let left = ask.cut(dump, dump.len()).octets.len();
    match rng.below(8) {
        0 => left,
        1 => left.saturating_sub(1),
        2 => left + rng.below(40),
        _ => dump.len(),
    }
}

/// A window that is not backward, and a list that may be empty.
pub fn ask(rng: &mut Rng) -> Ask {
    let count = *rng.pick(&[0, 1, 1, 2, 3, 5]);
    let list: Vec<u32> = (0..count).map(|_| *rng.pick(&NUMBERS)).collect();
    let (one, other) = (time(rng), time(rng));
    let window = match rng.below(4) {
        0 => Ask::whole(),
        _ => Ask::window(one.min(other), one.max(other)),
    };
    window.muting(&list)
}

fn time(rng: &mut Rng) -> u64 {
    1_000_000 * rng.below(SECONDS as usize + 2) as u64 + rng.pick(&MICROS)
}

/// A good dump of one to ten records.
pub fn dump(rng: &mut Rng) -> Vec<u8> {
    let count = 1 + rng.below(10);
    let mut chance = Chance { rng, peers: None };
    let sketches: Vec<_> = (0..count).map(|_| chance.any()).collect();
    octets(&sketches).concat()
}

/// Makes good records, minding the table in force.
struct Chance<'a> {
    rng: &'a mut Rng,
    /// How many peers the table in force has.
    peers: Option<usize>,
}

impl Chance<'_> {
    fn any(&mut self) -> Sketch {
        let sketch = match (self.rng.below(9), self.peers) {
            (0, _) => self.table(),
            (1, _) => self.unread(),
            (2, _) => self.old_route(),
            (3, _) => self.change(),
            (4, _) => self.message(),
            (_, None) => self.table(),
            (_, Some(peers)) => self.rib(peers),
        };
        sketch.at(self.rng.below(SECONDS as usize) as u32)
    }

    fn asn(&mut self) -> u32 {
        *self.rng.pick(&NUMBERS)
    }

    /// One that two octets can hold.
    fn small_asn(&mut self) -> u16 {
        *self.rng.pick(&NUMBERS.map(|asn| u16::try_from(asn).unwrap_or(10)))
    }

    fn table(&mut self) -> Sketch {
        let count = self.rng.below(6);
        self.peers = Some(count);
        let members: Vec<_> = (0..count).map(|_| self.member()).collect();
        let size = self.rng.below(5);
        named_table(&sequences::text(&self.rng.octets(size)), &members)
    }

    fn member(&mut self) -> Member {
        let octet = self.rng.word() as u8;
        let asn = if octet & 2 == 0 { self.small_asn().into() } else { self.asn() };
        Member { octet, asn, tag: self.rng.word() as u8 }
    }

    fn rib(&mut self, peers: usize) -> Sketch {
        let count = if peers == 0 { 0 } else { self.rng.below(5) };
        let entries: Vec<_> = (0..count).map(|_| self.entry(peers)).collect();
        let bits = self.rng.below(33);
        let prefix = self.rng.octets(bits.div_ceil(8));
        rib(2 + self.rng.below(5) as u16, &entries)
            .set_n("prefix-length", bits as u64)
            .set("prefix", &prefix)
    }

    fn entry(&mut self, peers: usize) -> (u16, u8) {
        (self.rng.below(peers) as u16, self.rng.word() as u8)
    }

    fn unread(&mut self) -> Sketch {
        let code = *self.rng.pick(&[11, 32, 33, 48, 49]);
        let size = self.rng.below(12);
        let sketch = unread(code, self.rng.word() as u16, &self.rng.octets(size));
        self.timed(code, sketch)
    }

    fn old_route(&mut self) -> Sketch {
        old_route(*self.rng.pick(&FAMILIES), self.small_asn())
    }

    fn change(&mut self) -> Sketch {
        let (code, subtype) = (*self.rng.pick(&[16, 17]), *self.rng.pick(&STATE_CHANGES));
        let asn = self.session_asn(subtype);
        self.timed(code, change(code, subtype, asn))
    }

    fn message(&mut self) -> Sketch {
        let (code, subtype) = (*self.rng.pick(&[16, 17]), *self.rng.pick(&MESSAGES));
        let asn = self.session_asn(subtype);
        self.timed(code, withdrawal(code, subtype, asn))
    }

    fn session_asn(&mut self, subtype: u16) -> u32 {
        match subtype {
            4 | 5 | 7 => self.asn(),
            _ => self.small_asn().into(),
        }
    }

    fn timed(&mut self, code: u16, sketch: Sketch) -> Sketch {
        match code {
            17 | 33 | 49 => sketch.set_n("micro", *self.rng.pick(&MICROS)),
            _ => sketch,
        }
    }
}

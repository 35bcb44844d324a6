//! Random dumps, from fixed seeds.

use super::rng::Rng;
use super::sequences;
use super::shapes::{
    bgp_message, generic_rib, peer_table, rib, state_change, table_dump, unread, Route,
    EXTENDED_PATH, FAMILIES, MESSAGES, PATH, STATE_CHANGES,
};
use super::sketch::Sketch;
use super::Suite;

pub fn add(suite: &mut Suite) {
    let mut rng = Rng::seeded(20_260_301);
    for number in 0..20 {
        let records = Chance::new(&mut rng).dump();
        suite.good(format!("random-good-{number:02}"), &records);
    }
    for number in 0..40 {
        let octets = Chance::new(&mut rng).dump().concat();
        suite.chance(format!("random-spoiled-{number:02}"), spoiled(octets, &mut rng));
    }
    for number in 0..4 {
        let size = 12 + rng.below(60);
        suite.chance(format!("random-octets-{number:02}"), rng.octets(size));
    }
}

/// One to three octets changed, or some taken out of the middle.
pub fn spoiled(mut octets: Vec<u8>, rng: &mut Rng) -> Vec<u8> {
    if rng.below(4) == 0 {
        let from = rng.below(octets.len());
        let upto = (from + 1 + rng.below(3)).min(octets.len());
        octets.drain(from..upto);
        return octets;
    }
    for _ in 0..1 + rng.below(3) {
        let place = rng.below(octets.len());
        octets[place] = *rng.pick(&[0, 1, 2, 7, 0x10, 0x20, 0x21, 0x81, 0xff]);
    }
    octets
}

/// Makes good records, minding the table in force.
struct Chance<'a> {
    rng: &'a mut Rng,
    peers: usize,
}

impl<'a> Chance<'a> {
    fn new(rng: &'a mut Rng) -> Self {
        Chance { rng, peers: 0 }
    }

    fn dump(mut self) -> Vec<Vec<u8>> {
        let count = 2 + self.rng.below(7);
        let mut records = vec![self.table()];
        for _ in 0..count {
            records.push(self.any());
        }
        records.iter().map(|sketch| sketch.clone().at(self.rng.word() as u32).record()).collect()
    }

    fn any(&mut self) -> Sketch {
        match self.rng.below(8) {
            0 => self.table(),
            1 => self.unread(),
            2 => self.table_dump(),
            3 | 4 => self.rib(),
            5 => self.state_change(),
            _ => self.message(),
        }
    }

    fn table(&mut self) -> Sketch {
        self.peers = 1 + self.rng.below(6);
        let types = self.rng.octets(self.peers);
        let name_size = self.rng.below(9);
        peer_table(&sequences::text(&self.rng.octets(name_size)), &types)
    }

    fn unread(&mut self) -> Sketch {
        let code = *self.rng.pick(&[11, 32, 33, 48, 49]);
        let size = self.rng.below(30);
        unread(code, self.rng.word() as u16, &self.rng.octets(size))
    }

    fn table_dump(&mut self) -> Sketch {
        let family = *self.rng.pick(&FAMILIES);
        let bits = self.rng.below(usize::from(family.bits()) + 1);
        table_dump(family, &self.attributes()).set_n("prefix-length", bits as u64)
    }

    fn rib(&mut self) -> Sketch {
        let family = *self.rng.pick(&FAMILIES);
        let bits = self.rng.below(usize::from(family.bits()) + 1) as u8;
        let prefix = self.rng.octets(usize::from(bits).div_ceil(8));
        let count = self.rng.below(4);
        let parts: Vec<_> = (0..count).map(|_| (self.index(), self.attributes())).collect();
        let routes: Vec<_> = parts.iter().map(|(index, octets)| Route(*index, octets)).collect();
        match self.rng.below(3) {
            0 => generic_rib(family.code().into(), 1, bits, &prefix, &routes),
            which => rib(family.code() * 2 + which as u16 - 1, bits, &prefix, &routes),
        }
    }

    fn index(&mut self) -> u16 {
        self.rng.below(self.peers) as u16
    }

    fn attributes(&mut self) -> Vec<u8> {
        let mut octets = Vec::new();
        for _ in 0..self.rng.below(4) {
            match self.rng.below(3) {
                0 => octets.extend(PATH),
                1 => octets.extend(EXTENDED_PATH),
                _ => octets.extend(self.attribute()),
            }
        }
        octets
    }

    fn attribute(&mut self) -> Vec<u8> {
        let size = self.rng.below(40);
        let flags = self.rng.word() as u8;
        let mut octets = vec![flags, self.rng.word() as u8];
        if flags & 16 != 0 {
            octets.push(0);
        }
        octets.push(size as u8);
        octets.extend(self.rng.octets(size));
        octets
    }

    fn state_change(&mut self) -> Sketch {
        let code = *self.rng.pick(&[16, 17]);
        let subtype = *self.rng.pick(&STATE_CHANGES);
        let family = *self.rng.pick(&FAMILIES);
        let sketch = state_change(code, subtype, family)
            .set_n("old-state", 1 + self.rng.below(6) as u64)
            .set_n("new-state", 1 + self.rng.below(6) as u64);
        self.timed(code, sketch)
    }

    fn message(&mut self) -> Sketch {
        let code = *self.rng.pick(&[16, 17]);
        let subtype = *self.rng.pick(&MESSAGES);
        let family = *self.rng.pick(&FAMILIES);
        let size = self.rng.below(50);
        let kind = self.rng.below(6) as u64;
        let sketch = bgp_message(code, subtype, family, kind, &self.rng.octets(size));
        self.timed(code, sketch)
    }

    fn timed(&mut self, code: u16, sketch: Sketch) -> Sketch {
        if code == 17 {
            sketch.set_n("micro", self.rng.word() >> 32)
        } else {
            sketch
        }
    }
}

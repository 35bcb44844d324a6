//! Goes through a good dump, field by field, as document 01 lays them out.

use super::fields::{Field, Spot};
use std::ops::Range;

pub fn spots(dump: &[u8]) -> Vec<Spot> {
    let mut map = Map { dump, at: 0, counted_by: Vec::new(), peers: 0, spots: Vec::new() };
    while map.at < dump.len() {
        map.record();
    }
    map.spots
}

struct Map<'a> {
    dump: &'a [u8],
    at: usize,
    /// The size fields that count the octets at hand.
    counted_by: Vec<Range<usize>>,
    /// Of the table in force.
    peers: usize,
    spots: Vec<Spot>,
}

/// The names of the fields of attributes, which stand in two layouts.
struct Attributes {
    length: Field,
    flags: Field,
    code: Field,
    size: Field,
    content: Field,
    behind: Field,
}

const ROUTE: Attributes = Attributes {
    length: Field::RouteAttributeLength,
    flags: Field::RouteFlags,
    code: Field::RouteCode,
    size: Field::RouteSize,
    content: Field::RouteContent,
    behind: Field::RouteBehind,
};

const ENTRY: Attributes = Attributes {
    length: Field::EntryAttributeLength,
    flags: Field::EntryFlags,
    code: Field::EntryCode,
    size: Field::EntrySize,
    content: Field::EntryContent,
    behind: Field::EntryBehind,
};

const FAMILIES: &[usize] = &[0, 1, 2, 3, 256, 257, 258, 513];
const STATES: &[usize] = &[0, 1, 6, 7, 8, 256, 257, 262];
/// Octets at the bounds of what UTF-8 has, as the first one of a character or behind it.
const NAME_OCTETS: &[usize] = &[
    0x00, 0x7f, 0x80, 0x8f, 0x90, 0x9f, 0xa0, 0xbf, 0xc0, 0xc1, 0xc2, 0xdf, 0xe0, 0xed, 0xef, 0xf0,
    0xf4, 0xf5, 0xf8,
];
const PREFIX_LENGTHS: &[usize] = &[0, 1, 8, 9, 31, 32, 33, 127, 128, 129];

impl Map<'_> {
    /// The next octets are this field; its value, if it is a number.
    fn field(&mut self, field: Field, size: usize, edges: &[usize]) -> usize {
        let octets = self.at..self.at + size;
        let value = number(&self.dump[octets.clone()]);
        self.at = octets.end;
        self.spots.push(Spot {
            field,
            octets,
            measured: 0..0,
            counted_by: self.counted_by.clone(),
            edges: edges.to_vec(),
        });
        value
    }

    fn fields<const N: usize>(&mut self, fields: [(Field, usize); N]) {
        for (field, size) in fields {
            self.field(field, size, &[]);
        }
    }

    /// The field that was told last says something about these octets.
    fn measures(&mut self, measured: Range<usize>) -> usize {
        let last = self.spots.len() - 1;
        self.spots[last].measured = measured;
        last
    }

    fn record(&mut self) {
        self.counted_by.clear();
        self.field(Field::Timestamp, 4, &[]);
        let types = [0, 10, 11, 12, 13, 14, 15, 16, 17, 18, 31, 32, 33, 34, 47, 48, 49, 50, 269];
        let kind = self.field(Field::Type, 2, &types);
        let subtype = self.field(Field::Subtype, 2, &[0, 1, 2, 3, 4, 5, 6, 7, 8, 256, 257]);
        let left = self.dump.len() - self.at - 4;
        let length = self.field(Field::Length, 4, &[left, left + 1, left.saturating_sub(1)]);
        self.measures(self.at..self.at + length);
        self.counted_by.push(self.at - 4..self.at);
        let end = self.at + length;
        if matches!(kind, 17 | 33 | 49) {
            self.field(Field::Microsecond, 4, &[999_999, 1_000_000]);
        }
        match (kind, subtype) {
            (12, _) => self.route(if subtype == 2 { 16 } else { 4 }),
            (13, 1) => self.table(),
            (13, _) => self.rib(subtype == 6),
            (16 | 17, _) => self.session(subtype, end),
            _ => _ = self.field(Field::Unread, end - self.at, &[]),
        }
        assert_eq!(self.at, end, "a good record laid out in another way");
    }

    fn route(&mut self, address: usize) {
        self.fields([
            (Field::RouteView, 2),
            (Field::RouteSequence, 2),
            (Field::RoutePrefix, address),
        ]);
        self.field(Field::RoutePrefixLength, 1, PREFIX_LENGTHS);
        self.fields([
            (Field::RouteStatus, 1),
            (Field::RouteOriginated, 4),
            (Field::RoutePeerAddress, address),
            (Field::RoutePeerAs, 2),
        ]);
        self.attributes(&ROUTE);
    }

    fn attributes(&mut self, names: &Attributes) {
        let size = self.field(names.length, 2, &[]);
        self.measures(self.at..self.at + size);
        self.counted_by.push(self.at - 2..self.at);
        let end = self.at + size;
        while self.at < end {
            self.attribute(names);
        }
        self.field(names.behind, 0, &[]);
        self.counted_by.pop();
    }

    fn attribute(&mut self, names: &Attributes) {
        let flags = self.field(names.flags, 1, &[0, 16, 239, 255]);
        let extended = flags & 16 != 0;
        // The first of two octets is there just for the flag.
        let size_at = self.at + 1;
        self.measures(size_at..size_at + usize::from(extended));
        self.field(names.code, 1, &[]);
        let size = self.field(names.size, if extended { 2 } else { 1 }, &[]);
        self.measures(self.at..self.at + size);
        self.field(names.content, size, &[]);
    }

    fn table(&mut self) {
        self.field(Field::TableCollector, 4, &[]);
        let name = self.field(Field::TableNameLength, 2, &[]);
        self.measures(self.at..self.at + name);
        self.field(Field::TableName, name, NAME_OCTETS);
        self.peers = self.field(Field::TablePeerCount, 2, &[]);
        let count = self.measures(0..0);
        for _ in 0..self.peers {
            let peer = self.at;
            self.peer();
            self.spots[count].measured = peer..self.at;
        }
    }

    fn peer(&mut self) {
        let kind = self.field(Field::TablePeerType, 1, &[0, 1, 2, 3, 4, 252, 255]);
        let address = if kind & 1 != 0 { 16 } else { 4 };
        let number = if kind & 2 != 0 { 4 } else { 2 };
        self.measures(self.at..self.at + 4 + address + number);
        self.fields([
            (Field::TablePeerId, 4),
            (Field::TablePeerAddress, address),
            (Field::TablePeerAs, number),
        ]);
    }

    fn rib(&mut self, stated: bool) {
        self.field(Field::RibSequence, 4, &[]);
        if stated {
            self.field(Field::RibFamily, 2, FAMILIES);
            self.field(Field::RibSafi, 1, &[0, 1, 2, 3, 128]);
        }
        let prefix = self.field(Field::RibPrefixLength, 1, PREFIX_LENGTHS).div_ceil(8);
        self.measures(self.at..self.at + prefix);
        self.field(Field::RibPrefix, prefix, &[]);
        let entries = self.field(Field::RibEntryCount, 2, &[]);
        let count = self.measures(0..0);
        for _ in 0..entries {
            let entry = self.at;
            let peers = self.peers;
            self.field(Field::EntryIndex, 2, &[peers - 1, peers, peers + 1]);
            self.field(Field::EntryOriginated, 4, &[]);
            self.attributes(&ENTRY);
            self.spots[count].measured = entry..self.at;
        }
    }

    fn session(&mut self, subtype: usize, end: usize) {
        let number = if matches!(subtype, 4 | 5 | 7) { 4 } else { 2 };
        self.fields([(Field::PeerAs, number), (Field::LocalAs, number), (Field::Interface, 2)]);
        let family = self.field(Field::Family, 2, FAMILIES);
        let address = if family == 2 { 16 } else { 4 };
        self.measures(self.at..self.at + 2 * address);
        self.fields([(Field::PeerAddress, address), (Field::LocalAddress, address)]);
        if matches!(subtype, 0 | 5) {
            self.field(Field::OldState, 2, STATES);
            self.field(Field::NewState, 2, STATES);
        } else {
            self.message(end);
        }
    }

    fn message(&mut self, end: usize) {
        let start = self.at;
        self.field(Field::BgpMarker, 16, &[]);
        self.field(Field::BgpLength, 2, &[18, 19, 20, 4095, 4096, 4097]);
        self.measures(start..end);
        self.field(Field::BgpType, 1, &[]);
        self.field(Field::BgpContent, end - self.at, &[]);
    }
}

/// Up to four octets as a number; 0 for more of them.
pub fn number(octets: &[u8]) -> usize {
    if octets.len() > 4 {
        return 0;
    }
    octets.iter().fold(0, |number, octet| number << 8 | usize::from(*octet))
}

#[cfg(test)]
mod tests {
    use super::spots;
    use crate::making::good;
    use second::vectors::rng::Rng;

    #[test]
    fn every_octet_of_a_good_dump_is_in_one_field() {
        for seed in 0..500 {
            let dump = good(&mut Rng::seeded(seed));
            let mut end = 0;
            for spot in spots(&dump) {
                assert_eq!(spot.octets.start, end, "seed {seed}, {:?}", spot.field);
                end = spot.octets.end;
            }
            assert_eq!(end, dump.len(), "seed {seed}");
        }
    }
}

//! Dumps made up from a seed, for both programs to read.

mod asks;
mod damage;
mod field_damage;
mod fields;
mod given;
mod layout;
mod lists;
mod long;
mod names;
mod records;
mod reports;
mod sessions;

pub use asks::{ask, Known};
pub use field_damage::ended;
pub use fields::Field;
pub use given::{given, named, room, MadeGiven, Writer};
pub use lists::{muted, Length, KEPT};
pub use names::tables as named_tables;
pub use records::Maker;
pub use reports::reports;
pub use sessions::{sessions, sessions_from};

use second::cut_cases;
use second::vectors::rng::Rng;

/// What a dump is for.
#[derive(Clone, Copy, Debug, PartialEq, Eq)]
pub enum Kind {
    /// Random octets: the header's faults, and no sense at all.
    Octets,
    /// Headers of types and subtypes that are read, before random messages: fields in every
    /// state of being there.
    Headers,
    /// Good records of every layout: that nothing good is refused, and what a cut leaves.
    Good,
    /// Records in which a field now and then has a value at or over its edge: each check by itself.
    Edges,
    /// Good records, then octets changed, inserted or removed with no regard to fields.
    Damaged,
    /// Good records, of which one named field is damaged: what a fast look must not let pass.
    Fields,
    /// Peer tables with names that are text and names that are not.
    Names,
    /// The second program's own good dumps, which other hands have made.
    Foreign,
    /// Many records, entries and peers: sizes that do not fit in one or two octets.
    Long,
}

impl Kind {
    pub const ALL: [Kind; 9] = [
        Kind::Octets,
        Kind::Headers,
        Kind::Good,
        Kind::Edges,
        Kind::Damaged,
        Kind::Fields,
        Kind::Names,
        Kind::Foreign,
        Kind::Long,
    ];

    /// Long ones are rare, since each takes as long as some thousand others.
    fn draw(rng: &mut Rng) -> Kind {
        if rng.below(1500) == 0 {
            return Kind::Long;
        }
        match rng.below(27) {
            0 | 1 => Kind::Octets,
            2..=4 => Kind::Headers,
            5..=9 => Kind::Good,
            10..=13 => Kind::Edges,
            14..=17 => Kind::Damaged,
            18..=23 => Kind::Fields,
            24 => Kind::Names,
            _ => Kind::Foreign,
        }
    }

    /// `field` is the one to be damaged, where it is to be one.
    fn dump(self, field: Field, rng: &mut Rng) -> Vec<u8> {
        match self {
            Kind::Octets => {
                let size = rng.below(101);
                rng.octets(size)
            }
            Kind::Headers => headers(rng),
            Kind::Good => good(rng),
            Kind::Edges => {
                let count = 1 + rng.below(8);
                Maker::new(rng, 24).records(count)
            }
            Kind::Damaged => {
                let dump = good(rng);
                damage::damaged(dump, rng)
            }
            Kind::Fields => field_damage::dump(field, rng),
            Kind::Names => names::tables(rng),
            Kind::Foreign => cut_cases::random::dump(rng),
            Kind::Long => long::dump(rng),
        }
    }
}

pub struct Made {
    pub kind: Kind,
    /// The one that is damaged, in a dump of [`Kind::Fields`].
    pub field: Option<Field>,
    pub dump: Vec<u8>,
}

pub fn any(rng: &mut Rng) -> Made {
    let (kind, field) = (Kind::draw(rng), *rng.pick(&Field::ALL));
    let dump = kind.dump(field, rng);
    Made { kind, field: (kind == Kind::Fields).then_some(field), dump }
}

/// So many dumps that differ from one good dump in a field each.
pub fn with_fields_damaged(count: usize, rng: &mut Rng) -> Vec<Vec<u8>> {
    field_damage::dumps(count, rng)
}

/// A short dump without a fault.
pub fn good(rng: &mut Rng) -> Vec<u8> {
    let count = 1 + rng.below(8);
    Maker::new(rng, 0).records(count)
}

/// One to three headers with their Lengths, or nearly, and small octets between.
fn headers(rng: &mut Rng) -> Vec<u8> {
    let mut dump = Vec::new();
    for _ in 0..1 + rng.below(3) {
        let (code, subtypes) = *rng.pick(&records::LAYOUTS);
        let subtype = *rng.pick(subtypes);
        let size = rng.below(60);
        dump.extend(rng.octets(4));
        dump.extend(u16::to_be_bytes(code));
        dump.extend(u16::to_be_bytes(subtype));
        let length = if rng.below(8) == 0 { rng.below(70) } else { size };
        dump.extend((length as u32).to_be_bytes());
        dump.extend((0..size).map(|_| small_octet(rng)));
    }
    dump
}

/// Mostly below 4, as the high octets and the counts of good fields are.
fn small_octet(rng: &mut Rng) -> u8 {
    match rng.below(5) {
        0 => rng.word() as u8,
        1 => *rng.pick(&[0x10, 0x13, 0x20, 0x21, 0x40, 0x50, 0x80, 0xff]),
        _ => rng.below(4) as u8,
    }
}

//! Damage to one field of a good dump, with values at and over its edge, and with and without the
//! sizes around it made to fit.

use super::fields::{Field, Mapped, Spot};
use super::layout::number;
use second::vectors::rng::Rng;
use std::ops::Range;

/// The most octets that are put in for a value: enough for a BGP message that is too long.
const MOST: usize = 5_000;

/// A good dump with one field damaged.
pub fn dump(field: Field, rng: &mut Rng) -> Vec<u8> {
    let mapped = Mapped::with(field, rng);
    damaged(&mapped.dump, mapped.pick(field, rng), rng)
}

/// The same dump damaged in so many ways, each in a field of its own.
pub fn dumps(count: usize, rng: &mut Rng) -> Vec<Vec<u8>> {
    let mapped = Mapped::with(*rng.pick(&Field::ALL), rng);
    let mut one = |_| {
        let spot = rng.pick(&mapped.spots);
        damaged(&mapped.dump, spot, rng)
    };
    (0..count).map(&mut one).collect()
}

/// A good dump of which a record ends inside a field, by its Length too. A field that is not in a
/// message or has no octets is damaged in another way.
pub fn ended(rng: &mut Rng) -> Vec<u8> {
    let field = *rng.pick(&Field::ALL);
    let mapped = Mapped::with(field, rng);
    let spot = mapped.pick(field, rng);
    if spot.octets.is_empty() || spot.counted_by.is_empty() {
        return damaged(&mapped.dump, spot, rng);
    }
    let mut damage = Damage { dump: mapped.dump.clone(), spot, fits: true };
    damage.end_inside(rng);
    damage.dump
}

fn damaged(dump: &[u8], spot: &Spot, rng: &mut Rng) -> Vec<u8> {
    let mut damage = Damage { dump: dump.to_vec(), spot, fits: rng.below(2) == 0 };
    match rng.below(8) {
        _ if spot.octets.is_empty() => damage.one_octet(rng),
        0 => damage.end_inside(rng),
        1 => damage.one_octet(rng),
        _ if spot.octets.len() > 4 => damage.long_value(rng),
        _ => damage.value(rng),
    }
    damage.dump
}

struct Damage<'a> {
    dump: Vec<u8>,
    spot: &'a Spot,
    /// Whether octets are inserted or removed for a new value, and the sizes around made right.
    fits: bool,
}

impl Damage<'_> {
    /// The message, or the dump where it is a header's field, ends before the field's last octet.
    fn end_inside(&mut self, rng: &mut Rng) {
        let octets = &self.spot.octets;
        let from = octets.start + rng.below(octets.len());
        let Some(length) = self.spot.counted_by.first().cloned() else {
            return self.dump.truncate(from);
        };
        let end = length.end + number(&self.dump[length.clone()]);
        self.dump.drain(from..end);
        if self.fits {
            self.put(length.clone(), from - length.end);
        }
    }

    /// An octet more or less in the field.
    fn one_octet(&mut self, rng: &mut Rng) {
        let octets = self.spot.octets.clone();
        let at = octets.start + rng.below(octets.len() + 1);
        if at < octets.end && rng.below(2) == 0 {
            self.dump.remove(at);
            self.count(at, at + 1, 0);
        } else {
            self.dump.insert(at, rng.word() as u8);
            self.count(at, at, 1);
        }
    }

    /// Another octet somewhere in a field that is no number.
    fn long_value(&mut self, rng: &mut Rng) {
        let at = self.spot.octets.start + rng.below(self.spot.octets.len());
        let old = self.dump[at];
        let values = [old.wrapping_sub(1), 0, u8::MAX, rng.word() as u8];
        let drawn = match rng.below(2) {
            0 if !self.spot.edges.is_empty() => *rng.pick(&self.spot.edges) as u8,
            _ => *rng.pick(&values),
        };
        self.dump[at] = if drawn == old { old.wrapping_add(1) } else { drawn };
    }

    fn value(&mut self, rng: &mut Rng) {
        let octets = self.spot.octets.clone();
        let old = number(&self.dump[octets.clone()]);
        let new = self.another(old, rng);
        self.put(octets, new);
        if self.fits {
            self.fit(old, new, rng);
        }
    }

    /// One more or less, the least, the largest, a bit changed, or an edge.
    fn another(&self, old: usize, rng: &mut Rng) -> usize {
        let bits = 8 * self.spot.octets.len();
        let most = (1 << bits) - 1;
        let drawn = match rng.below(12) {
            0 | 1 => old.wrapping_add(1),
            2 | 3 => old.wrapping_sub(1),
            4 => 0,
            5 => most,
            6 => old ^ 1 << rng.below(bits),
            _ if self.spot.edges.is_empty() => rng.word() as usize,
            _ => *rng.pick(&self.spot.edges),
        };
        if drawn & most == old {
            return old ^ 1;
        }
        drawn & most
    }

    /// Octets inserted or removed where the field's new value says so.
    fn fit(&mut self, old: usize, new: usize, rng: &mut Rng) {
        let measured = self.spot.measured.clone();
        if matches!(self.spot.field, Field::TablePeerCount | Field::RibEntryCount) {
            let last = self.dump[measured.clone()].to_vec();
            match new.wrapping_sub(old) as isize {
                1 => self.replace(measured.end, measured.end, last),
                -1 => self.replace(measured.start, measured.end, Vec::new()),
                _ => {}
            }
            return;
        }
        let (Some(before), Some(after)) = (self.extent(old), self.extent(new)) else {
            return;
        };
        if after > before && after - before <= MOST {
            let size = after - before;
            let more = if rng.below(2) == 0 { vec![0; size] } else { rng.octets(size) };
            self.replace(measured.end, measured.end, more);
        } else if after < before {
            self.replace(measured.end - (before - after), measured.end, Vec::new());
        }
    }

    /// How many octets a value of this field speaks of.
    fn extent(&self, value: usize) -> Option<usize> {
        match self.spot.field {
            Field::Length | Field::BgpLength | Field::TableNameLength => Some(value),
            Field::RouteAttributeLength | Field::EntryAttributeLength => Some(value),
            Field::RouteSize | Field::EntrySize => Some(value),
            Field::RouteFlags | Field::EntryFlags => Some(value >> 4 & 1),
            Field::RibPrefixLength => Some(value.div_ceil(8)),
            Field::TablePeerType => Some([10, 22, 12, 24][value & 3]),
            Field::Family => [None, Some(8), Some(32)].get(value).copied().flatten(),
            _ => None,
        }
    }

    /// Other octets, and the sizes around with them.
    fn replace(&mut self, from: usize, end: usize, octets: Vec<u8>) {
        let size = octets.len();
        self.dump.splice(from..end, octets);
        self.count(from, end, size);
    }

    /// Makes the sizes around fit, if they are to: instead of the octets from `from` to `end` there
    /// are now `size`.
    fn count(&mut self, from: usize, end: usize, size: usize) {
        if self.fits {
            for field in self.spot.counted_by.clone() {
                let counted = number(&self.dump[field.clone()]) + size;
                self.put(field, counted.wrapping_sub(end - from));
            }
        }
    }

    fn put(&mut self, field: Range<usize>, value: usize) {
        let size = field.len();
        self.dump[field].copy_from_slice(&(value as u32).to_be_bytes()[4 - size..]);
    }
}

#[cfg(test)]
mod tests {
    use super::{damaged, Field, Mapped};
    use second::dump::Dump;
    use second::vectors::rng::Rng;

    const TRIES: u64 = 60;

    /// Some 60 ways to damage a field of good dumps.
    fn each(field: Field, mut seen: impl FnMut(&Mapped, Vec<u8>)) {
        for seed in 0..TRIES {
            let mut rng = Rng::seeded(seed);
            let mapped = Mapped::with(field, &mut rng);
            let dump = damaged(&mapped.dump, mapped.pick(field, &mut rng), &mut rng);
            seen(&mapped, dump);
        }
    }

    #[test]
    fn damage_changes_the_dump() {
        for field in Field::ALL {
            let mut same = 0;
            each(field, |mapped, dump| same += u64::from(mapped.dump == dump));
            assert_eq!(same, 0, "{field:?}");
        }
    }

    /// A size, count or form with another value is good if octets and sizes are made to fit.
    #[test]
    fn what_is_made_to_fit_is_good() {
        let fields = [Field::TablePeerCount, Field::RibEntryCount, Field::Family];
        for field in fields.into_iter().chain([Field::BgpLength, Field::RibPrefixLength]) {
            let mut longer = 0;
            each(field, |mapped, dump| {
                let is_good = Dump::read(&dump).end.fault.is_none();
                longer += u64::from(is_good && dump.len() > mapped.dump.len());
            });
            assert!(longer > 0, "{field:?}");
        }
    }
}

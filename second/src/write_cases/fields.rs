//! The fields of a writer, in the order of their turns, and the cases that
//! follow from them.

use super::Book;
use crate::vectors::sketch::Sketch;
use crate::writers::Given;
use std::collections::BTreeSet;

/// One way to spoil a field, and the number it gives in the field's turn.
pub struct Slip<T> {
    what: String,
    fault: u8,
    spoil: Box<dyn Fn(&mut T)>,
}

/// A field under the name that it has in the record's sketch.
pub struct Field<T> {
    name: &'static str,
    slips: Vec<Slip<T>>,
    /// Other values that are fine there.
    good: Vec<u64>,
    set: Option<fn(&mut T) -> &mut u64>,
}

impl<T: 'static> Field<T> {
    /// A number of so many octets. It is too large from its bound on; a
    /// program that drops the upper bits finds 0, the good value, or all ones.
    pub fn number(name: &'static str, width: u32, fine: u64, at: fn(&mut T) -> &mut u64) -> Self {
        let bound = 1 << (8 * width);
        let field = Field { name, slips: Vec::new(), good: Vec::new(), set: Some(at) };
        let field = if fine == 0 { field } else { field.not(&[bound + fine], 6) };
        field.not(&[bound, u64::MAX], 6)
    }

    /// A number that no check looks at.
    pub fn carried(name: &'static str, width: u32, fine: u64, at: fn(&mut T) -> &mut u64) -> Self {
        Self::number(name, width, fine, at).or(&[0, (1 << (8 * width)) - 1])
    }

    /// Values that the field's own check refuses.
    pub fn not(mut self, values: &[u64], fault: u8) -> Self {
        let set = self.set.expect("a number");
        for value in values.iter().copied() {
            let spoil = Box::new(move |given: &mut T| *set(given) = value);
            self.slips.push(Slip { what: value.to_string(), fault, spoil });
        }
        self
    }

    pub fn or(mut self, values: &[u64]) -> Self {
        self.good.extend(values);
        self
    }

    /// A part without a rule of its own.
    pub fn part(name: &'static str) -> Self {
        Field { name, slips: Vec::new(), good: Vec::new(), set: None }
    }

    /// A part that has to have just the octets that it has.
    pub fn sized(name: &'static str, at: fn(&mut T) -> &mut Vec<u8>) -> Self {
        Self::part(name)
            .slip("short", 5, move |given| shorten(at(given)))
            .slip("long", 6, move |given| at(given).push(1))
            .slip("none", 5, move |given| at(given).clear())
            .slip("twice", 6, move |given| at(given).extend_from_within(..))
    }

    pub fn slip(mut self, what: &str, fault: u8, spoil: impl Fn(&mut T) + 'static) -> Self {
        self.slips.push(Slip { what: what.into(), fault, spoil: Box::new(spoil) });
        self
    }
}

/// A part without its last octet.
pub fn shorten(part: &mut Vec<u8>) {
    part.pop();
}

/// A slip of each field, with different numbers if there are such, so that the
/// answer tells which was found; from which ones to try first, each gets its share.
fn telling<'a, T>(
    earlier: &'a Field<T>,
    later: &'a Field<T>,
    from: usize,
) -> (&'a Slip<T>, &'a Slip<T>) {
    let turned = |slips: &'a [Slip<T>]| slips.iter().cycle().skip(from).take(slips.len());
    let pairs = || {
        turned(&earlier.slips).flat_map(|one| turned(&later.slips).map(move |other| (one, other)))
    };
    let different = pairs().find(|(one, other)| one.fault != other.fault);
    different.or_else(|| pairs().next()).expect("slips in both")
}

/// A good call of a writer, the record it makes, and its fields.
pub struct Call<T> {
    pub name: &'static str,
    pub good: T,
    pub sketch: Sketch,
    pub fields: Vec<Field<T>>,
    pub given: fn(T) -> Given,
}

impl<T: Clone + 'static> Call<T> {
    pub fn add(&self, book: &mut Book) {
        self.rooms(book);
        self.good_values(book);
        self.one_slip(book);
        self.two_slips(book);
    }

    /// The good call, and of each field the first slip alone.
    pub fn add_short(&self, book: &mut Book) {
        let record = self.sketch.record();
        book.good(format!("{}-good", self.name), self.fields_with(|_| ()), record.len(), &record);
        for field in &self.fields {
            field.slips.iter().take(1).for_each(|slip| self.one(book, field, slip));
        }
    }

    fn fields_with(&self, change: impl Fn(&mut T)) -> Given {
        let mut fields = self.good.clone();
        change(&mut fields);
        (self.given)(fields)
    }

    fn rooms(&self, book: &mut Book) {
        let record = self.sketch.record();
        let size = record.len();
        let sizes: BTreeSet<usize> = [0, 1, 11, 12, size - 1, size, size + 1, 512].into();
        for room in sizes {
            let name = format!("{}-room-{room}-of-{size}", self.name);
            book.good(name, self.fields_with(|_| ()), room, &record);
        }
    }

    fn good_values(&self, book: &mut Book) {
        for field in &self.fields {
            for value in field.good.iter().copied() {
                let set = field.set.expect("a number");
                let given = self.fields_with(|fields| *set(fields) = value);
                let record = self.sketch.with(field.name, value).record();
                let name = format!("{}-{}-{value}-good", self.name, field.name);
                book.good(name, given, record.len(), &record);
            }
        }
    }

    fn one_slip(&self, book: &mut Book) {
        for field in &self.fields {
            field.slips.iter().for_each(|slip| self.one(book, field, slip));
        }
    }

    fn one(&self, book: &mut Book, field: &Field<T>, slip: &Slip<T>) {
        let room = self.sketch.record().len() + 99;
        let name = format!("{}-{}-{}", self.name, field.name, slip.what);
        book.bad(name, self.fields_with(|fields| (slip.spoil)(fields)), room, slip.fault);
    }

    /// A slip in each of two fields: the one whose turn comes first decides,
    /// and there is no room either.
    fn two_slips(&self, book: &mut Book) {
        for (second, later) in self.fields.iter().enumerate() {
            for (first, earlier) in self.fields[..second].iter().enumerate() {
                if earlier.slips.is_empty() || later.slips.is_empty() {
                    continue;
                }
                let (one, other) = telling(earlier, later, first + second);
                let given = self.fields_with(|fields| {
                    (other.spoil)(fields);
                    (one.spoil)(fields);
                });
                let name = format!("{}-two-{}-{}", self.name, earlier.name, later.name);
                book.bad(name, given, 0, one.fault);
            }
        }
    }
}

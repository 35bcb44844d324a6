//! The name of the field that failed: the record's fields are laid out up to the place of its fault.
//!
//! Nothing is judged here. Number, place and record come from the proved library; the word is not
//! proved, but compared with the second program's. It is none where the octets do not have a field
//! at the place that can have the fault.

use crate::fault::Fault;
use crate::first_fault::FirstFault;
use std::ops::ControlFlow;

const HEADER: usize = 12;
const LEFT_OVER: &str = "octets left over";

/// A field's name and how many octets it has.
type Field = (&'static str, Width);

#[derive(Clone, Copy)]
enum Width {
    Octets(usize),
    /// As many as the length before it says.
    Told,
    /// 4 or 16.
    Address,
    /// 2 or 4, of an AS number.
    Number,
}

use Width::{Address, Number, Octets, Told};

const NONE: &[Field] = &[];

const MICROSECONDS: &[Field] = &[("microseconds", Octets(4))];

const TABLE_DUMP: &[Field] = &[
    ("view", Octets(2)),
    ("sequence", Octets(2)),
    ("prefix", Address),
    ("prefix length", Octets(1)),
    ("status", Octets(1)),
    ("originated time", Octets(4)),
    ("peer address", Address),
    ("peer AS", Octets(2)),
    ("attribute length", Octets(2)),
    ("attributes", Told),
];

const PEER_TABLE: &[Field] = &[
    ("collector ID", Octets(4)),
    ("view name length", Octets(2)),
    ("view name", Told),
    ("peer count", Octets(2)),
];

const PEER: &[Field] = &[
    ("peer type", Octets(1)),
    ("peer BGP ID", Octets(4)),
    ("peer address", Address),
    ("peer AS", Number),
];

const RIB: &[Field] = &[
    ("sequence", Octets(4)),
    ("prefix length", Octets(1)),
    ("prefix", Told),
    ("entry count", Octets(2)),
];

const RIB_GENERIC: &[Field] = &[
    ("sequence", Octets(4)),
    ("address family", Octets(2)),
    ("SAFI", Octets(1)),
    ("prefix length", Octets(1)),
    ("prefix", Told),
    ("entry count", Octets(2)),
];

const ENTRY: &[Field] = &[
    ("peer index", Octets(2)),
    ("originated time", Octets(4)),
    ("attribute length", Octets(2)),
    ("attributes", Told),
];

const SESSION: &[Field] = &[
    ("peer AS", Number),
    ("local AS", Number),
    ("interface index", Octets(2)),
    ("address family", Octets(2)),
    ("peer address", Address),
    ("local address", Address),
];

const STATES: &[Field] = &[("old state", Octets(2)), ("new state", Octets(2))];

const MESSAGE: &[Field] =
    &[("BGP marker", Octets(16)), ("BGP length", Octets(2)), ("BGP type", Octets(1))];

/// What a message is made of.
struct Layout {
    fields: [&'static [Field]; 3],
    /// Peers or entries, as many as the count before them says.
    items: &'static [Field],
    /// The sizes of an address and of an AS number where no field before says it.
    address: usize,
    number: usize,
    /// Whether what stands behind the last field is carried, so that no octets are left over.
    is_open: bool,
}

fn layout(type_code: u16, subtype: u16) -> Option<Layout> {
    let microseconds = if matches!(type_code, 17 | 33 | 49) { MICROSECONDS } else { NONE };
    let (fields, items, is_open) = match (type_code, subtype) {
        (12, 1 | 2) => ([TABLE_DUMP, NONE], NONE, false),
        (13, 1) => ([PEER_TABLE, NONE], PEER, false),
        (13, 2..=5) => ([RIB, NONE], ENTRY, false),
        (13, 6) => ([RIB_GENERIC, NONE], ENTRY, false),
        (16 | 17, 0 | 5) => ([SESSION, STATES], NONE, false),
        (16 | 17, 1 | 4 | 6 | 7) => ([SESSION, MESSAGE], NONE, true),
        (11 | 32 | 33 | 48 | 49, _) => ([NONE, NONE], NONE, true),
        _ => return None,
    };
    Some(Layout {
        fields: [microseconds, fields[0], fields[1]],
        items,
        address: if (type_code, subtype) == (12, 2) { 16 } else { 4 },
        number: if matches!(subtype, 4 | 5 | 7) { 4 } else { 2 },
        is_open,
    })
}

/// The name of the field at the fault's place, if it is one that can have the fault.
pub fn name(dump: &[u8], found: &FirstFault) -> Option<&'static str> {
    let record = dump.get(found.record..)?;
    let place = found.place.checked_sub(found.record)?;
    let name = if place < HEADER { in_header(record, place) } else { in_message(record, place) };
    name.filter(|name| can_have(name, found.fault))
}

fn in_header(octets: &[u8], place: usize) -> Option<&'static str> {
    match place {
        0 if !octets.is_empty() => Some("record"),
        4 if octets.len() >= HEADER => Some("Type"),
        6 if octets.len() >= HEADER => Some("Subtype"),
        _ => None,
    }
}

/// Which fields can have a fault.
pub(crate) enum Fails {
    Only(&'static [&'static str]),
    /// Any that is laid out behind the header.
    OfMessage,
}

fn can_have(name: &str, fault: Fault) -> bool {
    match fault.entry().fails {
        Fails::Only(names) => names.contains(&name),
        Fails::OfMessage => !matches!(name, "record" | "Type" | "Subtype" | LEFT_OVER),
    }
}

/// What starts at `place` of the record that these octets start with, behind its header.
fn in_message(octets: &[u8], place: usize) -> Option<&'static str> {
    let header = octets.first_chunk::<HEADER>()?;
    let [type_code, subtype] = [4, 6].map(|at| u16::from_be_bytes([header[at], header[at + 1]]));
    let length = number(&header[8..]).saturating_add(HEADER);
    let record = &octets[..length.min(octets.len())];
    let layout = layout(type_code, subtype)?;
    let mut walk = Walk::new(record, place, &layout);
    match walk.message(&layout) {
        ControlFlow::Break(name) => name,
        ControlFlow::Continue(()) => {
            let is_left_over = !layout.is_open && walk.at == place && place < record.len();
            is_left_over.then_some(LEFT_OVER)
        }
    }
}

/// Goes on, or stops: with the name of the field at the place, or since the octets end before it.
type Step = ControlFlow<Option<&'static str>>;

/// From field to field of a record, up to a place.
struct Walk<'a> {
    record: &'a [u8],
    place: usize,
    at: usize,
    /// What the fields before say of those behind them.
    told: usize,
    address: usize,
    number: usize,
    count: usize,
}

impl<'a> Walk<'a> {
    fn new(record: &'a [u8], place: usize, layout: &Layout) -> Walk<'a> {
        let Layout { address, number, .. } = *layout;
        Walk { record, place, at: HEADER, told: 0, address, number, count: 0 }
    }

    fn message(&mut self, layout: &Layout) -> Step {
        layout.fields.iter().try_for_each(|fields| self.fields(fields))?;
        let count = if layout.items.is_empty() { 0 } else { self.count };
        (0..count).try_for_each(|_| self.fields(layout.items))
    }

    fn fields(&mut self, fields: &[Field]) -> Step {
        fields.iter().try_for_each(|field| self.field(*field))
    }

    /// A field of no octets is never incomplete and fails in no other way.
    fn field(&mut self, (name, width): Field) -> Step {
        let width = self.width(width);
        if self.at == self.place && width > 0 {
            return ControlFlow::Break(Some(name));
        }
        let octets = self.record.get(self.at..).and_then(|rest| rest.get(..width));
        let Some(octets) = octets.filter(|_| self.at <= self.place) else {
            return ControlFlow::Break(None);
        };
        self.learn(name, octets);
        self.at += width;
        ControlFlow::Continue(())
    }

    fn width(&self, width: Width) -> usize {
        match width {
            Octets(size) => size,
            Told => self.told,
            Address => self.address,
            Number => self.number,
        }
    }

    fn learn(&mut self, name: &str, octets: &[u8]) {
        match name {
            "view name length" | "attribute length" => self.told = number(octets),
            "prefix length" => self.told = number(octets).div_ceil(8),
            "peer count" | "entry count" => self.count = number(octets),
            "address family" => self.address = if number(octets) == 2 { 16 } else { 4 },
            "peer type" => {
                let bits = number(octets);
                self.address = if bits & 1 != 0 { 16 } else { 4 };
                self.number = if bits & 2 != 0 { 4 } else { 2 };
            }
            _ => {}
        }
    }
}

/// Up to four octets as a number.
fn number(octets: &[u8]) -> usize {
    octets.iter().fold(0, |number, octet| number << 8 | usize::from(*octet))
}

#[cfg(test)]
mod tests {
    use super::*;

    /// A slip in a name would leave a fault's field without one.
    #[test]
    fn the_fields_of_a_fault_are_laid_out() {
        let laid_out: Vec<&str> =
            [TABLE_DUMP, PEER_TABLE, PEER, RIB, RIB_GENERIC, ENTRY, SESSION, STATES, MESSAGE]
                .iter()
                .flat_map(|fields| fields.iter().map(|(name, _)| *name))
                .chain(["record", "Type", "Subtype", LEFT_OVER])
                .collect();
        for fault in Fault::ALL {
            if let Fails::Only(names) = fault.entry().fails {
                let unknown = names.iter().find(|name| !laid_out.contains(name));
                assert_eq!(unknown, None, "no field of fault {fault} has this name");
            }
        }
    }
}

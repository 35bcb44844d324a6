//! Records with something wrong in them. The maker says which fault it means and
//! which of its own named fields has it; the place follows from these fields.

use super::sketch::Sketch;

/// A header's size, and where its Type and its Subtype start.
const HEADER: usize = 12;
const TYPE: usize = 4;
const SUBTYPE: usize = 6;

#[derive(Clone)]
pub struct Slip {
    /// The record, and whatever stands behind it.
    pub octets: Vec<u8>,
    pub fault: u8,
    /// Counted from the record's header.
    pub place: usize,
    /// What the field with the fault is called.
    pub field: &'static str,
}

impl Slip {
    /// The record as a whole: its header is not all there, or its message is not.
    pub fn whole(fault: u8, octets: &[u8]) -> Slip {
        Slip { octets: octets.to_vec(), fault, place: 0, field: "record" }
    }

    /// The fault and its place in a dump that has so many octets before the record.
    pub fn after(&self, octets: usize) -> (u8, usize) {
        (self.fault, octets + self.place)
    }

    /// The same with something behind the record.
    pub fn then(mut self, behind: &[u8]) -> Slip {
        self.octets.extend(behind);
        self
    }
}

impl Sketch {
    /// The fault is the Type's.
    pub fn wrong_type(&self) -> Slip {
        Slip { octets: self.record(), fault: 3, place: TYPE, field: "Type" }
    }

    /// The fault is the Subtype's: it is not listed, or no table is in force.
    pub fn wrong_subtype(&self, fault: u8) -> Slip {
        Slip { octets: self.record(), fault, place: SUBTYPE, field: "Subtype" }
    }

    /// The fault is the named field's. Octets are left over from it on if it is 6,
    /// but for a BGP length.
    pub fn wrong(&self, fault: u8, name: &str) -> Slip {
        let field = match (fault, name) {
            (6, "bgp-length") => word(name),
            (6, _) => "octets left over",
            _ => word(name),
        };
        Slip { octets: self.record(), fault, place: HEADER + self.start_of(name), field }
    }

    /// Octets are left over behind the first ones of the named field.
    pub fn left_after(&self, name: &str, size: usize) -> Slip {
        let slip = self.wrong(6, name);
        Slip { place: slip.place + size, ..slip }
    }

    /// A field is missing behind all that is there.
    pub fn lacking(&self, field: &'static str) -> Slip {
        let octets = self.record();
        Slip { place: octets.len(), octets, fault: 5, field }
    }

    /// The message stops at so many octets: in the field that has the next one, or,
    /// of a BGP message, short of what its length says.
    pub fn cut_short(&self, size: usize) -> Slip {
        let spans = self.spans();
        let stopped = spans.iter().find(|span| size < span.end).expect("a cut within the message");
        let name = match stopped.name.as_str() {
            "bgp-rest" => "bgp-length",
            other => other,
        };
        Slip { octets: self.ending_at(size).record(), ..self.wrong(5, name) }
    }

    /// Octets are left behind the last field.
    pub fn too_long(&self, extra: &[u8]) -> Slip {
        self.followed_by(extra).wrong(6, "extra")
    }
}

/// What the tables of faults call a field.
fn word(name: &str) -> &'static str {
    match unnumbered(name).as_str() {
        "micro" => "microseconds",
        "view" => "view",
        "sequence" => "sequence",
        "prefix" => "prefix",
        "prefix-length" => "prefix length",
        "status" => "status",
        "originated" | "entry-originated" => "originated time",
        "attribute-length" | "entry-attribute-length" => "attribute length",
        "attributes" | "entry-attributes" => "attributes",
        "collector" => "collector ID",
        "name-length" => "view name length",
        "name" => "view name",
        "peer-count" => "peer count",
        "entry-count" => "entry count",
        "entry-index" => "peer index",
        other => session_word(other),
    }
}

/// The same for peers and sessions.
fn session_word(name: &str) -> &'static str {
    match name {
        "peer-type" => "peer type",
        "peer-id" => "peer BGP ID",
        "peer-address" => "peer address",
        "peer-as" => "peer AS",
        "local-as" => "local AS",
        "interface" => "interface index",
        "family" => "address family",
        "safi" => "SAFI",
        "local-address" => "local address",
        "old-state" => "old state",
        "new-state" => "new state",
        "marker" => "BGP marker",
        "bgp-length" => "BGP length",
        "bgp-type" => "BGP type",
        other => panic!("no word for {other}"),
    }
}

/// The name without the number of its peer or entry.
fn unnumbered(name: &str) -> String {
    name.chars().filter(|character| !character.is_ascii_digit()).collect()
}

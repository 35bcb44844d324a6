//! What can be wrong with a record.

/// A reason to refuse a record; the discriminant is its number in documents 01
/// and 02.
#[derive(Clone, Copy, Debug, PartialEq, Eq)]
#[repr(u8)]
pub enum Fault {
    /// Too few octets remain for a header.
    HeaderIncomplete = 1,
    /// The header promises more octets than follow it.
    LengthPastEnd = 2,
    UnknownType = 3,
    UnknownSubtype = 4,
    /// A field does not fit in what is left of the message.
    FieldIncomplete = 5,
    /// The last field is read, but octets remain.
    OctetsLeft = 6,
    /// Neither IPv4 nor IPv6, or neither unicast nor multicast.
    BadFamily = 7,
    BadPrefixLength = 8,
    BadState = 9,
    BadBgpLength = 10,
    AttributesDoNotTile = 11,
    /// A RIB record that no peer table precedes.
    NoTable = 12,
    /// An entry that names a peer past the end of the table.
    NoSuchPeer = 13,
    /// A view name that is not UTF-8.
    NameNotText = 17,
}

impl Fault {
    pub fn number(self) -> u8 {
        self as u8
    }
}

/// A field's name and the place of its first octet.
#[derive(Clone, Copy, Debug, PartialEq, Eq)]
pub struct Spot {
    /// Counted from where the reading began: a dump's first octet, or the header
    /// of a record that is read alone.
    pub place: usize,
    pub field: &'static str,
}

impl Spot {
    pub fn flaw(self, fault: Fault) -> Flaw {
        Flaw { fault, spot: self }
    }
}

/// A fault and the field that failed.
#[derive(Clone, Copy, Debug, PartialEq, Eq)]
pub struct Flaw {
    pub fault: Fault,
    pub spot: Spot,
}

impl Flaw {
    pub fn number(self) -> u8 {
        self.fault.number()
    }
}

/// For the writers, which have no place to tell.
impl From<Flaw> for Fault {
    fn from(flaw: Flaw) -> Fault {
        flaw.fault
    }
}

//! Address families, addresses, AS numbers and prefixes.

use crate::fault::{Fault, Flaw};
use crate::reader::Reader;
use crate::writer::Writer;

#[derive(Clone, Copy, Debug, PartialEq, Eq)]
pub enum Family {
    V4,
    V6,
}

impl Family {
    pub fn read(reader: &mut Reader) -> Result<Family, Flaw> {
        let code = reader.field("address family").u16()?;
        Family::of(code).map_err(|fault| reader.flaw(fault))
    }

    pub fn of(code: u16) -> Result<Family, Fault> {
        match code {
            1 => Ok(Family::V4),
            2 => Ok(Family::V6),
            _ => Err(Fault::BadFamily),
        }
    }

    pub fn code(self) -> u16 {
        match self {
            Family::V4 => 1,
            Family::V6 => 2,
        }
    }

    pub fn bits(self) -> u8 {
        match self {
            Family::V4 => 32,
            Family::V6 => 128,
        }
    }

    /// Reads a prefix length and holds it against the family's size.
    pub fn read_prefix_length(self, reader: &mut Reader) -> Result<u8, Flaw> {
        let bits = reader.field("prefix length").u8()?;
        self.prefix_length(bits).map_err(|fault| reader.flaw(fault))
    }

    /// A prefix length that the family has.
    pub fn prefix_length(self, bits: u8) -> Result<u8, Fault> {
        if bits > self.bits() {
            return Err(Fault::BadPrefixLength);
        }
        Ok(bits)
    }
}

#[derive(Clone, Copy, Debug, PartialEq, Eq)]
pub enum Safi {
    Unicast,
    Multicast,
}

impl Safi {
    pub fn read(reader: &mut Reader) -> Result<Safi, Flaw> {
        let code = reader.field("SAFI").u8()?;
        Safi::of(code).map_err(|fault| reader.flaw(fault))
    }

    pub fn of(code: u8) -> Result<Safi, Fault> {
        match code {
            1 => Ok(Safi::Unicast),
            2 => Ok(Safi::Multicast),
            _ => Err(Fault::BadFamily),
        }
    }

    pub fn code(self) -> u8 {
        match self {
            Safi::Unicast => 1,
            Safi::Multicast => 2,
        }
    }
}

#[derive(Clone, Copy, Debug, PartialEq, Eq)]
pub enum Address {
    V4([u8; 4]),
    V6([u8; 16]),
}

impl Address {
    /// Reads one as the field at hand.
    pub fn read(reader: &mut Reader, family: Family) -> Result<Address, Flaw> {
        match family {
            Family::V4 => reader.array().map(Address::V4),
            Family::V6 => reader.array().map(Address::V6),
        }
    }

    pub fn write(&self, writer: &mut Writer) {
        writer.octets(self.octets());
    }

    pub fn octets(&self) -> &[u8] {
        match self {
            Address::V4(octets) => octets,
            Address::V6(octets) => octets,
        }
    }

    pub fn family(&self) -> Family {
        match self {
            Address::V4(_) => Family::V4,
            Address::V6(_) => Family::V6,
        }
    }
}

/// How many octets a record gives to an AS number.
#[derive(Clone, Copy, Debug, PartialEq, Eq)]
pub enum AsWidth {
    Two,
    Four,
}

/// An AS number together with the width it is laid out in.
#[derive(Clone, Copy, Debug, PartialEq, Eq)]
pub enum AsNumber {
    Two(u16),
    Four(u32),
}

impl AsNumber {
    /// Reads one as the field at hand.
    pub fn read(reader: &mut Reader, width: AsWidth) -> Result<AsNumber, Flaw> {
        match width {
            AsWidth::Two => reader.u16().map(AsNumber::Two),
            AsWidth::Four => reader.u32().map(AsNumber::Four),
        }
    }

    pub fn write(self, writer: &mut Writer) {
        match self {
            AsNumber::Two(number) => writer.u16(number),
            AsNumber::Four(number) => writer.u32(number),
        }
    }

    pub fn width(self) -> AsWidth {
        match self {
            AsNumber::Two(_) => AsWidth::Two,
            AsNumber::Four(_) => AsWidth::Four,
        }
    }

    /// The number itself, whatever its width.
    pub fn number(self) -> u32 {
        match self {
            AsNumber::Two(number) => number.into(),
            AsNumber::Four(number) => number,
        }
    }
}

/// A prefix in the compact form of RIB records. All bits of its octets are
/// kept, those past the prefix length too.
#[derive(Clone, Debug, PartialEq, Eq)]
pub struct Prefix {
    pub bits: u8,
    pub octets: Vec<u8>,
}

impl Prefix {
    pub fn read(reader: &mut Reader, family: Family) -> Result<Prefix, Flaw> {
        let bits = family.read_prefix_length(reader)?;
        let octets = reader.field("prefix").take(Self::size(bits))?.to_vec();
        Ok(Prefix { bits, octets })
    }

    /// How many octets so many bits need.
    pub fn size(bits: u8) -> usize {
        usize::from(bits).div_ceil(8)
    }

    pub fn write(&self, writer: &mut Writer) {
        writer.u8(self.bits);
        writer.octets(&self.octets);
    }
}

//! Taking fields off the front of some octets.

use crate::fault::{Fault, Flaw, Spot};

/// A view of octets that shrinks as fields are taken from its front. It knows
/// how far it has come, and where the field at hand started.
#[derive(Clone, Debug)]
pub struct Reader<'a> {
    rest: &'a [u8],
    come: usize,
    spot: Spot,
}

impl<'a> Reader<'a> {
    /// A reader in no field that has a name.
    pub fn over(octets: &'a [u8]) -> Self {
        Reader { rest: octets, come: 0, spot: Spot { place: 0, field: "" } }
    }

    /// Opens the next field: whatever goes wrong from here on is its fault.
    pub fn field(&mut self, name: &'static str) -> &mut Self {
        self.spot = Spot { place: self.come, field: name };
        self
    }

    /// The field at hand.
    pub fn spot(&self) -> Spot {
        self.spot
    }

    /// What to answer where the field at hand fails.
    pub fn flaw(&self, fault: Fault) -> Flaw {
        self.spot.flaw(fault)
    }

    /// How many octets have been taken.
    pub fn come(&self) -> usize {
        self.come
    }

    /// How many octets have not been taken yet.
    pub fn left(&self) -> usize {
        self.rest.len()
    }

    pub fn is_empty(&self) -> bool {
        self.rest.is_empty()
    }

    /// The next `count` octets. Takes nothing when there are fewer.
    pub fn take(&mut self, count: usize) -> Result<&'a [u8], Flaw> {
        if count > self.rest.len() {
            return Err(self.flaw(Fault::FieldIncomplete));
        }
        let (taken, rest) = self.rest.split_at(count);
        self.rest = rest;
        self.come += count;
        Ok(taken)
    }

    /// The same as a reader of its own, which counts on from here.
    pub fn part(&mut self, count: usize) -> Result<Reader<'a>, Flaw> {
        let come = self.come;
        Ok(Reader { rest: self.take(count)?, come, spot: self.spot })
    }

    /// Everything that is left.
    pub fn take_rest(&mut self) -> &'a [u8] {
        self.come += self.rest.len();
        std::mem::take(&mut self.rest)
    }

    pub fn array<const N: usize>(&mut self) -> Result<[u8; N], Flaw> {
        let mut array = [0; N];
        array.copy_from_slice(self.take(N)?);
        Ok(array)
    }

    pub fn u8(&mut self) -> Result<u8, Flaw> {
        self.array().map(u8::from_be_bytes)
    }

    pub fn u16(&mut self) -> Result<u16, Flaw> {
        self.array().map(u16::from_be_bytes)
    }

    pub fn u32(&mut self) -> Result<u32, Flaw> {
        self.array().map(u32::from_be_bytes)
    }

    /// Passes only when every octet has been taken.
    pub fn finish(mut self) -> Result<(), Flaw> {
        if self.is_empty() {
            Ok(())
        } else {
            Err(self.field("octets left over").flaw(Fault::OctetsLeft))
        }
    }
}

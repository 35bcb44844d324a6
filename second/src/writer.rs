//! Laying fields out as octets.

/// Octets that grow as fields are put at their end.
#[derive(Clone, Debug, Default)]
pub struct Writer {
    octets: Vec<u8>,
}

impl Writer {
    pub fn new() -> Self {
        Self::default()
    }

    pub fn octets(&mut self, octets: &[u8]) {
        self.octets.extend_from_slice(octets);
    }

    pub fn u8(&mut self, value: u8) {
        self.octets(&value.to_be_bytes());
    }

    pub fn u16(&mut self, value: u16) {
        self.octets(&value.to_be_bytes());
    }

    pub fn u32(&mut self, value: u32) {
        self.octets(&value.to_be_bytes());
    }

    /// A length or count in one octet. Values that were read always fit.
    pub fn size8(&mut self, size: usize) {
        self.u8(u8::try_from(size).expect("size above one octet"));
    }

    /// A length or count in two octets. Values that were read always fit.
    pub fn size16(&mut self, size: usize) {
        self.u16(u16::try_from(size).expect("size above two octets"));
    }

    pub fn into_octets(self) -> Vec<u8> {
        self.octets
    }
}

//! A record's header, and the peer AS behind it, as far as a person is told of a faulty record. The
//! library shows nothing of one; of a good record it shows all, and nobody need come here.

use crate::{kinds, moment};
use std::fmt;

pub const SIZE: usize = 12;

pub struct Header {
    timestamp: u32,
    type_code: u16,
    subtype: u16,
    length: u32,
}

impl Header {
    /// The header at this offset, if all of it is there.
    pub fn at(dump: &[u8], record: usize) -> Option<Header> {
        let octets = dump.get(record..)?.first_chunk::<SIZE>()?;
        let [s1, s2, s3, s4, t1, t2, u1, u2, length @ ..] = *octets;
        Some(Header {
            timestamp: u32::from_be_bytes([s1, s2, s3, s4]),
            type_code: u16::from_be_bytes([t1, t2]),
            subtype: u16::from_be_bytes([u1, u2]),
            length: u32::from_be_bytes(length),
        })
    }

    /// Where the record ends by its Length, if it starts at `record`.
    pub fn end(&self, record: usize) -> Option<usize> {
        let length = usize::try_from(self.length).ok()?;
        record.checked_add(SIZE)?.checked_add(length)
    }

    /// Type, Subtype and time in words, and the peer AS, as far as the octets have them.
    pub fn words(&self, dump: &[u8], record: usize) -> String {
        let message = self.message(dump, record);
        let kind = kinds::of_record(self.type_code, self.subtype);
        let time = moment::shown(self.time(message));
        let peer_as = self.peer_as(message).map(|number| format!(", peer AS {number}"));
        format!("{kind}, time {time}{}", peer_as.unwrap_or_default())
    }

    /// The octets behind the header that are the record's.
    fn message<'a>(&self, dump: &'a [u8], record: usize) -> &'a [u8] {
        let end = self.end(record).unwrap_or(dump.len()).min(dump.len());
        dump.get(record + SIZE..end).unwrap_or_default()
    }

    /// In microseconds since 1970.
    fn time(&self, message: &[u8]) -> u64 {
        let micros = if self.has_microseconds() { number(message, 0, 4) } else { None };
        u64::from(self.timestamp) * 1_000_000 + u64::from(micros.unwrap_or(0))
    }

    fn has_microseconds(&self) -> bool {
        matches!(self.type_code, 17 | 33 | 49)
    }

    fn peer_as(&self, message: &[u8]) -> Option<u32> {
        let from = if self.has_microseconds() { 4 } else { 0 };
        match (self.type_code, self.subtype) {
            (12, 1) => number(message, 18, 2),
            (12, 2) => number(message, 42, 2),
            (16 | 17, 4 | 5 | 7 | 9 | 11) => number(message, from, 4),
            (16 | 17, 0 | 1 | 6 | 8 | 10) => number(message, from, 2),
            _ => None,
        }
    }
}

/// Octets as a number, if all of them are there.
fn number(octets: &[u8], from: usize, size: usize) -> Option<u32> {
    let octets = octets.get(from..from + size)?;
    Some(octets.iter().fold(0, |number, octet| number << 8 | u32::from(*octet)))
}

impl fmt::Display for Header {
    fn fmt(&self, f: &mut fmt::Formatter) -> fmt::Result {
        let Header { type_code, subtype, length, .. } = self;
        write!(f, "Type {type_code}, Subtype {subtype}, Length {length}")
    }
}

#[cfg(test)]
mod tests {
    use super::*;

    /// A record behind one octet that is not its own, and before others.
    fn words(type_code: u8, subtype: u8, message: &[u8]) -> String {
        let length = message.len() as u8;
        let header = [7, 0, 0, 0, 9, 0, type_code, 0, subtype, 0, 0, 0, length];
        let dump = [&header, message, &[0xee; 60]].concat();
        Header::at(&dump, 1).unwrap().words(&dump, 1)
    }

    #[test]
    fn as_far_as_the_octets_have_it() {
        let time = |micros: &str| format!("time 1970-01-01T00:00:09.{micros}Z");
        let at = time("000000");
        assert_eq!(words(16, 0, &[1, 2]), format!("BGP4MP, state change, {at}, peer AS 258"));
        assert_eq!(words(16, 0, &[1]), format!("BGP4MP, state change, {at}"));
        assert_eq!(
            words(16, 5, &[0, 1, 0, 2]),
            format!("BGP4MP, state change, {at}, peer AS 65538")
        );
        let at = time("000011");
        let message = [0, 0, 0, 11, 0, 0, 0, 5];
        assert_eq!(words(17, 4, &message), format!("BGP4MP_ET, message, {at}, peer AS 5"));
        assert_eq!(words(17, 4, &message[..7]), format!("BGP4MP_ET, message, {at}"));
        let at = time("000000");
        assert_eq!(words(17, 4, &message[..3]), format!("BGP4MP_ET, message, {at}"));
        assert_eq!(words(13, 1, &[0; 20]), format!("TABLE_DUMP_V2, peer table, {at}"));
        assert_eq!(words(99, 1, &[0; 20]), format!("a Type that is not known, {at}"));
    }

    #[test]
    fn old_table_dumps() {
        let mut message = [0; 44];
        message[18..20].copy_from_slice(&[0, 4]);
        message[42..44].copy_from_slice(&[0, 6]);
        assert!(words(12, 1, &message).ends_with("peer AS 4"));
        assert!(words(12, 2, &message).ends_with("peer AS 6"));
        assert!(!words(12, 2, &message[..43]).contains("peer AS"));
    }

    /// Any offsets, also such as no dump has.
    #[test]
    fn nothing_panics() {
        for record in [0, 1, 39, 40, usize::MAX] {
            for octet in [0, 13, 16, 17, 0xff] {
                let dump = [octet; 40];
                let words = Header::at(&dump, record).map(|header| header.words(&dump, record));
                assert_eq!(words.is_some(), record < 2);
            }
        }
    }
}

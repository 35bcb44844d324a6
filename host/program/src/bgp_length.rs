//! A BGP message's length that disagrees with its record, in words: the octets alone do not show it.

use crate::header::Header;
use dagsumilat::{Fault, FirstFault};

/// Octets of the marker, which stands right before the length.
const MARKER: usize = 16;

/// The words for a BGP length of which all is there and which is faulty for what it says of its
/// record; none for any other fault.
pub fn told(dump: &[u8], found: &FirstFault) -> Option<String> {
    let is_about_record = matches!(found.fault, Fault::FieldIncomplete | Fault::OctetsLeft);
    if !is_about_record || found.field(dump) != Some("BGP length") {
        return None;
    }
    let end = Header::at(dump, found.record)?.end(found.record)?;
    let length = dump.get(found.place..end)?.first_chunk().copied().map(u16::from_be_bytes)?;
    let size = end - found.place + MARKER;
    Some(format!("The BGP message's length is {length}; the record has {size} octets of it."))
}

#[cfg(test)]
mod tests {
    use super::*;
    use dagsumilat::first_fault;

    /// A message of which so many octets are there, and whose length says `length`.
    fn told_of(size: usize, length: u16) -> Option<String> {
        let mut dump = vec![0, 0, 0, 1, 0, 16, 0, 1, 0, 0, 0, 16 + size as u8];
        dump.extend([0xfb, 0xf4, 0xfb, 0xff, 0, 0, 0, 1, 192, 0, 2, 1, 192, 0, 2, 254]);
        let message = [&[255; 16][..], &length.to_be_bytes(), &[0; 50]].concat();
        dump.extend(&message[..size]);
        // Another record's octets are none of its own.
        dump.extend([0, 0, 0, 1, 0, 11, 0, 0, 0, 0, 0, 0]);
        told(&dump, &first_fault(&dump).unwrap())
    }

    #[test]
    fn both_sizes_are_told() {
        let words = |length, size| {
            Some(format!(
                "The BGP message's length is {length}; the record has {size} octets of it."
            ))
        };
        assert_eq!(told_of(19, 20), words(20, 19));
        assert_eq!(told_of(40, 4_096), words(4_096, 40));
        assert_eq!(told_of(40, 39), words(39, 40));
    }

    #[test]
    fn other_faults_are_told_by_their_own_words() {
        for (size, length) in [(15, 19), (16, 19), (17, 19), (18, 19), (19, 18), (40, 4_097)] {
            assert_eq!(told_of(size, length), None, "{size} {length}");
        }
    }
}

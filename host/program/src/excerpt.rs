//! The octets around a fault, as a person reads them in a hex dump.

use crate::header::{self, Header};
use dagsumilat::FirstFault;
use std::fmt::Write;

/// As many octets in a row as other programs show, so that the offsets are the same.
const ROW: usize = 16;

/// The row of the fault's place, and one before and one behind it. The octet at the place stands in
/// brackets, or two dashes where there is none; a bar stands where the faulty record starts, and
/// where it ends. A record that starts before these rows has a row for its header.
pub fn rows(dump: &[u8], found: &FirstFault) -> Vec<String> {
    let end = Header::at(dump, found.record).and_then(|header| header.end(found.record));
    let excerpt = Excerpt { dump, found, end };
    let from = (found.place / ROW).saturating_sub(1) * ROW;
    let mut rows = excerpt.header(from);
    let is_shown = |start: &usize| *start < dump.len() || *start == found.place;
    let starts = (0..3).map(|row| from.saturating_add(row * ROW)).filter(is_shown);
    rows.extend(starts.map(|start| excerpt.row(start, ROW)));
    rows
}

struct Excerpt<'a> {
    dump: &'a [u8],
    found: &'a FirstFault,
    /// Of the faulty record, by its Length.
    end: Option<usize>,
}

impl Excerpt<'_> {
    /// The header, as far as it lies before `from`, and dots for what is left out behind it.
    fn header(&self, from: usize) -> Vec<String> {
        match from.checked_sub(self.found.record) {
            None | Some(0) => Vec::new(),
            Some(size @ ..=header::SIZE) => vec![self.row(self.found.record, size)],
            Some(_) => vec![self.row(self.found.record, header::SIZE), "...".to_string()],
        }
    }

    fn row(&self, start: usize, size: usize) -> String {
        let mut text = format!("{start:08x} ");
        let octets = self.dump.get(start..).unwrap_or_default();
        for (octet, at) in octets.iter().take(size).zip(start..) {
            let behind_mark = at > start && at - 1 == self.found.place;
            let edge = if behind_mark { ']' } else { self.edge(at) };
            let _ = write!(text, "{edge}{octet:02x}");
        }
        let end = start.saturating_add(octets.len().min(size));
        if end == self.found.place && end == self.dump.len() {
            text.push_str("[--]");
        } else if end > start && end - 1 == self.found.place {
            text.push(']');
        }
        text
    }

    /// What stands before the octet at this offset.
    fn edge(&self, at: usize) -> char {
        if at == self.found.place {
            '['
        } else if at == self.found.record || Some(at) == self.end {
            '|'
        } else {
            ' '
        }
    }
}

#[cfg(test)]
mod tests {
    use super::*;
    use dagsumilat::Fault;

    /// So many octets that count up, in which a record of this size starts.
    fn dump(size: usize, record: usize, record_size: usize) -> Vec<u8> {
        let mut dump: Vec<u8> = (0..size).map(|at| at as u8).collect();
        let length = (record_size - header::SIZE) as u32;
        dump[record + 8..record + 12].copy_from_slice(&length.to_be_bytes());
        dump
    }

    fn rows_of(dump: &[u8], record: usize, place: usize) -> Vec<String> {
        rows(dump, &FirstFault { fault: Fault::State, place, record, records: 0 })
    }

    #[test]
    fn the_octet_is_marked_and_so_is_the_record() {
        let dump = dump(70, 18, 34);
        let expected = [
            "00000010  10 11|12 13 14 15 16 17 18 19 00 00 00 16 1e 1f",
            "00000020  20[21]22 23 24 25 26 27 28 29 2a 2b 2c 2d 2e 2f",
            "00000030  30 31 32 33|34 35 36 37 38 39 3a 3b 3c 3d 3e 3f",
        ];
        assert_eq!(rows_of(&dump, 18, 33), expected);
    }

    #[test]
    fn at_the_start_of_a_dump() {
        let expected = ["00000000 |00 01 02 03[04]05 06 07 00 00 00 00 0c"];
        assert_eq!(rows_of(&dump(13, 0, 12)[..13], 0, 4), [expected[0].replace(" 0c", "|0c")]);
        assert_eq!(rows_of(&[9], 0, 0), ["00000000 [09]"]);
        assert_eq!(rows_of(&[], 0, 0), ["00000000 [--]"]);
    }

    #[test]
    fn the_ends_of_a_row() {
        let dump = dump(48, 0, 48);
        let rows = rows_of(&dump, 0, 31);
        assert!(
            rows[1].ends_with(" 1e[1f]") && rows[2].starts_with("00000020  20 21 "),
            "{rows:?}"
        );
        let rows = rows_of(&dump, 0, 32);
        assert!(rows[2].ends_with(" 1e 1f") && rows[3].starts_with("00000020 [20]21 "), "{rows:?}");
    }

    #[test]
    fn behind_the_last_octet() {
        let dump = dump(40, 0, 40);
        let last = |size| rows_of(&dump[..size], 0, size).pop().unwrap();
        assert_eq!(last(37), "00000020  20 21 22 23 24[--]");
        assert_eq!(last(32), "00000020 [--]");
        assert_eq!(last(40), "00000020  20 21 22 23 24 25 26 27[--]");
        assert_eq!(rows_of(&dump[..32], 0, 20).len(), 2, "no row without an octet");
    }

    #[test]
    fn a_header_before_the_rows_has_a_row() {
        let dump = dump(400, 10, 380);
        let rows = rows_of(&dump, 10, 200);
        assert_eq!(rows[0], "0000000a |0a 0b 0c 0d 0e 0f 10 11 00 00 01 70");
        assert_eq!(rows[1], "...");
        assert_eq!(
            rows[2..].iter().map(|row| &row[..8]).collect::<Vec<_>>(),
            ["000000b0", "000000c0", "000000d0"]
        );
        let rows = rows_of(&dump, 10, 33);
        assert_eq!(rows[0], "0000000a |0a 0b 0c 0d 0e 0f");
        assert!(rows[1].starts_with("00000010  10 11 00 00 01 70 16"), "{}", rows[1]);
    }

    /// Any numbers, also such as no dump has.
    #[test]
    fn nothing_panics() {
        let dump = dump(40, 3, 20);
        let numbers = [0, 1, 15, 16, 28, 39, 40, 41, 1_000, usize::MAX - 1, usize::MAX];
        for size in [0, 1, 12, 20, 40] {
            for (record, place) in numbers.iter().flat_map(|it| numbers.map(|place| (*it, place))) {
                assert!(rows_of(&dump[..size], record, place).len() <= 5);
            }
        }
    }
}

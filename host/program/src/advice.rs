//! A fault in words: what it means, where it is, what it often comes from and what can be done.

use crate::contents::{self, Look};
use crate::header::Header;
use crate::input::{Part, Recording};
use crate::{bgp_length, excerpt, view_name};
use dagsumilat::{first_fault, Fault, FirstFault};

/// The words for a recording that was refused with this fault. One that is not the recording's own,
/// as that of a report past 64 bits, has no place in it.
pub fn dump_refused(recording: &Recording, fault: Fault) -> String {
    match first_fault(&recording.octets) {
        Some(found) => Telling::new(recording, found).words(),
        None => {
            let (name, number, words) = (recording.name(), fault.number(), fault.words());
            format!("{name}: fault {number}: {words}{}", advice(fault))
        }
    }
}

/// The words for a cut that cannot be ordered.
pub fn order_refused(fault: Fault, from: &str, to: &str) -> String {
    let (number, words) = (fault.number(), fault.words());
    format!("fault {number}: {words} (--from is {from}, --to is {to}){}", advice(fault))
}

fn advice(fault: Fault) -> String {
    format!("\n  Often: {}\n  To do: {}", fault.cause(), fault.remedy())
}

fn octet(at: usize) -> String {
    format!("octet {at} (0x{at:x})")
}

/// What is known of a fault that a recording has.
struct Telling<'a> {
    recording: &'a Recording,
    dump: &'a [u8],
    found: FirstFault,
    /// The FILE in which the faulty record starts.
    part: &'a Part,
    header: Option<Header>,
    /// What that FILE is, if it is no dump from its first octet on.
    look: Option<Look>,
}

impl<'a> Telling<'a> {
    fn new(recording: &'a Recording, found: FirstFault) -> Telling<'a> {
        let dump = &recording.octets[..];
        let starts_here = |part: &&Part| (part.start..part.end).contains(&found.record);
        let part = recording.parts.iter().find(starts_here);
        let part = part.expect("a record starts in one of the files");
        let header = Header::at(dump, found.record);
        let is_first = found.record == part.start;
        let look = is_first.then(|| contents::looks_like(&dump[part.start..part.end])).flatten();
        Telling { recording, dump, found, part, header, look }
    }

    fn words(&self) -> String {
        let (name, fault) = (&self.part.name, self.found.fault);
        let (number, place, words) = (fault.number(), octet(self.found.place), fault.words());
        let whole = match self.is_one_file() {
            true => String::new(),
            false => format!(" of {}", self.recording.name()),
        };
        let seen: String = self.seen().iter().map(|line| format!("\n  {line}")).collect();
        let advice = match self.look {
            Some(Look { what, remedy }) => {
                format!("\n  It looks like {what}.\n  To do: {remedy}")
            }
            None => advice(fault),
        };
        format!("{name}: fault {number} at {place}{whole}: {words}{seen}{advice}")
    }

    fn is_one_file(&self) -> bool {
        self.recording.parts.len() == 1
    }

    /// What stands in the dump about the fault, a line each.
    fn seen(&self) -> Vec<String> {
        let mut lines = vec![self.field()];
        lines.extend(self.in_its_file());
        lines.extend(self.by_header());
        let rows = excerpt::rows(self.dump, &self.found);
        lines.extend(rows.iter().map(|row| format!("  {row}")));
        if self.found.fault == Fault::ViewName {
            lines.extend(view_name::told(self.dump, self.found.place));
        }
        lines.extend(bgp_length::told(self.dump, &self.found));
        lines.push(self.before());
        lines
    }

    fn end(&self) -> Option<usize> {
        self.header.as_ref().and_then(|header| header.end(self.found.record))
    }

    /// The field that failed, where its record starts, and what that record is.
    fn field(&self) -> String {
        let FirstFault { fault, place, record, .. } = self.found;
        let is_missing = fault == Fault::FieldIncomplete && self.end() == Some(place);
        let missing = if is_missing { ", of which nothing is there" } else { "" };
        let name = self.found.field(self.dump).map(|name| format!("Field: {name}{missing}. "));
        let header = self.header.as_ref().map(|header| format!(": {header}"));
        let (name, header) = (name.unwrap_or_default(), header.unwrap_or_default());
        format!("{name}The record starts at {}{header}.", octet(record))
    }

    /// Where that is in the FILE, if there are several.
    fn in_its_file(&self) -> Option<String> {
        if self.is_one_file() {
            return None;
        }
        let Part { name, start, end, .. } = self.part;
        let FirstFault { place, record, .. } = self.found;
        let starts = format!("In {name} alone the record starts at {}", octet(record - start));
        Some(if self.end().is_none_or(|behind| behind > *end) && *end < self.dump.len() {
            format!("{starts} and runs past the end of that file, which may be cut off.")
        } else {
            format!("{starts}, the field at {}.", octet(place - start))
        })
    }

    /// What is no dump has no header.
    fn by_header(&self) -> Option<String> {
        let header = self.header.as_ref().filter(|_| self.look.is_none())?;
        Some(format!("By its header: {}.", header.words(self.dump, self.found.record)))
    }

    fn before(&self) -> String {
        let FirstFault { record, records, .. } = self.found;
        if record == 0 {
            return "No good record stands before it.".to_string();
        }
        let alone = match (self.is_one_file(), self.part.archive.is_some()) {
            (true, false) => format!("alone they are a good dump (head -c {record})"),
            (true, true) => "alone, unpacked, they are a good dump".to_string(),
            (false, _) => {
                let (size, name) = (record - self.part.start, &self.part.name);
                format!("{size} of these octets are in {name}")
            }
        };
        format!("{records} good record(s), {record} octets, stand before it: {alone}.")
    }
}

#[cfg(test)]
mod tests {
    use super::*;

    /// A state change from 3 to this state at second 1.
    fn change(new: u8) -> Vec<u8> {
        let mut octets = vec![0, 0, 0, 1, 0, 16, 0, 0, 0, 0, 0, 20];
        octets.extend([0xfb, 0xf4, 0xfb, 0xff, 0, 0, 0, 1, 192, 0, 2, 1, 192, 0, 2, 254]);
        octets.extend([0, 3, 0, new]);
        octets
    }

    /// Of files with these octets.
    fn recording(files: &[(&str, &[u8])]) -> Recording {
        let mut recording = Recording { octets: Vec::new(), parts: Vec::new() };
        for (name, octets) in files {
            let (start, size) = (recording.octets.len(), octets.len() as u64);
            recording.octets.extend(*octets);
            let (name, end) = (name.to_string(), recording.octets.len());
            recording.parts.push(Part { name, start, end, size, archive: None, sha256: None });
        }
        recording
    }

    fn refused(octets: &[u8], fault: Fault) -> String {
        dump_refused(&recording(&[("a.mrt", octets)]), fault)
    }

    #[test]
    fn a_fault_is_told_with_all_that_is_known_of_it() {
        let words = refused(&[change(4), change(7)].concat(), Fault::State);
        let expected = "\
a.mrt: fault 9 at octet 62 (0x3e): a state change names an FSM state outside 1 to 6
  Field: new state. The record starts at octet 32 (0x20): Type 16, Subtype 0, Length 20.
  By its header: BGP4MP, state change, time 1970-01-01T00:00:01.000000Z, peer AS 64500.
    00000020 |00 00 00 01 00 10 00 00 00 00 00 14 fb f4 fb ff
    00000030  00 00 00 01 c0 00 02 01 c0 00 02 fe 00 03[00]07
  1 good record(s), 32 octets, stand before it: alone they are a good dump (head -c 32).
  Often: ";
        assert!(words.starts_with(expected), "{words}");
        assert!(words.lines().last().unwrap().starts_with("  To do: "), "{words}");
    }

    #[test]
    fn of_several_files_the_one_is_named() {
        let (good, both) = (change(4), [change(4), change(7)].concat());
        let files = recording(&[("a.mrt", &good), ("none.mrt", &[]), ("b.mrt", &both)]);
        let words = dump_refused(&files, Fault::State);
        let expected = "\
b.mrt: fault 9 at octet 94 (0x5e) of 3 files laid end to end: a state change names an FSM state \
outside 1 to 6
  Field: new state. The record starts at octet 64 (0x40): Type 16, Subtype 0, Length 20.
  In b.mrt alone the record starts at octet 32 (0x20), the field at octet 62 (0x3e).
";
        assert!(words.starts_with(expected), "{words}");
        let before =
            "2 good record(s), 64 octets, stand before it: 32 of these octets are in b.mrt.";
        assert!(words.contains(before) && !words.contains("head -c"), "{words}");
    }

    /// What `head` would take of it is the archive's first octets, not the dump's.
    #[test]
    fn of_a_packed_file_no_octets_are_to_be_cut() {
        let mut packed = recording(&[("a.mrt.gz", &[change(4), change(7)].concat())]);
        packed.parts[0].archive = Some(crate::archive::Archive::Gzip);
        let words = dump_refused(&packed, Fault::State);
        assert!(words.contains("stand before it: alone, unpacked, they are a good dump.\n"));
        assert!(!words.contains("head -c"), "{words}");
    }

    /// The rest of the record is taken from the next file.
    #[test]
    fn a_file_that_is_cut_off_before_another() {
        let (half, good) = (change(4)[..20].to_vec(), change(4));
        let files = recording(&[("a.mrt", &half), ("b.mrt", &good)]);
        let words = dump_refused(&files, first_fault(&files.octets).unwrap().fault);
        assert!(words.starts_with("a.mrt: fault "), "{words}");
        let told = "In a.mrt alone the record starts at octet 0 (0x0) and runs past the end of \
                    that file, which may be cut off.";
        assert!(words.contains(told), "{words}");
    }

    #[test]
    fn what_is_no_dump_is_told_instead_of_advice() {
        let page = b"<html><body>404 Not Found</body></html>";
        let words = refused(page, Fault::LengthPastEnd);
        assert!(words.contains("\n  It looks like an HTML page: often an error page"), "{words}");
        assert!(words.lines().last().unwrap().starts_with("  To do: read the page"), "{words}");
        assert!(!words.contains("Often:") && !words.contains("By its header"), "{words}");
        let (good, files) = (change(4), ["a.mrt", "b.mrt"]);
        let words = dump_refused(&recording(&[(files[0], &good), (files[1], page)]), Fault::Type);
        assert!(words.contains("It looks like an HTML page"), "{words}");
        let glued = [&good[..], page].concat();
        assert!(!refused(&glued, Fault::Type).contains("It looks like"), "not a file's start");
    }

    #[test]
    fn a_report_too_large_has_no_place_in_the_dump() {
        let words = refused(&change(4), Fault::Report);
        assert!(words.starts_with("a.mrt: fault 16: a number of the report"), "{words}");
        assert!(!words.contains("octet"), "{words}");
    }

    #[test]
    fn only_a_view_name_is_shown_as_text() {
        let name = b"\0\0\0\x01\0\x0d\0\x01\0\0\0\x0c\xc0\0\x02\xfe\0\x04caf\xe9\0\0";
        let words = refused(name, Fault::ViewName);
        assert!(words.contains("\n  The name is \"caf\\xE9\""), "{words}");
        assert!(!refused(&change(7), Fault::State).contains("The name"));
    }

    #[test]
    fn nothing_is_kept_of_a_dump_that_starts_with_a_fault() {
        let words = refused(b"this is no dump", Fault::LengthPastEnd);
        assert!(words.contains("No good record"), "{words}");
        assert!(!words.contains("head -c"), "{words}");
    }

    /// Half a header says neither Type nor Length.
    #[test]
    fn a_record_without_a_header() {
        let words = refused(&[9; 11], Fault::HeaderIncomplete);
        assert!(
            words.contains("\n  Field: record. The record starts at octet 0 (0x0).\n"),
            "{words}"
        );
    }
}

//! The list of faults: all that is told of one by its number stands here, once.
//!
//! A new fault is an entry here and a line in include/dagsumilat.h; tests hold the two together,
//! and the manual's list, which is made from this one.

use crate::field::Fails;

/// What is known of a fault.
pub(crate) struct Entry {
    pub name: &'static str,
    /// What it means.
    pub words: &'static str,
    /// Of which field the first octet is its place.
    pub place: &'static str,
    pub fails: Fails,
    /// Known from dumps that were looked at: a hint, never a verdict.
    pub cause: &'static str,
    pub remedy: &'static str,
}

/// Makes the type of all faults from their list.
macro_rules! faults {
    ($($number:literal $fault:ident { $($what:ident: $value:expr,)* })*) => {
        /// Why something was refused.
        #[derive(Clone, Copy, Debug, PartialEq, Eq, PartialOrd, Ord, Hash)]
        pub enum Fault {
            $($fault = $number,)*
        }

        impl Fault {
            /// All of them, by rising number.
            pub const ALL: [Fault; [$($number),*].len()] = [$(Fault::$fault),*];

            pub(crate) fn entry(self) -> &'static Entry {
                match self {
                    $(Fault::$fault => &Entry { $($what: $value,)* },)*
                }
            }
        }
    };
}

faults! {
    1 HeaderIncomplete {
        name: "header incomplete",
        words: "the dump ends within a record's header, after 1 to 11 of its 12 octets",
        place: "the record",
        fails: Fails::Only(&["record"]),
        cause: "the file is still being written, or was cut off: a transfer that stopped, a full \
                disk.",
        remedy: "wait until the collector has closed the file, or get it again.",
    }
    2 LengthPastEnd {
        name: "Length past the end",
        words: "the record's Length is more than the octets that follow its header",
        place: "the record",
        fails: Fails::Only(&["record"]),
        cause: "the file is still being written, or was cut off: a transfer that stopped, a full \
                disk. Or a disk that was full for a while left half a record in the middle, and \
                what follows was taken for its rest.",
        remedy: "wait until the collector has closed the file, or get it again; else keep the part \
                 before, and look at the record.",
    }
    3 Type {
        name: "unknown Type",
        words: "the record's Type is none of 11, 12, 13, 16, 17, 32, 33, 48 and 49",
        place: "the Type",
        fails: Fails::Only(&["Type"]),
        cause: "in the first record: no MRT dump, or one that is packed in a way that is not read \
                here; types 0 to 10, which are deprecated and not read; further on, damage.",
        remedy: "see what `file` says of it; further on, get the file again or keep the part \
                 before.",
    }
    4 Subtype {
        name: "unknown Subtype",
        words: "the record's Type (12, 13, 16 or 17) has no such Subtype here",
        place: "the Subtype",
        fails: Fails::Only(&["Subtype"]),
        cause: "add-path recordings (RFC 8050: types 13, 16 and 17 from subtype 8 on), or \
                OpenBGPD's `table-mp` (type 16, subtype 2).",
        remedy: "have the collector write without add-path; for OpenBGPD, as `table-v2`.",
    }
    5 FieldIncomplete {
        name: "field incomplete",
        words: "the record's message ends before a field is complete",
        place: "that field, or just past the record if none of it is there; the length of a BGP \
                message where that says more octets than the record has",
        fails: Fails::OfMessage,
        cause: "a state change without addresses, as FRR writes at shutdown; type 17 with a \
                Length that does not count the microseconds; damage.",
        remedy: "look at the record; have the producer mended, or keep the part before.",
    }
    6 OctetsLeft {
        name: "octets left over",
        words: "octets are left in the record's message after its last field",
        place: "the first of them; the length of a BGP message where that says fewer octets than \
                the record has",
        fails: Fails::Only(&["octets left over", "BGP length"]),
        cause: "FRR's peer table when a peer is unnumbered; damage.",
        remedy: "give that peer an address at the collector, or use a dump of updates.",
    }
    7 Family {
        name: "address family",
        words: "an address family or SAFI is neither 1 nor 2",
        place: "that field",
        fails: Fails::Only(&["address family", "SAFI"]),
        cause: "VPN, EVPN or flowspec routes as OpenBGPD and GoBGP write them (type 13, subtype \
                6); a state change without addresses, as FRR writes for a peer that has none.",
        remedy: "have the collector leave those families out of the dump; else keep the part \
                 before.",
    }
    8 PrefixLength {
        name: "prefix length",
        words: "a prefix length is above 32 (IPv4) or 128 (IPv6)",
        place: "that field",
        fails: Fails::Only(&["prefix length"]),
        cause: "damage in the file.",
        remedy: "get the file again, or keep the part before.",
    }
    9 State {
        name: "FSM state",
        words: "a state change names an FSM state outside 1 to 6",
        place: "that state",
        fails: Fails::Only(&["old state", "new state"]),
        cause: "FRR or Quagga with `dump bgp all` or `all-et`: they write states 7 and 8.",
        remedy: "record with `dump bgp updates` or `updates-et`, which leave state changes out.",
    }
    10 BgpLength {
        name: "BGP length",
        words: "a BGP message's length field is below 19 or above 4,096",
        place: "that field",
        fails: Fails::Only(&["BGP length"]),
        cause: "extended messages (RFC 8654), which reach 65,535 octets; damage.",
        remedy: "look at the record; have the collector take no extended messages.",
    }
    11 Attributes {
        name: "path attributes",
        words: "path attributes do not fill their octets exactly",
        place: "the first of the attributes, not the one that breaks off",
        fails: Fails::Only(&["attributes"]),
        cause: "BIRD 2.0.7, which in table dumps sets the flag for a length of two octets on short \
                attributes, whose length has one; damage.",
        remedy: "dump the table with another version of BIRD; else get the file again, or keep the \
                 part before.",
    }
    12 NoTable {
        name: "no peer table",
        words: "a RIB record has no peer table before it",
        place: "the Subtype",
        fails: Fails::Only(&["Subtype"]),
        cause: "a table dump that was split, parts of one in the wrong order, or one cut by a \
                program that dropped its peer table.",
        remedy: "use the whole table dump, from its peer table on.",
    }
    13 PeerIndex {
        name: "peer index",
        words: "a RIB entry names a peer that the table in force does not have",
        place: "that peer index",
        fails: Fails::Only(&["peer index"]),
        cause: "GoBGP, which gives its own routes an index equal to the number of peers; or peers \
                that were taken out without numbering the rest anew.",
        remedy: "dump without the collector's own routes, or go back to the original recording.",
    }
    14 Window {
        name: "backward window",
        words: "the window's start is after its end",
        place: "none",
        fails: Fails::Only(&[]),
        cause: "start and end exchanged, or a slip in a date.",
        remedy: "order them by time.",
    }
    15 Room {
        name: "no room",
        words: "what is to be written is longer than the room for it",
        place: "none",
        fails: Fails::Only(&[]),
        cause: "an error in the program that calls the library: as much room as the dump is long \
                is always enough.",
        remedy: "report it, with the order that was given.",
    }
    16 Report {
        name: "report too large",
        words: "a number of the report passes 64 bits",
        place: "none",
        fails: Fails::Only(&[]),
        cause: "an error in the program that calls the library: counted from zero, no files hold \
                so many records.",
        remedy: "report it, with the order that was given; fewer recordings at once may do.",
    }
    17 ViewName {
        name: "view name",
        words: "a peer table's view name is not UTF-8 text",
        place: "the name's first octet, not the first that is not text",
        fails: Fails::Only(&["view name"]),
        cause: "a view that the collector's configuration names in Latin-1 or another encoding \
                than UTF-8; damage.",
        remedy: "name the view in ASCII or UTF-8 at the collector and dump again; else keep the \
                 part before, or use a dump of updates, which has no view name.",
    }
}

#[cfg(test)]
mod tests {
    use super::*;

    const HEADER: &str =
        include_str!(concat!(env!("CARGO_MANIFEST_DIR"), "/../../include/dagsumilat.h"));

    /// The enum's lines in the header, as `NAME = number`.
    fn lines_of_header() -> Vec<String> {
        let (_, text) = HEADER.split_once("enum dagsumilat_fault {").expect("the header has it");
        let (text, _) = text.split_once("};").expect("it ends");
        let line = |line: &str| {
            let (line, _) = line.split_once("/*").unwrap_or((line, ""));
            line.trim().trim_end_matches(',').to_string()
        };
        text.lines().map(line).filter(|line| !line.is_empty()).collect()
    }

    /// DAGSUMILAT_ and the variant's words in capitals: HeaderIncomplete is HEADER_INCOMPLETE.
    fn name_in_header(fault: Fault) -> String {
        let mut name = "DAGSUMILAT".to_string();
        for letter in format!("{fault:?}").chars() {
            if letter.is_ascii_uppercase() {
                name.push('_');
            }
            name.push(letter.to_ascii_uppercase());
        }
        name
    }

    fn line_of(fault: Fault) -> String {
        format!("{} = {}", name_in_header(fault), fault.number())
    }

    #[test]
    fn every_fault_has_its_line_in_the_header() {
        let lines = lines_of_header();
        for line in Fault::ALL.into_iter().map(line_of) {
            assert!(
                lines.contains(&line),
                "include/dagsumilat.h has no `{line}` in enum dagsumilat_fault: the fault stands \
                 in host/library/src/faults.rs"
            );
        }
    }

    #[test]
    fn every_line_of_the_header_is_a_fault() {
        let (lines, mut known) = (lines_of_header(), vec!["DAGSUMILAT_OK = 0".to_string()]);
        known.extend(Fault::ALL.into_iter().map(line_of));
        for line in &lines {
            assert!(
                known.contains(line),
                "host/library/src/faults.rs has no entry for `{line}` of include/dagsumilat.h"
            );
        }
        assert_eq!(lines, known, "both stand by rising number, each fault once");
    }

    /// Every text is there, in one form, so that they can be put together.
    #[test]
    fn every_fault_has_all_its_texts() {
        for fault in Fault::ALL {
            let Entry { name, words, place, cause, remedy, .. } = fault.entry();
            for text in [name, words, place] {
                assert!(!text.is_empty() && !text.ends_with('.'), "fault {fault}: {text:?}");
            }
            for text in [cause, remedy] {
                assert!(text.len() > 1 && text.ends_with('.'), "fault {fault}: {text:?}");
            }
            for text in [name, words, place, cause, remedy] {
                assert!(!text.contains("  ") && !text.contains('\n'), "fault {fault}: {text:?}");
            }
        }
    }

    #[test]
    fn no_two_faults_have_the_same_words() {
        for (at, one) in Fault::ALL.into_iter().enumerate() {
            for other in &Fault::ALL[..at] {
                assert_ne!(one.number(), other.number());
                assert_ne!(one.name(), other.name());
                assert_ne!(one.words(), other.words());
            }
        }
    }
}

//! What a file really is, where no dump starts with its first octet.

use std::str;

/// What a file looks like, with an article before it, and what a person can do.
#[derive(Clone, Copy, Debug, PartialEq, Eq)]
pub struct Look {
    pub what: &'static str,
    pub remedy: &'static str,
}

/// As much is looked at as a person sees on a screen; also what tells an archive of tar is in it.
const LOOKED_AT: usize = 1_024;

/// Octets with which files of some kind start.
type Mark = (&'static [u8], Look);

const fn look(what: &'static str, remedy: &'static str) -> Look {
    Look { what, remedy }
}

const PACKETS: Look = Look {
    what: "packets as tcpdump and Wireshark record them (pcap)",
    remedy: "take the collector's own recording: BGP inside of packets is not read here.",
};

const PROGRAM: Look = Look { what: "a program", remedy: "see whether it is the right file." };

const MARKS: [Mark; 17] = [
    (b"\xfd7zXZ\0", look("an archive of xz", "unpack it first, with `xz -dc`.")),
    (b"\x28\xb5\x2f\xfd", look("an archive of zstd", "unpack it first, with `zstd -dc`.")),
    (b"\x1f\x8b", look("an archive of gzip", "unpack it first, with `gzip -dc`.")),
    (b"BZh", look("an archive of bzip2", "unpack it first, with `bzip2 -dc`.")),
    (b"\x1f\x9d", look("an archive of compress", "unpack it first, with `gzip -dc`.")),
    (b"\x04\x22\x4d\x18", look("an archive of lz4", "unpack it first, with `lz4 -dc`.")),
    (b"PK\x03\x04", look("an archive of zip", "unpack it first, with `unzip -p`.")),
    (b"PK\x05\x06", look("an archive of zip without files", "get the file again.")),
    (b"7z\xbc\xaf\x27\x1c", look("an archive of 7-Zip", "unpack it first, with `7z e -so`.")),
    (b"Rar!\x1a\x07", look("an archive of rar", "unpack it first, with `unrar p`.")),
    (b"\n\r\r\n", PACKETS),
    (b"\xa1\xb2\xc3\xd4", PACKETS),
    (b"\xd4\xc3\xb2\xa1", PACKETS),
    (b"\xa1\xb2\x3c\x4d", PACKETS),
    (b"\x4d\x3c\xb2\xa1", PACKETS),
    (b"\x7fELF", PROGRAM),
    (b"MZ\x90\0", PROGRAM),
];

const TAR: Look = Look {
    what: "an archive of tar",
    remedy: "unpack it first, with `tar -xf`; the dumps in it are files of their own.",
};

const ZEROS: Look = Look {
    what: "zeros and nothing else: often a file whose room was taken on the disk and never written",
    remedy: "get the file again.",
};

const PAGE: Look = Look {
    what: "an HTML page: often an error page of the server it was fetched from",
    remedy: "read the page, and fetch the dump again.",
};

const BGPDUMP: Look = Look {
    what: "the text that bgpdump prints of a dump",
    remedy: "take the dump that it was made from.",
};

const XML: Look = Look {
    what: "XML text: often an error that a server sent instead of the file",
    remedy: "read it, and fetch the dump again.",
};

const JSON: Look = Look {
    what: "JSON text: often an error that a server sent instead of the file, or routes that \
           another program wrote",
    remedy: "read it; only MRT dumps are taken.",
};

const TEXT: Look = Look {
    what: "text: perhaps a message of the server it was fetched from, or routes that another \
           program printed",
    remedy: "read it, and fetch the dump again.",
};

/// What these octets, from a file's first one on, look like; none if that cannot be told. Where a
/// Type of MRT is in its place they are those of a dump, whatever its first time may look like.
pub fn looks_like(octets: &[u8]) -> Option<Look> {
    let octets = &octets[..octets.len().min(LOOKED_AT)];
    if matches!(octets, [_, _, _, _, 0, 11..=13 | 16 | 17 | 32 | 33 | 48 | 49, ..]) {
        return None;
    }
    let marked = MARKS.iter().find(|(mark, _)| octets.starts_with(mark));
    if let Some((_, look)) = marked {
        return Some(*look);
    }
    if octets.get(257..).is_some_and(|rest| rest.starts_with(b"ustar")) {
        return Some(TAR);
    }
    if !octets.is_empty() && octets.iter().all(|octet| *octet == 0) {
        return Some(ZEROS);
    }
    text_of(octets).map(|text| kind_of_text(&text))
}

/// The octets as text, if they are: in UTF-16 with its mark, or without zeros and with one octet
/// that cannot be printed among twenty at most.
fn text_of(octets: &[u8]) -> Option<String> {
    if let [0xff, 0xfe, rest @ ..] | [0xfe, 0xff, rest @ ..] = octets {
        let letters = rest.iter().filter(|octet| **octet != 0);
        return Some(letters.map(|octet| char::from(*octet)).collect());
    }
    let text = String::from_utf8_lossy(whole(octets));
    let is_odd = |letter: &char| {
        letter.is_control() && !"\t\n\r\x0c".contains(*letter) || *letter == '\u{fffd}'
    };
    let odd = text.chars().filter(is_odd).count();
    let is_text = !octets.contains(&0) && odd * 20 <= text.chars().count();
    (is_text && !text.trim().is_empty()).then(|| text.into_owned())
}

/// Without the start of a character whose rest lies behind the octets looked at.
fn whole(octets: &[u8]) -> &[u8] {
    match str::from_utf8(octets) {
        Err(error) if error.error_len().is_none() => &octets[..error.valid_up_to()],
        _ => octets,
    }
}

fn kind_of_text(text: &str) -> Look {
    let text = text.trim_start_matches('\u{feff}').trim_start().to_ascii_lowercase();
    let starts = |marks: &[&str]| marks.iter().any(|mark| text.starts_with(mark));
    if starts(&["<!doctype html", "<html", "<head", "<body"]) || text.contains("<html") {
        PAGE
    } else if starts(&["<?xml", "<error"]) {
        XML
    } else if starts(&["bgp4mp|", "bgp4mp_et|", "table_dump|", "table_dump2|", "time: "]) {
        BGPDUMP
    } else if starts(&["{", "["]) {
        JSON
    } else {
        TEXT
    }
}

#[cfg(test)]
mod tests {
    use super::*;

    fn what(octets: &[u8]) -> &'static str {
        looks_like(octets).map_or("nothing known", |look| look.what)
    }

    #[track_caller]
    fn assert_looks(octets: &[u8], words: &str) {
        assert!(what(octets).contains(words), "{}", what(octets));
    }

    #[test]
    fn archives() {
        assert_looks(b"\xfd7zXZ\0\0\x04", "xz");
        assert_looks(b"\x28\xb5\x2f\xfd\x04", "zstd");
        assert_looks(b"\x1f\x8b\x08\0", "gzip");
        assert_looks(b"BZh91AY&SY", "bzip2");
        assert_looks(b"PK\x03\x04\x14\0", "zip");
        assert_looks(b"7z\xbc\xaf\x27\x1c\0\x04", "7-Zip");
        let mut tar = vec![0; 512];
        tar[..5].copy_from_slice(b"a.mrt");
        tar[257..262].copy_from_slice(b"ustar");
        assert_looks(&tar, "tar");
    }

    #[test]
    fn packets_and_programs() {
        assert_looks(b"\xd4\xc3\xb2\xa1\x02\0\x04\0", "pcap");
        assert_looks(b"\xa1\xb2\x3c\x4d\0\x02\0\x04", "pcap");
        assert_looks(b"\n\r\r\n\x1c\0\0\0", "pcap");
        assert_looks(b"\x7fELF\x02\x01", "a program");
    }

    #[test]
    fn pages_and_other_text() {
        assert_looks(b"\n <!DOCTYPE HTML PUBLIC \"-//IETF//DTD\">", "an HTML page");
        assert_looks(b"<HTML><head><title>404 Not Found</title>", "an HTML page");
        assert_looks(b"<?xml version=\"1.0\"?><html xmlns=\"\">", "an HTML page");
        assert_looks(b"<?xml version=\"1.0\"?><Error><Code>NoSuchKey", "XML");
        assert_looks(b"{\"error\": 404}", "JSON");
        assert_looks(b"\xef\xbb\xbf[1, 2]", "JSON");
        assert_looks(b"TABLE_DUMP2|1772366400|B|192.0.2.1|64500|", "bgpdump");
        assert_looks(b"BGP4MP|1772366400|A|192.0.2.1|64500|", "bgpdump");
        assert_looks("Zürich: 404".as_bytes(), "text: ");
        assert_looks(b"caf\xe9 is Latin-1, and one octet among twenty", "text: ");
        assert_looks(b"\xff\xfeh\0e\0l\0l\0o\0", "text: ");
    }

    /// A character that lies across the end of what is looked at is none that cannot be printed.
    #[test]
    fn text_is_cut_where_a_character_ends() {
        for shift in 0..4 {
            let text = "x".repeat(shift) + &"日".repeat(2_000);
            assert_looks(text.as_bytes(), "text: ");
        }
    }

    #[test]
    fn zeros() {
        assert_looks(&[0; 2_000], "zeros");
        assert_looks(&[0], "zeros");
    }

    /// Above all a dump, whatever its time is.
    #[test]
    fn what_cannot_be_told() {
        assert_eq!(looks_like(&[]), None);
        assert_eq!(looks_like(&[9; 11]), None, "nothing to be read in it");
        assert_eq!(looks_like(&[0x80; 40]), None);
        assert_eq!(looks_like(b"\x01\x02\x03\x04abcdefgh\x05\x06\x07"), None);
        let marks = [*b"BZh9", *b"PK\x03\x04", *b"\n\r\r\n"].map(u32::from_be_bytes);
        for time in [0, 0x4142_4344, 1_772_366_400, u32::MAX].into_iter().chain(marks) {
            let mut record = time.to_be_bytes().to_vec();
            record.extend([0, 16, 0, 9, 0, 0, 0, 20]);
            record.extend([b'a'; 20]);
            assert_eq!(looks_like(&record), None, "{time}");
        }
    }
}

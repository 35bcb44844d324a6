//! Packed dumps, unpacked by the programs that the system has for it.

use crate::escaped;
use crate::filter::{self, Passed};
use crate::memory::Unread;
use crate::progress::Progress;
use std::io::ErrorKind;
use std::path::Path;

#[derive(Clone, Copy, Debug, PartialEq, Eq)]
pub enum Archive {
    Gzip,
    Bzip2,
    Xz,
    Zstd,
}

/// Names end so, whatever the case of the letters.
const EXTENSIONS: [(&str, Archive); 5] = [
    ("gz", Archive::Gzip),
    ("bz2", Archive::Bzip2),
    ("xz", Archive::Xz),
    ("zst", Archive::Zstd),
    ("zstd", Archive::Zstd),
];

/// The programs call what they read by these names.
const NAMES: [&str; 4] = ["stdin", "(stdin)", "/*stdin*\\", "standard input"];

/// A program that says one of these could not work, and the archive may well be good.
const NOT_DAMAGE: [&str; 4] = ["memory", "alloc", "thread", "shared librar"];

impl Archive {
    /// By so many octets an archive is known.
    pub const HEAD: usize = 6;

    /// What the input may be packed with, by its name and its first octets alone.
    pub fn perhaps(name: &Path, head: &[u8]) -> Option<Archive> {
        Archive::of_name(name).map(|(_, archive)| archive).or_else(|| Archive::of_octets(head))
    }

    /// What the input is packed with, if it is.
    ///
    /// The name decides first: what is called .gz, .bz2, .xz, .zst or .zstd and is none is a damaged
    /// archive, not a dump. Under any other name, also .mrt, and on standard input the first octets
    /// decide. They could be a Timestamp (of 1986 for gzip, of 1991 for zstd, of April 2005 for
    /// bzip2), so octets that are a good dump as they stand are never taken for an archive.
    pub fn of(name: &Path, octets: &[u8]) -> Option<Archive> {
        let of_name = Archive::of_name(name).map(|(_, archive)| archive);
        of_name.or_else(|| {
            let archive = Archive::of_octets(octets)?;
            dagsumilat::check(octets).refusal.map(|_| archive)
        })
    }

    fn of_name(name: &Path) -> Option<(&'static str, Archive)> {
        let extension = name.extension()?;
        EXTENSIONS.into_iter().find(|(known, _)| extension.eq_ignore_ascii_case(known))
    }

    fn of_octets(octets: &[u8]) -> Option<Archive> {
        match octets {
            [0x1f, 0x8b, 8, ..] => Some(Archive::Gzip),
            [b'B', b'Z', b'h', b'1'..=b'9', ..] => Some(Archive::Bzip2),
            [0xfd, b'7', b'z', b'X', b'Z', 0, ..] => Some(Archive::Xz),
            [0x28, 0xb5, 0x2f, 0xfd, ..] => Some(Archive::Zstd),
            _ => None,
        }
    }

    /// The program that packs so, by which the archive is called, too.
    pub fn program(self) -> &'static str {
        self.command()[0]
    }

    fn command(self) -> &'static [&'static str] {
        match self {
            Archive::Gzip => &["gzip", "-dc"],
            Archive::Bzip2 => &["bzip2", "-dc"],
            Archive::Xz => &["xz", "-dc"],
            // Archives that were packed with a wide window would be refused otherwise.
            Archive::Zstd => &["zstd", "-dcq", "--long=31"],
        }
    }

    /// Appends the unpacked octets to `out`, which may get as long as the limit.
    pub fn unpack(
        self,
        name: &Path,
        packed: &[u8],
        (out, limit): (&mut Vec<u8>, u64),
        progress: &mut Progress,
    ) -> Result<(), Unread> {
        if let Some(words) = self.misnamed(name, packed) {
            return Err(Unread::Words(words));
        }
        if packed.is_empty() {
            return Err(Unread::Words(self.damaged("it is empty")));
        }
        progress.stage("unpacking", Some(packed.len() as u64));
        let passed = filter::pass(self.command(), packed, (out, limit), |fed| progress.at(fed));
        let passed = passed.map_err(|unread| match unread {
            Unread::System(error) if error.kind() == ErrorKind::NotFound => {
                Unread::Words(self.missing())
            }
            Unread::System(error) => Unread::Words(format!("{}: {error}", self.program())),
            other => other,
        })?;
        self.judge(name, packed, &passed).map_err(Unread::Words)
    }

    fn missing(self) -> String {
        format!("please install {}", self.program())
    }

    fn damaged(self, words: &str) -> String {
        format!("it is a damaged {} archive: {words}", self.program())
    }

    /// A name that says one archive, and octets that are another.
    fn misnamed(self, name: &Path, packed: &[u8]) -> Option<String> {
        let (extension, _) = Archive::of_name(name)?;
        let other = Archive::of_octets(packed).filter(|other| *other != self)?;
        Some(format!("it is called .{extension} and starts like {}", other.program()))
    }

    /// Good is what the program has nothing to say about: bzip2 leaves out a damaged last part with
    /// words alone, at status 0.
    fn judge(self, name: &Path, packed: &[u8], passed: &Passed) -> Result<(), String> {
        let words = self.first_words(&passed.words);
        let program = self.program();
        match (passed.status.code(), words) {
            (Some(0), None) => Ok(()),
            // Not every system says before a program is started that it is not there.
            (Some(127), None) => Err(self.missing()),
            (_, None) => Err(format!("{program} gave up without words ({})", passed.status)),
            (_, Some(words)) if NOT_DAMAGE.iter().any(|sign| words.contains(sign)) => {
                Err(format!("{program} could not unpack it: {words}"))
            }
            (_, Some(words)) => Err(match Archive::of_name(name) {
                Some((extension, _)) if is_plain(packed) => {
                    format!("it is called .{extension} and is a good dump that is not packed")
                }
                _ => self.damaged(&words),
            }),
        }
    }

    /// The first line of what a program wrote, without the names of the program and its input.
    fn first_words(self, words: &[u8]) -> Option<String> {
        let text = String::from_utf8_lossy(words);
        let line = text.lines().map(str::trim).find(|line| !line.is_empty())?;
        let line = without(line, &[&format!("{}:", self.program())]);
        let words = without(line, &NAMES).trim_start_matches([':', ' ']);
        let words = words.trim_end_matches(['.', ';']);
        Some(escaped::text(if words.is_empty() { line } else { words }))
    }
}

/// The rest of a line that starts with one of these names.
fn without<'a>(line: &'a str, names: &[&str]) -> &'a str {
    let rest = names.iter().find_map(|name| line.strip_prefix(name));
    rest.unwrap_or(line).trim_start()
}

fn is_plain(octets: &[u8]) -> bool {
    dagsumilat::check(octets).refusal.is_none()
}

#[cfg(test)]
mod tests {
    use super::*;

    const GZIP: [u8; 12] = [0x1f, 0x8b, 8, 0, 0, 0, 0, 0, 0, 3, 0, 0];

    #[test]
    fn the_name_decides_first() {
        assert_eq!(Archive::of(Path::new("a.gz"), b"BZh9"), Some(Archive::Gzip));
        assert_eq!(Archive::of(Path::new("a.mrt.BZ2"), &[]), Some(Archive::Bzip2));
        assert_eq!(Archive::of(Path::new("a.xz"), &GZIP), Some(Archive::Xz));
        assert_eq!(Archive::of(Path::new("a.Zst"), &[]), Some(Archive::Zstd));
        assert_eq!(Archive::of(Path::new("a.zstd"), &[]), Some(Archive::Zstd));
        assert_eq!(Archive::of(Path::new("gz"), &[]), None);
    }

    #[test]
    fn then_the_first_octets() {
        assert_eq!(Archive::of(Path::new("a.mrt"), &GZIP), Some(Archive::Gzip));
        assert_eq!(Archive::of(Path::new("a"), b"BZh91AY&SY"), Some(Archive::Bzip2));
        assert_eq!(Archive::of(Path::new("a"), b"\xfd7zXZ\0"), Some(Archive::Xz));
        assert_eq!(Archive::of(Path::new("a"), b"\x28\xb5\x2f\xfd"), Some(Archive::Zstd));
        assert_eq!(Archive::of(Path::new("a"), b"BZh0"), None);
        assert_eq!(Archive::of(Path::new("a"), &[0x1f, 0x8b]), None);
        assert_eq!(Archive::of(Path::new("a"), b"\xfd7zXZ"), None);
    }

    #[test]
    fn a_good_dump_is_no_archive() {
        for time in [*b"\x1f\x8b\x08\0", *b"BZh9", *b"\x28\xb5\x2f\xfd"] {
            let dump = [&time[..], &[0, 48, 0, 0, 0, 0, 0, 0]].concat();
            assert_eq!(Archive::of(Path::new("a.mrt"), &dump), None);
            assert!(Archive::perhaps(Path::new("a.mrt"), &dump[..Archive::HEAD]).is_some());
        }
    }

    #[test]
    fn a_program_tells_no_names() {
        for (archive, written, words) in [
            (Archive::Gzip, "\ngzip: stdin: unexpected end of file\n", "unexpected end of file"),
            (Archive::Bzip2, "bzip2: (stdin) is not a bzip2 file.\n", "is not a bzip2 file"),
            (Archive::Bzip2, "\n\nbzip2: It ended;\n\tperhaps\n", "It ended"),
            (Archive::Xz, "xz: (stdin): Unexpected end of input\n", "Unexpected end of input"),
            (Archive::Zstd, "zstd: /*stdin*\\: unsupported format \n", "unsupported format"),
            (Archive::Zstd, "/*stdin*\\ : Read error (39) : end \n", "Read error (39) : end"),
            (Archive::Xz, "xz: (stdin)\x1b[2J\n", "\\u{1b}[2J"),
            (Archive::Xz, "xz: (stdin): \n", "(stdin):"),
        ] {
            assert_eq!(archive.first_words(written.as_bytes()).as_deref(), Some(words));
        }
        assert_eq!(Archive::Gzip.first_words(b" \n\n"), None);
    }
}

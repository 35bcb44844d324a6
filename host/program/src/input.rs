//! Reading a whole dump: the library wants its octets in one piece.

use crate::archive::Archive;
use crate::memory::{self, Unread};
use crate::progress::Progress;
use crate::stop::Stop;
use crate::{digest, escaped, system};
use std::ffi::OsStr;
use std::fs::{File, Metadata};
use std::io::{self, Read};
use std::os::fd::AsFd;
use std::path::{Path, PathBuf};

/// As many octets are read if no other limit is given.
pub const LIMIT: u64 = 8_000_000_000;

/// FILEs to be read in order as one recording, with a bar for a large one or without.
#[derive(Clone, Debug, PartialEq, Eq)]
pub struct Reading {
    pub sources: Vec<Source>,
    pub progress: bool,
    /// More octets than this are not read.
    pub limit: u64,
    /// Whether the digests of the files are wanted.
    pub digests: bool,
}

/// A FILE, and where its octets are in the recording.
#[derive(Clone, Debug)]
pub struct Part {
    /// As it is shown.
    pub name: String,
    pub start: usize,
    pub end: usize,
    /// Of the file as it stands, packed or not.
    pub size: u64,
    pub archive: Option<Archive>,
    pub sha256: Option<String>,
}

/// Octets of FILEs laid end to end, unpacked.
pub struct Recording {
    pub octets: Vec<u8>,
    pub parts: Vec<Part>,
}

impl Reading {
    pub fn read(&self, progress: &mut Progress) -> Result<Recording, Stop> {
        let mut joined = Joined { reading: self, octets: Vec::new(), progress };
        let mut parts = Vec::new();
        for source in &self.sources {
            let part = joined.append(source);
            parts.push(part.map_err(|unread| Stop::reading(source.name(), &unread))?);
        }
        Ok(Recording { octets: joined.octets, parts })
    }

    /// What the system knows of the files.
    pub fn metadata(&self) -> Result<Vec<Metadata>, Stop> {
        self.sources.iter().map(Source::metadata).collect()
    }

    fn digest(&self, octets: &[u8]) -> Option<String> {
        self.digests.then(|| digest::sha256(octets)).flatten()
    }
}

/// The FILEs that are read already. Each is read to where its octets stay: a recording may need half
/// of the machine's memory.
struct Joined<'a> {
    reading: &'a Reading,
    octets: Vec<u8>,
    progress: &'a mut Progress,
}

impl Joined<'_> {
    fn append(&mut self, source: &Source) -> Result<Part, Unread> {
        let (name, start) = (source.name(), self.octets.len());
        let input = Input::open(source)?;
        let (size, sha256, archive) = match Archive::perhaps(name, &input.head) {
            Some(_) => self.append_packed(name, input)?,
            None => {
                input.read(&mut self.octets, self.reading.limit, self.progress)?;
                let octets = &self.octets[start..];
                (octets.len(), self.reading.digest(octets), None)
            }
        };
        let (size, end) = (size as u64, self.octets.len());
        Ok(Part { name: source.shown(), start, end, size, archive, sha256 })
    }

    /// A FILE that may be packed is read to a place of its own. Its size, digest and archive.
    fn append_packed(
        &mut self,
        name: &Path,
        input: Input,
    ) -> Result<(usize, Option<String>, Option<Archive>), Unread> {
        let limit = self.reading.limit;
        let mut packed = Vec::new();
        input.read(&mut packed, limit, self.progress)?;
        let (size, sha256) = (packed.len(), self.reading.digest(&packed));
        let archive = Archive::of(name, &packed);
        match archive {
            Some(archive) => {
                archive.unpack(name, &packed, (&mut self.octets, limit), self.progress)?;
            }
            None => memory::append(&mut self.octets, &mut &packed[..], limit, |_| {})?,
        }
        Ok((size, sha256, archive))
    }
}

/// A FILE that is open, of which the first octets were looked at.
struct Input {
    file: File,
    head: Vec<u8>,
    /// Of all of it, where that is known.
    size: Option<u64>,
}

impl Input {
    fn open(source: &Source) -> io::Result<Input> {
        let mut file = source.open()?;
        let metadata = file.metadata()?;
        let mut head = Vec::with_capacity(64);
        file.by_ref().take(Archive::HEAD as u64).read_to_end(&mut head)?;
        Ok(Input { file, head, size: metadata.is_file().then_some(metadata.len()) })
    }

    /// Appends all of it.
    fn read(self, octets: &mut Vec<u8>, limit: u64, progress: &mut Progress) -> Result<(), Unread> {
        progress.stage("reading", self.size);
        let start = octets.len();
        if let Some(size) = self.size {
            if size > limit.saturating_sub(start as u64) {
                return Err(Unread::Limit(limit));
            }
            memory::expect(octets, size)?;
        }
        let mut all = (&self.head[..]).chain(&self.file);
        memory::append(octets, &mut all, limit, |there| progress.at((there - start) as u64))
    }
}

impl Recording {
    /// The FILE, or how many they are.
    pub fn name(&self) -> String {
        match &self.parts[..] {
            [part] => part.name.clone(),
            parts => format!("{} files laid end to end", parts.len()),
        }
    }
}

/// Where a dump comes from.
#[derive(Clone, Debug, PartialEq, Eq)]
pub enum Source {
    File(PathBuf),
    Standard,
}

impl Source {
    pub fn of_word(word: &OsStr) -> Source {
        match word.to_str() {
            Some("-") => Source::Standard,
            _ => Source::File(word.into()),
        }
    }

    pub fn name(&self) -> &Path {
        match self {
            Source::File(path) => path,
            Source::Standard => Path::new("standard input"),
        }
    }

    /// The name for a message.
    pub fn shown(&self) -> String {
        escaped::path(self.name())
    }

    pub fn open(&self) -> io::Result<File> {
        match self {
            Source::File(path) => File::open(path),
            // Rust opens something empty in its place.
            Source::Standard if !system::was_open(0) => Err(io::Error::other("it is closed")),
            Source::Standard => Ok(File::from(io::stdin().as_fd().try_clone_to_owned()?)),
        }
    }

    /// What the system knows of the file.
    pub fn metadata(&self) -> Result<Metadata, Stop> {
        let found = match self {
            Source::File(path) => path.metadata(),
            Source::Standard => self.open().and_then(|file| file.metadata()),
        };
        found.map_err(|error| Stop::reading(self.name(), &error))
    }
}

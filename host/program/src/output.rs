//! Writing a clip, whole or not at all.

use crate::escaped;
use crate::progress::Progress;
use crate::stop::Stop;
use crate::system::{self, SignalsWait};
use std::ffi::OsStr;
use std::fmt::Display;
use std::fs::{self, File, Metadata, Permissions};
use std::io::{self, ErrorKind, IsTerminal, Write};
use std::os::fd::AsFd;
use std::os::unix::fs::{MetadataExt, OpenOptionsExt, PermissionsExt};
use std::path::{Path, PathBuf};
use std::process;

const CHUNK: usize = 4 << 20;

/// Where a clip goes.
#[derive(Clone, Debug, PartialEq, Eq)]
pub enum Target {
    File { path: PathBuf, force: bool },
    Standard,
}

impl Target {
    pub fn of_word(word: &OsStr, force: bool) -> Target {
        match word.to_str() {
            Some("-") => Target::Standard,
            _ => Target::File { path: word.into(), force },
        }
    }

    pub fn name(&self) -> &Path {
        match self {
            Target::File { path, .. } => path,
            Target::Standard => Path::new("standard output"),
        }
    }

    /// The name for a message.
    pub fn shown(&self) -> String {
        escaped::path(self.name())
    }

    /// Refuses, before anything is read, what must not be written: an input, by whatever name, a
    /// file that is there already, or something that is no file.
    pub fn refuse_early(&self, inputs: &[Metadata]) -> Result<(), Stop> {
        let Target::File { path, force } = self else {
            return refuse_standard(inputs);
        };
        if let Ok(found) = path.metadata() {
            refuse_found(&found, inputs).map_err(|words| Stop::writing(path, &words))?;
        }
        if !force && path.symlink_metadata().is_ok() {
            return Err(Stop::writing(path, &EXISTS));
        }
        match folder(path).metadata() {
            Ok(found) if found.is_dir() => Ok(()),
            Ok(_) => Err(Stop::writing(path, &"its folder is no folder")),
            Err(error) => Err(Stop::writing(path, &format!("its folder: {error}"))),
        }
    }

    /// Refuses a terminal, which would take a clip's octets for orders.
    pub fn refuse_terminal(&self) -> Result<(), Stop> {
        match self {
            Target::Standard if io::stdout().is_terminal() => Err(Stop::writing(
                self.name(),
                &"it is a terminal, and a clip is no text; -o OUT writes a file",
            )),
            _ => Ok(()),
        }
    }

    /// Whether both are one file, under whatever names of its folder.
    pub fn is_also(&self, other: &Target) -> bool {
        let (Target::File { path, .. }, Target::File { path: of, .. }) = (self, other) else {
            return self == other;
        };
        let at = |path: &Path| folder(path).metadata().map(|found| (found.dev(), found.ino())).ok();
        path.file_name() == of.file_name() && at(path) == at(of)
    }

    /// Brings the octets to the disk, without a name that anybody sees yet. Standard output gets
    /// nothing before the draft is placed.
    pub fn draft<'a>(
        &'a self,
        octets: &'a [u8],
        progress: &mut Progress,
    ) -> Result<Draft<'a>, Stop> {
        let Target::File { path, force } = self else {
            return Ok(Draft { target: self, octets, file: None });
        };
        progress.stage("writing", Some(octets.len() as u64));
        let written = FileDraft::create(path, *force, system::unnamed_file)
            .and_then(|mut file| file.write(octets, progress).map(|()| file));
        let file = written.map_err(|error| Stop::writing(path, &error))?;
        Ok(Draft { target: self, octets, file: Some(file) })
    }
}

/// A clip that is written and has no name yet. Nothing is left of it unless it is placed.
pub struct Draft<'a> {
    target: &'a Target,
    octets: &'a [u8],
    /// None for standard output.
    file: Option<FileDraft>,
}

impl Draft<'_> {
    /// Gives it its name, or writes it to standard output. No other thread should run meanwhile, as
    /// [`SignalsWait`] says.
    pub fn place(self) -> Result<(), Stop> {
        let placed = match (self.target, self.file) {
            (Target::File { path, force }, Some(file)) => {
                file.place(path, *force).or_else(|error| again(path, *force, self.octets, error))
            }
            _ => write_chunks(&mut io::stdout().lock(), self.octets, |_| {}),
        };
        placed.map_err(|error| match error.kind() {
            ErrorKind::AlreadyExists => Stop::writing(self.target.name(), &EXISTS),
            _ => Stop::writing(self.target.name(), &error),
        })
    }
}

/// What is printed where standard output was closed when the program started would be lost, and
/// nobody would be told.
pub fn refuse_closed() -> Result<(), Stop> {
    match system::was_open(1) {
        true => Ok(()),
        false => Err(Stop::writing(Path::new("standard output"), &"it is closed")),
    }
}

const EXISTS: &str = "it exists already; --force replaces it";
const INPUT: &str = "it is an input of this cut";

fn is_among(found: &Metadata, inputs: &[Metadata]) -> bool {
    inputs.iter().any(|input| (input.dev(), input.ino()) == (found.dev(), found.ino()))
}

/// Standard output may lead to a file, too; a terminal may be both.
fn refuse_standard(inputs: &[Metadata]) -> Result<(), Stop> {
    refuse_closed()?;
    let out = io::stdout();
    let stop = |error: &dyn Display| Stop::writing(Path::new("standard output"), error);
    let file = out.as_fd().try_clone_to_owned().map(File::from);
    let found = file.and_then(|file| file.metadata()).map_err(|error| stop(&error))?;
    match found.is_file() && is_among(&found, inputs) {
        true => Err(stop(&INPUT)),
        false => Ok(()),
    }
}

fn refuse_found(found: &Metadata, inputs: &[Metadata]) -> Result<(), &'static str> {
    if is_among(found, inputs) {
        Err(INPUT)
    } else if !found.is_file() {
        // A device would be replaced, not written to.
        Err("it is no regular file; - is standard output")
    } else {
        Ok(())
    }
}

fn folder(path: &Path) -> &Path {
    match path.parent() {
        Some(parent) if parent != Path::new("") => parent,
        _ => Path::new("."),
    }
}

/// After each piece `after_each` is told how many octets are written.
fn write_chunks(
    out: &mut impl Write,
    octets: &[u8],
    mut after_each: impl FnMut(u64),
) -> io::Result<()> {
    let mut done = 0;
    for chunk in octets.chunks(CHUNK) {
        out.write_all(chunk)?;
        done += chunk.len() as u64;
        after_each(done);
    }
    out.flush()
}

/// A file without a name could be written but not be given one: a file system may be stranger than
/// it looked. Then the clip is written once more, under a name.
fn again(path: &Path, force: bool, octets: &[u8], error: io::Error) -> io::Result<()> {
    if error.kind() == ErrorKind::AlreadyExists {
        return Err(error);
    }
    let mut draft = FileDraft::create(path, force, |_, _| Err(ErrorKind::Unsupported.into()))?;
    draft.write(octets, &mut Progress::new(false))?;
    draft.place(path, force)
}

/// The file that is to get the target's name.
struct FileDraft {
    file: File,
    /// None if it has no name at all, so that the system removes it when the program ends.
    name: Option<HiddenName>,
}

impl FileDraft {
    /// `unnamed` opens a file without a name, of this mode in this folder. Where there is no such
    /// thing, the file gets a hidden name.
    fn create(
        path: &Path,
        force: bool,
        unnamed: fn(&Path, u32) -> io::Result<File>,
    ) -> io::Result<FileDraft> {
        let kept = if force { mode_of(path) } else { None };
        let mode = kept.unwrap_or(USUAL_MODE);
        let (file, name) = match unnamed(folder(path), mode) {
            Ok(file) => (file, None),
            // What else is wrong shows again.
            Err(_) => {
                let (file, name) = HiddenName::create(folder(path), mode)?;
                (file, Some(name))
            }
        };
        if let Some(mode) = kept {
            // Else bits that the user takes from new files would be missing.
            file.set_permissions(Permissions::from_mode(mode))?;
        }
        Ok(FileDraft { file, name })
    }

    fn write(&mut self, octets: &[u8], progress: &mut Progress) -> io::Result<()> {
        write_chunks(&mut self.file, octets, |done| progress.at(done))?;
        self.file.sync_all()
    }

    fn place(self, path: &Path, force: bool) -> io::Result<()> {
        match &self.name {
            Some(name) => name.give(path, force)?,
            None => name_unnamed(&self.file, path, force)?,
        }
        // The clip stands, whatever the folder says: not every file system can do this.
        let _ = File::open(folder(path)).and_then(|folder| folder.sync_all());
        Ok(())
    }
}

/// Of a new file, before the user's mask takes bits from it.
const USUAL_MODE: u32 = 0o666;

/// The permissions of the regular file that is there; a link has none of its own.
fn mode_of(path: &Path) -> Option<u32> {
    let found = path.symlink_metadata().ok().filter(Metadata::is_file)?;
    Some(found.mode() & 0o777)
}

/// A link is never made over a file that is there, also one that somebody put there meanwhile. To
/// replace one, the file needs another name first: a signal must not come between.
fn name_unnamed(file: &File, path: &Path, force: bool) -> io::Result<()> {
    match system::name_file(file, path) {
        Err(error) if force && error.kind() == ErrorKind::AlreadyExists => {
            let _wait = SignalsWait::start();
            // Goes away before signals come again, if it was not given up.
            let hidden = HiddenName::link(file, folder(path))?;
            hidden.give(path, true)
        }
        other => other,
    }
}

/// A name beside that of the file to be written, which goes away unless it is given up for that.
struct HiddenName(PathBuf);

impl HiddenName {
    /// A new file under such a name.
    fn create(folder: &Path, mode: u32) -> io::Result<(File, HiddenName)> {
        let mut options = File::options();
        options.write(true).create_new(true).mode(mode);
        HiddenName::first_free(folder, |path| options.open(path))
    }

    /// Such a name for a file that has none.
    fn link(file: &File, folder: &Path) -> io::Result<HiddenName> {
        let linked = HiddenName::first_free(folder, |path| system::name_file(file, path));
        linked.map(|((), name)| name)
    }

    fn first_free<T>(
        folder: &Path,
        make: impl Fn(&Path) -> io::Result<T>,
    ) -> io::Result<(T, HiddenName)> {
        let mut number = 0;
        loop {
            let path = folder.join(format!(".dagsumilat-{}-{number}.part", process::id()));
            match make(&path) {
                Ok(made) => return Ok((made, HiddenName(path))),
                Err(error) if error.kind() == ErrorKind::AlreadyExists => number += 1,
                Err(error) => return Err(error),
            }
        }
    }

    /// Gives the file another name in one step. Unless it is to replace a file, it is linked.
    fn give(&self, path: &Path, force: bool) -> io::Result<()> {
        if force {
            return fs::rename(&self.0, path);
        }
        match fs::hard_link(&self.0, path) {
            Err(error) if error.kind() == ErrorKind::AlreadyExists => Err(error),
            // Not every file system has links.
            Err(_) if path.symlink_metadata().is_err() => fs::rename(&self.0, path),
            other => other,
        }
    }
}

impl Drop for HiddenName {
    fn drop(&mut self) {
        // After a rename there is nothing left to remove.
        let _ = fs::remove_file(&self.0);
    }
}

#[cfg(test)]
mod tests {
    use super::*;
    use std::env;

    /// A folder of a test's own.
    struct Folder(PathBuf);

    impl Folder {
        fn new(name: &str) -> Folder {
            let folder = env::temp_dir().join(format!("dagsumilat-{name}-{}", process::id()));
            fs::create_dir(&folder).unwrap();
            Folder(folder)
        }

        fn names(&self) -> Vec<String> {
            let entries = fs::read_dir(&self.0).unwrap();
            entries.map(|entry| entry.unwrap().file_name().into_string().unwrap()).collect()
        }
    }

    impl Drop for Folder {
        fn drop(&mut self) {
            let _ = fs::remove_dir_all(&self.0);
        }
    }

    type Opener = fn(&Path, u32) -> io::Result<File>;

    const NONE: Opener = |_, _| Err(ErrorKind::Unsupported.into());

    fn drafted(path: &Path, force: bool, opener: Opener) -> FileDraft {
        let mut draft = FileDraft::create(path, force, opener).unwrap();
        draft.write(b"clip", &mut Progress::new(false)).unwrap();
        draft
    }

    #[test]
    fn with_and_without_unnamed_files() {
        for (opener, hidden) in [(NONE, 1), (system::unnamed_file as Opener, 0)] {
            let folder = Folder::new("draft");
            let path = folder.0.join("out");
            drop(drafted(&path, false, opener));
            assert!(folder.names().is_empty());

            let draft = drafted(&path, false, opener);
            assert!(folder.names().len() <= 1 && folder.names().len() >= hidden);
            draft.place(&path, false).unwrap();
            assert_eq!(folder.names(), ["out"]);
            assert_eq!(fs::read(&path).unwrap(), b"clip");

            fs::write(&path, "old").unwrap();
            let error = drafted(&path, false, opener).place(&path, false).unwrap_err();
            assert_eq!(error.kind(), ErrorKind::AlreadyExists);
            assert_eq!(fs::read(&path).unwrap(), b"old");
            drafted(&path, true, opener).place(&path, true).unwrap();
            assert_eq!(fs::read(&path).unwrap(), b"clip");
            assert_eq!(folder.names(), ["out"]);
        }
    }

    #[test]
    fn what_is_replaced_gives_its_mode() {
        for opener in [NONE, system::unnamed_file] {
            let folder = Folder::new("mode");
            let path = folder.0.join("out");
            for mode in [0o600, 0o640, 0o666, 0o777, 0o444] {
                let _ = fs::remove_file(&path);
                fs::write(&path, "old").unwrap();
                fs::set_permissions(&path, Permissions::from_mode(mode)).unwrap();
                drafted(&path, true, opener).place(&path, true).unwrap();
                assert_eq!(mode_of(&path), Some(mode), "{mode:o}");
                assert_eq!(fs::read(&path).unwrap(), b"clip");
            }
        }
    }

    #[test]
    fn what_cannot_get_a_name_is_written_again() {
        let folder = Folder::new("again");
        let path = folder.0.join("out");
        again(&path, false, b"clip", ErrorKind::NotFound.into()).unwrap();
        assert_eq!(fs::read(&path).unwrap(), b"clip");
        let error = again(&path, false, b"new", ErrorKind::AlreadyExists.into()).unwrap_err();
        assert_eq!(error.kind(), ErrorKind::AlreadyExists);
        assert_eq!(folder.names(), ["out"]);
    }
}

//! Calls of the C library, which has them as Linux does.

use std::ffi::{c_char, c_int, c_ulong, CString};
use std::fs::{self, File};
use std::io;
use std::os::fd::{AsRawFd, RawFd};
use std::os::unix::ffi::OsStrExt;
use std::os::unix::fs::{MetadataExt, OpenOptionsExt};
use std::path::Path;
use std::ptr;
use std::sync::atomic::{AtomicBool, Ordering};

extern "C" {
    fn linkat(
        old_folder: c_int,
        old: *const c_char,
        new_folder: c_int,
        new: *const c_char,
        flags: c_int,
    ) -> c_int;
    fn ioctl(file: c_int, request: c_ulong, ...) -> c_int;
    fn fcntl(file: c_int, command: c_int, ...) -> c_int;
    fn sigfillset(set: *mut SignalSet) -> c_int;
    fn pthread_sigmask(how: c_int, set: *const SignalSet, old: *mut SignalSet) -> c_int;
}

#[cfg(target_arch = "x86_64")]
const O_DIRECTORY: c_int = 0o200_000;
#[cfg(target_arch = "aarch64")]
const O_DIRECTORY: c_int = 0o40_000;
const O_TMPFILE: c_int = 0o20_000_000 | O_DIRECTORY;

/// A file in this folder that has no name yet; it is gone when it is closed without one.
pub fn unnamed_file(folder: &Path, mode: u32) -> io::Result<File> {
    let file = File::options().write(true).mode(mode).custom_flags(O_TMPFILE).open(folder)?;
    // Without this there is no way to give it a name.
    let (of_name, of_file) = (fs::metadata(name_by_number(&file))?, file.metadata()?);
    if (of_name.dev(), of_name.ino()) != (of_file.dev(), of_file.ino()) {
        return Err(io::ErrorKind::Unsupported.into());
    }
    Ok(file)
}

fn name_by_number(file: &File) -> String {
    format!("/proc/self/fd/{}", file.as_raw_fd())
}

/// Gives a file without a name this one, unless something has it already.
pub fn name_file(file: &File, path: &Path) -> io::Result<()> {
    const CURRENT_FOLDER: c_int = -100;
    const AT_SYMLINK_FOLLOW: c_int = 0x400;
    let old = CString::new(name_by_number(file))?;
    let new = CString::new(path.as_os_str().as_bytes())?;
    let (old, new) = (old.as_ptr(), new.as_ptr());
    // SAFETY: both are strings that end with a zero and live until the call is over.
    match unsafe { linkat(CURRENT_FOLDER, old, CURRENT_FOLDER, new, AT_SYMLINK_FOLLOW) } {
        0 => Ok(()),
        _ => Err(io::Error::last_os_error()),
    }
}

/// As large as in the C libraries, which is more than the system needs.
#[repr(C)]
struct SignalSet([c_ulong; 16]);

/// While it lives, signals wait. Those for the whole process could go to another thread, so
/// there should be none.
pub struct SignalsWait(SignalSet);

impl SignalsWait {
    pub fn start() -> Option<SignalsWait> {
        const SIG_BLOCK: c_int = 0;
        let (mut all, mut old) = (SignalSet([0; 16]), SignalSet([0; 16]));
        // SAFETY: both sets are lent for writing, and have room for as much as is written.
        let answer = unsafe {
            sigfillset(&mut all);
            pthread_sigmask(SIG_BLOCK, &all, &mut old)
        };
        (answer == 0).then_some(SignalsWait(old))
    }
}

impl Drop for SignalsWait {
    fn drop(&mut self) {
        const SIG_SETMASK: c_int = 2;
        // SAFETY: the set is the one that the system gave; nothing is to be written.
        unsafe { pthread_sigmask(SIG_SETMASK, &self.0, ptr::null_mut()) };
    }
}

#[repr(C)]
#[derive(Default)]
struct WindowSize {
    rows: u16,
    columns: u16,
    pixels: [u16; 2],
}

/// How many columns the terminal behind standard error has.
pub fn terminal_width() -> Option<usize> {
    const STANDARD_ERROR: c_int = 2;
    const TIOCGWINSZ: c_ulong = 0x5413;
    let mut size = WindowSize::default();
    let place: *mut WindowSize = &mut size;
    // SAFETY: this request writes a window's size, which is what `place` has room for.
    let answer = unsafe { ioctl(STANDARD_ERROR, TIOCGWINSZ, place) };
    (answer == 0 && size.columns > 0).then_some(size.columns.into())
}

static OPEN: [AtomicBool; 2] = [const { AtomicBool::new(true) }; 2];

/// Whether standard input (0) or standard output (1) was open when the program started.
pub fn was_open(file: RawFd) -> bool {
    let open = usize::try_from(file).ok().and_then(|file| OPEN.get(file));
    open.is_none_or(|open| open.load(Ordering::Relaxed))
}

/// Rust opens /dev/null in place of what is closed before `main` is called, so that this has to
/// be looked at before. What stands in this section is called by the C library, which passes
/// arguments that are not needed here.
#[used]
#[link_section = ".init_array"]
static LOOK: extern "C" fn() = look;

extern "C" fn look() {
    const F_GETFD: c_int = 1;
    for (file, open) in (0..).zip(&OPEN) {
        // SAFETY: this asks for a number, and any number may be asked about.
        open.store(unsafe { fcntl(file, F_GETFD) } != -1, Ordering::Relaxed);
    }
}

#[cfg(test)]
mod tests {
    use super::*;

    /// The signals that wait for this thread, a bit each.
    fn waiting() -> u64 {
        let status = fs::read_to_string("/proc/thread-self/status").unwrap();
        let line = status.lines().find_map(|line| line.strip_prefix("SigBlk:")).unwrap();
        u64::from_str_radix(line.trim(), 16).unwrap()
    }

    #[test]
    fn signals_wait_and_come_again() {
        let before = waiting();
        let wait = SignalsWait::start().unwrap();
        // SIGHUP, SIGINT, SIGQUIT, SIGUSR1, SIGPIPE, SIGALRM, SIGTERM, SIGXFSZ
        for signal in [1, 2, 3, 10, 13, 14, 15, 25] {
            assert_ne!(waiting() & 1 << (signal - 1), 0, "{signal}");
        }
        drop(wait);
        assert_eq!(waiting(), before);
    }

    #[test]
    fn what_was_not_looked_at_is_taken_as_open() {
        assert!([2, 700, -1].into_iter().all(was_open));
    }
}

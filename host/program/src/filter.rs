//! The system's programs that take octets and give others: those that unpack, and sha256sum.

use crate::memory::{self, Unread};
use std::io::{self, Read, Write};
use std::process::{Child, ChildStdin, Command, ExitStatus, Stdio};
use std::sync::atomic::{AtomicU64, Ordering};
use std::thread::{self, Builder};

const CHUNK: usize = 1 << 20;

/// Of what a program complains about, as much is kept.
const WORDS: usize = 1 << 16;

/// What the threads here need; where memory is short, they should start all the same.
const STACK: usize = 1 << 17;

/// How a program ended, and what it wrote to standard error.
pub struct Passed {
    pub words: Vec<u8>,
    pub status: ExitStatus,
}

/// Gives the octets to a program and appends what it writes to `out`, which may get as long as
/// `limit`; if it would be longer, or memory is short, the program is ended. `after_each` is told
/// how many octets the program has taken.
pub fn pass(
    command: &[&str],
    octets: &[u8],
    (out, limit): (&mut Vec<u8>, u64),
    mut after_each: impl FnMut(u64),
) -> Result<Passed, Unread> {
    let mut child = start(command)?;
    let (input, mut output) = (child.stdin.take(), child.stdout.take().expect("piped"));
    let mut errors = child.stderr.take().expect("piped");
    let fed = AtomicU64::new(0);
    let heard = thread::scope(|scope| {
        let small = || Builder::new().stack_size(STACK);
        // Threads feed it and listen to its complaints, so that no full pipe stops it.
        let taken = small()
            .spawn_scoped(scope, || feed(input.expect("piped"), octets, &fed))
            .and_then(|_| small().spawn_scoped(scope, move || listen(&mut errors)))
            .map_err(Unread::from)
            .and_then(|listener| {
                let step = |_| after_each(fed.load(Ordering::Relaxed));
                memory::append(out, &mut output, limit, step).map(|()| listener)
            });
        if taken.is_err() {
            // Else the threads would wait for it.
            let _ = child.kill();
        }
        drop(output);
        taken.map(|listener| listener.join().expect("the listener does not panic"))
    });
    let status = child.wait()?;
    Ok(Passed { words: heard?, status })
}

fn start(command: &[&str]) -> io::Result<Child> {
    let mut child = Command::new(command[0]);
    child.args(&command[1..]).stdin(Stdio::piped()).stdout(Stdio::piped()).stderr(Stdio::piped());
    child.spawn()
}

/// That the program stops reading shows in its exit status.
fn feed(mut input: ChildStdin, octets: &[u8], fed: &AtomicU64) {
    for chunk in octets.chunks(CHUNK) {
        if input.write_all(chunk).is_err() {
            return;
        }
        fed.fetch_add(chunk.len() as u64, Ordering::Relaxed);
    }
}

/// Takes all words and keeps the first. What cannot be read is not there.
fn listen(errors: &mut impl Read) -> Vec<u8> {
    let (mut words, mut piece) = (Vec::new(), [0; 4096]);
    while let Ok(size @ 1..) = errors.read(&mut piece) {
        let kept = size.min(WORDS - words.len());
        words.extend_from_slice(&piece[..kept]);
    }
    words
}

#[cfg(test)]
mod tests {
    use super::*;

    fn passed(script: &str, octets: &[u8], limit: u64) -> (Result<Passed, Unread>, Vec<u8>) {
        let mut out = b"before ".to_vec();
        let passed = pass(&["sh", "-c", script], octets, (&mut out, limit), |_| {});
        (passed, out)
    }

    #[test]
    fn octets_words_and_status() {
        let (end, out) = passed("tr a-z A-Z; echo so >&2; exit 7", b"given", 100);
        let end = end.unwrap();
        assert_eq!((out.as_slice(), end.words.as_slice()), (&b"before GIVEN"[..], &b"so\n"[..]));
        assert_eq!(end.status.code(), Some(7));
    }

    #[test]
    fn no_full_pipe_stops_it() {
        let large = vec![b'x'; 3 << 20];
        let (end, out) = passed("tee /dev/stderr", &large, u64::MAX);
        assert_eq!(end.unwrap().words.len(), WORDS);
        assert_eq!(out.len(), 7 + large.len());
    }

    #[test]
    fn a_program_that_gives_too_much_is_ended() {
        let (end, out) = passed("exec cat /dev/zero", &[0; 1 << 20], 1_000_000);
        assert!(matches!(end, Err(Unread::Limit(1_000_000))));
        assert!(out.len() < 2_000_000);
    }

    #[test]
    fn a_program_that_does_not_read() {
        let (end, out) = passed("echo early", &[0; 1 << 20], 100);
        assert!(end.unwrap().status.success());
        assert_eq!(out, b"before early\n");
    }
}

//! Little memory, and more octets than anybody wants to read.

use crate::dumps::{record, sample, SAMPLE};
use crate::run::{finish_fed, is_emulated, run, run_fed, words, Folder, Run};
use std::process::{Command, Stdio};

#[test]
fn no_more_is_read_than_the_limit() {
    let folder = Folder::new("limit");
    let (exact, less) = ("--limit=3329", "--limit=3328");
    assert_eq!(sample().len(), 3329);
    let assert_refused = |refused: Run| {
        refused.ended(2).told("more than 3,328 octets, unpacked; --limit SIZE");
    };
    for name in ["list", "check", "peers", "report"] {
        run(&[name, SAMPLE, exact]).ended(0);
        assert_refused(run(&[name, SAMPLE, less]));
        run_fed(&[name, "-", exact], &sample()).ended(0);
        assert_refused(run_fed(&[name, "-", less], &sample()));
    }
    let out = folder.word("clip");
    let window = ["--from=0", "--to=9999-01-01T00:00:00Z"];
    assert_refused(run(&[&["cut", SAMPLE, "-o", &out, less], &window[..]].concat()));
    assert!(folder.names().is_empty());
}

#[test]
fn the_limit_is_for_the_whole_recording() {
    run(&["check", SAMPLE, SAMPLE, "--limit=6658"]).ended(0);
    run(&["check", SAMPLE, SAMPLE, "--limit=6657"]).ended(2).told("more than 6,657 octets");
    // A report reads one after another.
    run(&["report", SAMPLE, SAMPLE, "--limit=4K"]).ended(0);
}

#[test]
fn what_never_ends_is_ended() {
    run(&["check", "/dev/zero", "--limit", "20MB"]).ended(2).told("more than 20,000,000 octets");
}

/// With so many kilobytes of address space.
pub fn run_short(kilobytes: u32, arguments: &[&str], input: &[u8]) -> Run {
    let mut command = Command::new("sh");
    let script = format!("ulimit -v {kilobytes}; exec \"$@\"");
    command.args(["-c", &script, "sh"]).args(words()).args(arguments).stdin(Stdio::piped());
    finish_fed(command, input)
}

/// Whatever the kilobytes, the words are these, or there was enough.
pub fn assert_short(arguments: &[&str], input: &[u8], enough: u32) {
    for kilobytes in (20_000..90_000).step_by(4_000) {
        let run = run_short(kilobytes, arguments, input);
        if run.status == Some(0) {
            assert!(kilobytes > enough, "{kilobytes}");
            continue;
        }
        let run = run.ended(2).told("cannot read").told("memory").told("were there, and room for");
        run.silent_about("panicked").silent_about("backtrace");
    }
}

/// An emulator would be short of it first.
#[test]
fn too_little_memory_is_said() {
    if is_emulated() {
        return;
    }
    let folder = Folder::new("short");
    let octets = record(1, 48, 0, &[0; 1_000_000]).repeat(64);
    let file = folder.file("dump", &octets);
    assert_short(&["check", &file], &[], 64_000);
    assert_short(&["check", "-"], &octets, 64_000);
    run_short(1_000_000, &["check", &file], &[]).ended(0);
}

#[test]
fn a_list_needs_memory_too() {
    if is_emulated() {
        return;
    }
    let order = ["cut", SAMPLE, "--from=0", "--to=5.0", "-o", "-", "--mute-file=-"];
    let list = b"64500\n".repeat(10_000_000);
    run_short(60_000, &order, &list).ended(2).told("cannot read standard input").told("memory");
}

//! OUT appears whole or not at all, and nothing else is written over.

use crate::dumps::{record, sample, SAMPLE};
use crate::run::{command, finish, is_emulated, run, run_on_terminal, words, Folder, Run};
use std::fs::{self, File, Permissions};
use std::os::unix::fs::{symlink, FileTypeExt, OpenOptionsExt, PermissionsExt};
use std::process::{Child, Command, Stdio};
use std::thread;
use std::time::Instant;

const ALL: [&str; 2] = ["--from=0", "--to=9999-01-01T00:00:00Z"];

fn cut(file: &str, out: &str, more: &[&str]) -> Run {
    run(&[&["cut", file, "-o", out], &ALL[..], more].concat())
}

#[test]
fn an_existing_file_is_kept_unless_forced() {
    let folder = Folder::new("existing");
    let out = folder.file("clip", b"an earlier clip");
    cut(SAMPLE, &out, &[]).ended(2).told("--force replaces it");
    assert_eq!(folder.read("clip"), b"an earlier clip");
    cut(SAMPLE, &out, &["--force"]).ended(0);
    assert_eq!(folder.read("clip"), sample());
    assert_eq!(folder.names(), ["clip"]);
}

#[test]
fn an_input_is_never_written_over() {
    let folder = Folder::new("input");
    let file = folder.file("dump", &sample());
    symlink(&file, folder.path("soft")).unwrap();
    fs::hard_link(&file, folder.path("hard")).unwrap();
    fs::create_dir(folder.path("inner")).unwrap();
    for name in ["dump", "soft", "hard", "inner/../dump"] {
        let out = folder.word(name);
        for more in [&[][..], &["--force"]] {
            cut(&file, &out, more).ended(2).told("it is an input");
            cut(&out, &file, more).ended(2).told("it is an input");
        }
    }
    let list = folder.file("list", b"64500\n");
    cut(&file, &list, &["--mute-file", &list, "--force"]).ended(2).told("it is an input");
    let mut piped = command(&[&["cut", "-", "-o", &file, "--force"], &ALL[..]].concat());
    piped.stdin(File::open(&file).unwrap());
    finish(piped).ended(2).told("it is an input");
    let mut appended = command(&[&["cut", &file, "-o", "-"], &ALL[..]].concat());
    appended.stdout(File::options().append(true).open(&file).unwrap());
    let ended = appended.output().unwrap();
    assert_eq!(ended.status.code(), Some(2));
    assert!(String::from_utf8_lossy(&ended.stderr).contains("it is an input"));
    assert_eq!(folder.read("dump"), sample());
    assert_eq!(folder.read("list"), b"64500\n");
    assert_eq!(folder.names(), ["dump", "hard", "inner", "list", "soft"]);
}

#[test]
fn an_output_is_refused_before_the_input_is_read() {
    let folder = Folder::new("unread");
    let file = folder.file("dump", b"no dump, and nobody looks");
    cut(&file, &file, &["--force"]).ended(2).told("it is an input").silent_about("fault");
    let out = folder.file("clip", b"");
    cut(&file, &out, &[]).ended(2).told("--force replaces it").silent_about("fault");
    cut(&file, &folder.word("none/clip"), &[]).ended(2).told("its folder").silent_about("fault");
}

#[test]
fn a_link_is_replaced_and_not_followed() {
    let folder = Folder::new("link");
    let other = folder.file("other", b"somebody's file");
    for target in [&other, &folder.word("nowhere")] {
        let _ = fs::remove_file(folder.path("link"));
        symlink(target, folder.path("link")).unwrap();
        let out = folder.word("link");
        cut(SAMPLE, &out, &[]).ended(2).told("--force replaces it");
        cut(SAMPLE, &out, &["--force"]).ended(0);
        assert!(folder.path("link").symlink_metadata().unwrap().is_file());
    }
    assert_eq!(folder.read("other"), b"somebody's file");
    assert_eq!(folder.names(), ["link", "other"]);
}

#[test]
fn what_is_no_file_is_refused() {
    let folder = Folder::new("no-file");
    cut(SAMPLE, &folder.word(""), &["--force"]).ended(2).told("no regular file");
    // A pipe of the test's own: a device of the machine would be lost if this went wrong.
    assert!(Command::new("mkfifo").arg(folder.path("pipe")).status().unwrap().success());
    cut(SAMPLE, &folder.word("pipe"), &["--force"]).ended(2).told("no regular file");
    assert!(folder.path("pipe").metadata().unwrap().file_type().is_fifo());
    cut(SAMPLE, &folder.word("none/clip"), &[]).ended(2).told("its folder");
    let file = folder.file("file", b"");
    cut(SAMPLE, &format!("{file}/clip"), &[]).ended(2).told("its folder");
    assert_eq!(folder.names(), ["file", "pipe"]);
}

#[test]
fn a_folder_that_takes_no_files() {
    cut(SAMPLE, "/proc/clip", &[]).ended(2).told("cannot write /proc/clip");
    let folder = Folder::new("read-only");
    let inner = folder.path("inner");
    fs::create_dir(&inner).unwrap();
    fs::set_permissions(&inner, Permissions::from_mode(0o555)).unwrap();
    // Root may write everywhere.
    let may_write = File::create_new(inner.join("probe")).is_ok();
    if !may_write {
        cut(SAMPLE, &folder.word("inner/clip"), &[]).ended(2).told("cannot write");
    }
    assert_eq!(fs::read_dir(&inner).unwrap().count(), usize::from(may_write));
    fs::set_permissions(&inner, Permissions::from_mode(0o755)).unwrap();
}

#[test]
fn a_disk_that_fills_up_leaves_nothing() {
    let folder = Folder::new("full");
    let out = folder.word("clip");
    let mut command = Command::new("sh");
    // At most one block to a file; without the trap a signal would say so, not an error.
    command.args(["-c", "trap '' XFSZ; ulimit -f 1; exec \"$@\"", "sh"]).args(words());
    command.args(["cut", SAMPLE, "-o", &out]).args(ALL);
    finish(command).ended(2).told("cannot write");
    assert!(folder.names().is_empty());
}

#[test]
fn names_of_any_length_and_any_octets() {
    let folder = Folder::new("names");
    let long = "n".repeat(255);
    cut(SAMPLE, &folder.word(&long), &[]).ended(0);
    assert_eq!(folder.read(&long), sample());
    cut(SAMPLE, &folder.word(&"n".repeat(256)), &[]).ended(2).told("cannot write");
    assert_eq!(folder.names(), [long]);
}

#[test]
fn what_is_replaced_gives_its_mode() {
    let folder = Folder::new("mode");
    for mode in [0o600, 0o640, 0o666, 0o444, 0o4755] {
        let out = folder.file("clip", b"an earlier clip");
        fs::set_permissions(&out, Permissions::from_mode(mode)).unwrap();
        cut(SAMPLE, &out, &["--force"]).ended(0);
        assert_eq!(folder.read("clip"), sample());
        assert_eq!(fs::metadata(&out).unwrap().permissions().mode() & 0o7777, mode & 0o777);
        fs::remove_file(&out).unwrap();
    }
    // A new one is as the user's mask says, also with --force.
    for (mask, mode) in [("022", 0o644), ("077", 0o600)] {
        let script = format!("umask {mask}; exec \"$@\"");
        for more in [&[][..], &["--force"]] {
            let out = folder.word("new");
            let mut command = Command::new("sh");
            command.args(["-c", &script, "sh"]).args(words());
            command.args(["cut", SAMPLE, "-o", &out]).args(ALL).args(more);
            finish(command).ended(0);
            assert_eq!(fs::metadata(&out).unwrap().permissions().mode() & 0o7777, mode);
            fs::remove_file(&out).unwrap();
        }
    }
}

/// With standard output or standard input closed, as a shell closes them.
fn run_closed(closing: &str, arguments: &[&str]) -> Run {
    let mut command = Command::new("sh");
    command.args(["-c", &format!("exec \"$@\" {closing}"), "sh"]).args(words()).args(arguments);
    finish(command)
}

/// An emulator opens files of its own, which take the place of what is closed.
#[test]
fn what_is_closed_is_said() {
    if is_emulated() {
        return;
    }
    for arguments in [
        &["list", SAMPLE][..],
        &["check", SAMPLE],
        &["peers", SAMPLE],
        &["report", SAMPLE],
        &["--help"],
        &[&["cut", SAMPLE, "-o", "-"], &ALL[..]].concat(),
    ] {
        run_closed(">&-", arguments).ended(2).told("cannot write standard output: it is closed");
        run_closed("", arguments).ended(0);
    }
    run_closed("<&-", &["check", "-"]).ended(2).told("cannot read standard input: it is closed");
    let folder = Folder::new("closed");
    let out = folder.word("clip");
    run_closed(">&- 2>&-", &[&["cut", SAMPLE, "-o", &out], &ALL[..]].concat()).ended(0);
    assert_eq!(folder.read("clip"), sample());
}

#[test]
fn a_clip_is_not_written_to_a_terminal() {
    let folder = Folder::new("terminal");
    let file = folder.file("dump", b"no dump, and nobody looks");
    let arguments = [&["cut", &file, "-o", "-"], &ALL[..]].concat();
    let Some(run) = run_on_terminal(80, &arguments) else { return };
    let text = run.ended(2).out_text().replace("\r\n", " ");
    assert!(text.contains("standard output: it is a terminal"), "{text}");
    assert!(!text.contains("fault"), "{text}");
}

#[test]
fn messages_fit_a_terminal() {
    let folder = Folder::new("wrapped");
    let mut octets = sample();
    octets[5] = 99;
    let file = folder.file("dump", &octets);
    for columns in [60, 100] {
        let Some(run) = run_on_terminal(columns, &["check", &file]) else { return };
        let run = run.ended(1);
        let text = run.out_text();
        let is_row = |line: &str| line.starts_with("    0000");
        let widths = text.lines().filter(|line| !is_row(line)).map(|line| line.trim_end().len());
        let widest = widths.max().unwrap();
        // The name of a file may be longer than a line.
        assert!(widest <= usize::from(columns).max(file.len() + 3), "{widest}: {text}");
        assert!(text.lines().any(is_row), "{text}");
        let plain = crate::run::run(&["check", &file]).ended(1).err;
        let words = |text: &str| text.split_whitespace().collect::<Vec<_>>().join(" ");
        assert_eq!(words(text), words(&plain));
        assert!(text.lines().count() > plain.lines().count());
    }
}

#[test]
fn control_characters_in_names_are_spelled_out() {
    let folder = Folder::new("control");
    let name = "a\n\u{1b}[2Jb";
    for (name, words) in [(name, r"a\n\u{1b}[2Jb: "), ("none\r", r"none\r: ")] {
        let file = folder.word(name);
        run(&["check", &file]).ended(2).told("cannot read").told(words);
        cut(&file, &folder.word("clip"), &[]).ended(2).told(words);
        cut(SAMPLE, &folder.word(&format!("{name}/clip")), &[])
            .ended(2)
            .told(words.trim_end_matches(": "));
    }
}

/// A dump that takes a while to write.
fn large() -> Vec<u8> {
    let size = if is_emulated() { 8 } else { 24 };
    record(1, 48, 0, &vec![b'x'; 1 << 20]).repeat(size)
}

fn start(arguments: &[&str]) -> Child {
    command(arguments).stdout(Stdio::null()).stderr(Stdio::null()).spawn().unwrap()
}

/// Ends the program by this signal at many moments of a cut; each time `look` sees what is there.
fn end_at_many_moments(arguments: &[&str], signal: &str, mut look: impl FnMut()) {
    let now = Instant::now();
    assert!(start(arguments).wait().unwrap().success());
    let whole = now.elapsed();
    look();
    let count = if is_emulated() { 8 } else { 30 };
    for moment in 0..count {
        let mut child = start(arguments);
        thread::sleep(whole * moment * 11 / (10 * count));
        // It may have ended already.
        let kill = format!("kill -s {signal} {} 2>&-", child.id());
        Command::new("sh").args(["-c", &kill]).status().unwrap();
        child.wait().unwrap();
        look();
    }
}

/// Whether the file system of this folder has files without a name.
fn has_unnamed_files(folder: &Folder) -> bool {
    let directory = if cfg!(target_arch = "aarch64") { 0o40_000 } else { 0o200_000 };
    let flags = 0o20_000_000 | directory;
    File::options().write(true).custom_flags(flags).open(folder.path("")).is_ok()
}

/// The names in the folder but those of drafts; these are removed, and `is_allowed` says whether
/// they may be there.
fn names_without_drafts(folder: &Folder, is_allowed: bool) -> Vec<String> {
    let (drafts, names): (Vec<_>, Vec<_>) =
        folder.names().into_iter().partition(|name| name.starts_with(".dagsumilat-"));
    assert!(drafts.is_empty() || is_allowed, "{drafts:?}");
    drafts.iter().for_each(|name| fs::remove_file(folder.path(name)).unwrap());
    names
}

#[test]
fn a_signal_leaves_all_or_nothing() {
    let folder = Folder::new("signals");
    let (octets, out) = (large(), folder.word("clip"));
    let file = folder.file("dump", &octets);
    let order = [&["cut", &file, "-qo", &out], &ALL[..]].concat();
    let is_named = !has_unnamed_files(&folder);
    for signal in ["KILL", "TERM"] {
        let (mut whole, mut none) = (0, 0);
        end_at_many_moments(&order, signal, || {
            let names = names_without_drafts(&folder, is_named);
            if names == ["dump"] {
                none += 1;
                return;
            }
            assert_eq!(names, ["clip", "dump"]);
            assert!(folder.read("clip") == octets);
            fs::remove_file(&out).unwrap();
            whole += 1;
        });
        assert!(whole > 0 && none > 0, "{whole} whole, {none} without");
    }
}

#[test]
fn a_signal_leaves_the_old_or_the_new() {
    const OLD: &[u8] = b"an earlier clip";
    let folder = Folder::new("signals-forced");
    let (octets, out) = (large(), folder.file("clip", OLD));
    let file = folder.file("dump", &octets);
    let order = [&["cut", &file, "-fqo", &out], &ALL[..]].concat();
    let is_named = !has_unnamed_files(&folder);
    for signal in ["KILL", "TERM", "INT"] {
        let (mut new, mut old) = (0, 0);
        end_at_many_moments(&order, signal, || {
            // This one cannot be made to wait.
            let names = names_without_drafts(&folder, is_named || signal == "KILL");
            assert_eq!(names, ["clip", "dump"]);
            if folder.read("clip") == OLD {
                old += 1;
                return;
            }
            assert!(folder.read("clip") == octets);
            fs::write(&out, OLD).unwrap();
            new += 1;
        });
        assert!(new > 0 && old > 0, "{new} new, {old} old");
    }
}

//! Orders that cannot be understood, help, and input that is not there.

use crate::dumps::SAMPLE;
use crate::run::{run, Folder};

#[test]
fn help_and_version() {
    assert!(run(&["--help"]).ended(0).out_text().contains("Commands:"));
    assert!(run(&["--version"]).ended(0).out_text().starts_with("dagsumilat "));
    for name in ["list", "check", "peers", "report", "cut"] {
        let usage = format!("Usage: dagsumilat {name} ");
        assert!(run(&[name, "--help"]).ended(0).out_text().starts_with(&usage));
    }
    let cut = run(&["cut", "--help"]).ended(0);
    assert!(cut.out_text().contains("the window's end, which is not in it"));
}

/// A terminal has 80 columns.
#[test]
fn the_help_fits() {
    let help = run(&["--help"]).ended(0);
    for line in help.out_text().lines() {
        assert!(line.chars().count() <= 80, "{line}");
    }
}

#[test]
fn help_and_version_as_commands() {
    let same = |words: &[&str], others: &[&str]| {
        let (told, other) = (run(words).ended(0), run(others).ended(0));
        assert_eq!(told.out_text(), other.out_text(), "{words:?}");
        assert!(told.err.is_empty() && !told.out.is_empty());
    };
    same(&["help"], &["--help"]);
    same(&["version"], &["--version"]);
    for name in ["list", "check", "peers", "report", "cut"] {
        same(&["help", name], &[name, "--help"]);
    }
    run(&["help", "slice"]).ended(2).told("no such command: slice");
    run(&["help", "cut", "list"]).ended(2);
    run(&["version", "list"]).ended(2);
}

#[test]
fn mistyped_words_have_a_hint() {
    let hints: [(&[&str], &str, &str); 6] = [
        (&["lst", SAMPLE], "no such command: lst", "did you mean list?"),
        (&["chekc", SAMPLE], "no such command: chekc", "did you mean check?"),
        (&["help", "reprot"], "no such command: reprot", "did you mean report?"),
        (&["report", SAMPLE, "--tabel"], "no such option: --tabel", "did you mean --table?"),
        (&["cut", SAMPLE, "--mut", "1"], "no such option: --mut", "did you mean --mute?"),
        (&["list", SAMPLE, "--frm=0"], "no such option: --frm", "did you mean --from?"),
    ];
    for (words, fault, hint) in hints {
        run(words).ended(2).told(fault).told(hint);
    }
    run(&["slice", SAMPLE]).ended(2).silent_about("did you mean");
    run(&["check", SAMPLE, "--mute=1"]).ended(2).silent_about("did you mean");
}

#[test]
fn wrong_usage_is_status_2() {
    let wrong: [(&[&str], &str); 9] = [
        (&[], "which command?"),
        (&["slice", SAMPLE], "no such command: slice"),
        (&["list"], "which FILE?"),
        (&["list", SAMPLE, "--frm"], "no such option: --frm"),
        (&["report"], "which FILE?"),
        (&["report", SAMPLE, "--tabel"], "no such option: --tabel"),
        (&["report", "-", SAMPLE, "-"], "standard input (-) more than once"),
        (&["cut", SAMPLE, "--to", "1", "-o", "x"], "can be read in two ways"),
        (&["cut", SAMPLE, "--from", "2026-02-30T00:00:00Z"], "has day 30"),
    ];
    for (arguments, words) in wrong {
        let run = run(arguments).ended(2).told(words).told("--help");
        assert!(run.out.is_empty());
    }
}

#[test]
fn input_that_cannot_be_read_is_status_2() {
    let folder = Folder::new("unreadable");
    for name in ["list", "check", "peers", "report"] {
        run(&[name, &folder.word("none")]).ended(2).told("cannot read").told("none");
        run(&[name, &folder.word("")]).ended(2).told("cannot read");
    }
    let (none, out) = (folder.word("none"), folder.word("out"));
    run(&["cut", &none, "--from", "0", "--to", "1.0", "-o", &out]).ended(2).told("cannot read");
    assert!(folder.names().is_empty());
}

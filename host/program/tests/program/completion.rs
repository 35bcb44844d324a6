//! What bash completes, with nothing but the script that is installed.

use crate::run::{run, Folder};
use std::collections::BTreeSet;
use std::process::Command;

const SCRIPT: &str = concat!(env!("CARGO_MANIFEST_DIR"), "/dagsumilat.bash");
const COMMANDS: [&str; 5] = ["list", "check", "peers", "report", "cut"];

/// Takes the script, the words before and the one being typed, and prints what is offered.
const DRIVER: &str = r#"
set -u
source "$1"
complete -p dagsumilat >/dev/null || exit 1
COMP_WORDS=(dagsumilat "${@:2}")
COMP_CWORD=$((${#COMP_WORDS[@]} - 1))
_dagsumilat
[ ${#COMPREPLY[@]} = 0 ] || printf '%s\n' "${COMPREPLY[@]}"
"#;

/// What is offered for the last of these words, in this folder.
fn offered_in(folder: &Folder, words: &[&str]) -> Vec<String> {
    let mut bash = Command::new("bash");
    bash.args(["--norc", "--noprofile", "-c", DRIVER, "bash", SCRIPT]).args(words);
    let output = bash.current_dir(folder.path("")).output().unwrap();
    let errors = String::from_utf8_lossy(&output.stderr);
    assert!(output.status.success() && errors.is_empty(), "{words:?}: {errors}");
    let mut offered: Vec<_> =
        String::from_utf8(output.stdout).unwrap().lines().map(str::to_string).collect();
    offered.sort();
    offered
}

#[test]
fn commands() {
    let folder = Folder::new("complete-commands");
    let offered = |words: &[&str]| offered_in(&folder, words);
    let all = ["check", "cut", "help", "list", "peers", "report", "version"];
    assert_eq!(offered(&[""]), all);
    assert_eq!(offered(&["c"]), ["check", "cut"]);
    assert_eq!(offered(&["--"]), ["--help", "--version"]);
    assert_eq!(offered(&["help", ""]), ["check", "cut", "list", "peers", "report"]);
    assert_eq!(offered(&["help", "re"]), ["report"]);
    for words in [&["x"][..], &["help", "cut", ""], &["version", ""], &["--version", ""]] {
        assert!(offered(words).is_empty(), "{words:?}");
    }
}

#[test]
fn options() {
    let folder = Folder::new("complete-options");
    let offered = |words: &[&str]| offered_in(&folder, words);
    assert_eq!(offered(&["cut", "a.mrt", "--mute-"]).len(), 3);
    assert_eq!(offered(&["cut", "--no-progress", "--qui"]), ["--quiet"]);
    assert_eq!(offered(&["report", "--t"]), ["--table"]);
    for words in [["check", "--table"], ["peers", "--mute"], ["report", "--long"], ["list", "-o"]] {
        assert!(offered(&words).is_empty(), "{words:?}");
    }
}

#[test]
fn file_names() {
    let folder = Folder::new("complete-files");
    for name in ["day.mrt", "day two.mrt", "dozen", "-dash"] {
        folder.file(name, b"");
    }
    let offered = |words: &[&str]| offered_in(&folder, words);
    for command in COMMANDS {
        assert_eq!(offered(&[command, "da"]), ["day two.mrt", "day.mrt"]);
        assert_eq!(offered(&[command, "day.mrt", "do"]), ["dozen"]);
        assert_eq!(offered(&[command, "--", "-"]), ["-dash"]);
        assert_eq!(offered(&[command, "x", "--", "--from", "do"]), ["dozen"]);
    }
}

/// Both as `--option value` and as `--option=value`, which bash hands over as three words.
#[test]
fn values() {
    let folder = Folder::new("complete-values");
    folder.file("1-list", b"");
    let offered = |words: &[&str]| offered_in(&folder, words);
    for option in ["--mute-file", "--mute-address-file", "--only-file", "--report", "--output"] {
        assert_eq!(offered(&["cut", option, ""]), ["1-list"]);
        assert_eq!(offered(&["cut", "x", option, "="]), ["1-list"]);
        assert_eq!(offered(&["cut", "x", option, "=", "1"]), ["1-list"]);
    }
    assert_eq!(offered(&["cut", "-o", "1"]), ["1-list"]);
    let unknown = ["--from", "--to", "--around", "--seconds", "--mute", "--only", "--limit"];
    for option in unknown {
        assert!(offered(&["cut", option, "1"]).is_empty(), "{option}");
        assert!(offered(&["cut", option, "=", "1"]).is_empty(), "{option}");
    }
    assert!(offered(&["list", "--peer", "1"]).is_empty());
}

/// At which bash takes words apart: it puts what is offered behind the last one.
#[test]
fn colons() {
    let folder = Folder::new("complete-colons");
    folder.file("at 12:00:11.mrt", b"");
    folder.file("1-list", b"");
    let offered = |words: &[&str]| offered_in(&folder, words);
    assert_eq!(offered(&["check", "at 12", ":", "0"]), ["00:11.mrt"]);
    assert_eq!(offered(&["check", "at 12", ":", "00", ":"]), ["11.mrt"]);
    assert_eq!(offered(&["cut", "-o", "at 12", ":", "00", ":", "1"]), ["11.mrt"]);
    for value in [&["12", ":", "1"][..], &["2001", ":", "db8", "::", "1"], &["12", ":"]] {
        for before in [&["cut", "--from"][..], &["cut", "--mute-address", "="]] {
            let words = [before, value].concat();
            assert!(offered(&words).is_empty(), "{words:?}");
        }
    }
}

/// Those that a help text explains, at the start of a line.
fn explained(text: &str) -> BTreeSet<String> {
    let lines = text.lines().filter(|line| line.trim_start().starts_with('-'));
    let words = lines.flat_map(|line| line.split([' ', ',', '.', ';', ')', '(', '[', ']']));
    words.filter(|word| word.starts_with('-') && word.len() > 1).map(str::to_string).collect()
}

/// All but --help, which each command takes.
#[test]
fn options_are_those_of_the_help() {
    let folder = Folder::new("complete-help");
    for command in COMMANDS {
        let explained = explained(run(&[command, "--help"]).ended(0).out_text());
        let mut offered: BTreeSet<_> = offered_in(&folder, &[command, "-"]).into_iter().collect();
        assert!(offered.remove("--help"), "{command}");
        assert!(!explained.is_empty(), "{command}");
        assert_eq!(offered, explained, "{command}: left is completed, right explained");
    }
}

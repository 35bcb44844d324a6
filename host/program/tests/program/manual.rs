//! The manual's list of faults is made from the library's, and its example of one is the program's.

use crate::dumps::{change, change_of, NOON};
use crate::run::run_fed;
use dagsumilat::Fault;
use std::{env, fs};

const MANUAL: &str = concat!(env!("CARGO_MANIFEST_DIR"), "/dagsumilat.1");

/// The lines of the manual between which the list stands.
const START: &str = ".\\\" Made from host/library/src/faults.rs, see tests/program/manual.rs.\n";
const END: &str = ".\\\" End of what is made.\n";

/// As the manual's other lines.
const WIDTH: usize = 100;

/// What makes it anew.
const MEND: &str = "MEND=1 cargo test --release --package dagsumilat-program faults_are_the_manual";

/// One fault as a man page has it.
fn told(fault: Fault) -> String {
    let paragraphs = [
        format!("{}: {}.", fault.name(), fault.words()),
        format!("Place: {}.", fault.place_words()),
        format!("Often: {}", fault.cause()),
        format!("To do: {}", fault.remedy()),
    ];
    let paragraphs = paragraphs.map(|text| wrapped(&text));
    format!(".TP 4\n.B {}\n{}", fault.number(), paragraphs.join(".br\n"))
}

/// In lines, with what troff would take for its own written so that it does not.
fn wrapped(text: &str) -> String {
    let (mut lines, mut line) = (String::new(), String::new());
    for word in text.replace('\\', "\\e").replace("--", "\\-\\-").split(' ') {
        if !line.is_empty() && line.len() + 1 + word.len() > WIDTH {
            lines += &(line + "\n");
            line = String::new();
        }
        let before = match line.is_empty() {
            true if word.starts_with(['.', '\'']) => "\\&",
            true => "",
            false => " ",
        };
        line += before;
        line += word;
    }
    lines + &line + "\n"
}

/// What stands before the list, the list, and what stands behind it.
fn parts(manual: &str) -> [&str; 3] {
    let (before, rest) = manual.split_once(START).expect("the manual has the list's first line");
    let (list, behind) = rest.split_once(END).expect("the manual has the list's last line");
    [before, list, behind]
}

#[test]
fn faults_are_the_manuals() {
    let manual = fs::read_to_string(MANUAL).unwrap();
    let [before, list, behind] = parts(&manual);
    let made: String = Fault::ALL.into_iter().map(told).collect();
    if env::var_os("MEND").is_some() {
        return fs::write(MANUAL, [before, START, &made, END, behind].concat()).unwrap();
    }
    for fault in Fault::ALL {
        assert!(
            list.contains(&told(fault)),
            "the manual does not have fault {fault} as host/library/src/faults.rs has it; \
             in host/, this mends it:\n  {MEND}"
        );
    }
    assert!(list == made, "the manual lists more than the faults; in host/, mend it:\n  {MEND}");
}

/// A line of the example may end in dots for what is left out.
#[test]
fn the_example_of_a_fault_is_what_the_program_tells() {
    let manual = fs::read_to_string(MANUAL).unwrap();
    let (_, faults) = manual.split_once("\n.SH FAULTS\n").unwrap();
    let (_, example) = faults.split_once("\n.nf\n").unwrap();
    let (example, _) = example.split_once("\n.fi\n").unwrap();
    let dump = [change(1, 1), change_of(NOON, 64_500, 3, 7), change(NOON + 1, 64_496)].concat();
    let told = run_fed(&["check", "-"], &dump).ended(1).err;
    let told = told.strip_prefix("dagsumilat: standard input: ").unwrap();
    for (line, told) in example.replace("\\-", "-").lines().zip(told.lines()) {
        match line.strip_suffix("...") {
            Some(start) => assert!(told.starts_with(start), "{told}"),
            None => assert_eq!(line, told),
        }
    }
}

#[test]
fn what_troff_would_take_for_its_own() {
    assert_eq!(wrapped(".gz \\x --from"), "\\&.gz \\ex \\-\\-from\n");
    let lines = wrapped("word ".repeat(50).trim());
    assert!(lines.lines().count() == 3 && lines.lines().all(|line| line.len() <= WIDTH));
}

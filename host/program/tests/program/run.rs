//! Runs the program and keeps what it writes.

use std::ffi::OsStr;
use std::fs::{self, File};
use std::io::{Read, Write};
use std::path::{Path, PathBuf};
use std::process::{Child, Command, Stdio};
use std::thread;
use std::time::{Duration, Instant};
use std::{env, process};

/// No run of these tests needs a part of this.
const LONGEST: Duration = Duration::from_secs(60);

/// What cargo is told to run programs of another machine with.
const RUNNER: &str = if cfg!(target_arch = "aarch64") {
    "CARGO_TARGET_AARCH64_UNKNOWN_LINUX_GNU_RUNNER"
} else {
    "CARGO_TARGET_X86_64_UNKNOWN_LINUX_GNU_RUNNER"
};

pub struct Run {
    pub status: Option<i32>,
    pub out: Vec<u8>,
    pub err: String,
}

impl Run {
    pub fn out_text(&self) -> &str {
        std::str::from_utf8(&self.out).unwrap()
    }

    /// Fails with the program's own words unless it ended so.
    #[track_caller]
    pub fn ended(self, status: i32) -> Run {
        assert_eq!(self.status, Some(status), "standard error: {}", self.err);
        self
    }

    #[track_caller]
    pub fn told(self, words: &str) -> Run {
        assert!(self.err.contains(words), "'{words}' is not in: {}", self.err);
        self
    }

    #[track_caller]
    pub fn silent_about(self, words: &str) -> Run {
        assert!(!self.err.contains(words), "'{words}' is in: {}", self.err);
        self
    }
}

/// Whether programs run in an emulator, where everything takes longer.
pub fn is_emulated() -> bool {
    env::var_os(RUNNER).is_some()
}

/// Where a program of this name is; another PATH may be given to the command later.
fn found(program: &str) -> PathBuf {
    let path = env::var_os("PATH").unwrap_or_default();
    let mut places = env::split_paths(&path).map(|folder| folder.join(program));
    places.find(|place| place.is_file()).unwrap_or_else(|| program.into())
}

/// The program's words, with an emulator before them if one is needed.
pub fn words() -> Vec<PathBuf> {
    let runner = env::var(RUNNER).unwrap_or_default();
    let mut words: Vec<PathBuf> = runner.split_whitespace().map(PathBuf::from).collect();
    if let Some(first) = words.first_mut() {
        *first = found(&first.to_string_lossy());
    }
    words.push(env!("CARGO_BIN_EXE_dagsumilat").into());
    words
}

pub fn command<S: AsRef<OsStr>>(arguments: &[S]) -> Command {
    let words = words();
    let mut command = Command::new(&words[0]);
    command.args(&words[1..]).args(arguments).stdin(Stdio::null());
    command
}

pub fn run<S: AsRef<OsStr>>(arguments: &[S]) -> Run {
    finish(command(arguments))
}

/// With these octets on standard input, through a pipe.
pub fn run_fed<S: AsRef<OsStr>>(arguments: &[S], input: &[u8]) -> Run {
    let mut command = command(arguments);
    command.stdin(Stdio::piped());
    finish_fed(command, input)
}

pub fn finish(command: Command) -> Run {
    finish_fed(command, &[])
}

pub fn finish_fed(mut command: Command, input: &[u8]) -> Run {
    let mut child = command.stdout(Stdio::piped()).stderr(Stdio::piped()).spawn().unwrap();
    let stdin = child.stdin.take();
    let mut stdout = child.stdout.take().unwrap();
    let mut stderr = child.stderr.take().unwrap();
    thread::scope(|scope| {
        // A program that refuses early does not read all of it.
        scope.spawn(|| stdin.map(|mut pipe| pipe.write_all(input)));
        let out = scope.spawn(move || all_of(&mut stdout));
        let err = scope.spawn(move || all_of(&mut stderr));
        let status = wait(&mut child);
        let err = String::from_utf8_lossy(&err.join().unwrap()).into_owned();
        Run { status, out: out.join().unwrap(), err }
    })
}

fn all_of(pipe: &mut impl Read) -> Vec<u8> {
    let mut octets = Vec::new();
    pipe.read_to_end(&mut octets).unwrap();
    octets
}

/// The exit status; none if a signal ended it.
fn wait(child: &mut Child) -> Option<i32> {
    let start = Instant::now();
    loop {
        if let Some(status) = child.try_wait().unwrap() {
            return status.code();
        }
        if start.elapsed() > LONGEST {
            child.kill().unwrap();
            panic!("the program did not end");
        }
        thread::sleep(Duration::from_micros(300));
    }
}

/// On a terminal of so many columns, to which standard output and standard error go together; none
/// if the system has no program that makes one.
pub fn run_on_terminal(columns: u16, arguments: &[&str]) -> Option<Run> {
    let words: Vec<String> = words().iter().map(|word| word.display().to_string()).collect();
    let words = words.iter().map(String::as_str).chain(arguments.iter().copied());
    let quoted: Vec<String> = words.map(|word| format!("'{word}'")).collect();
    let line = format!("stty cols {columns}; exec {}", quoted.join(" "));
    let mut command = Command::new("script");
    command.args(["-qec", &line, "/dev/null"]).stdin(Stdio::null());
    // Others of this name take other options.
    let version = Command::new("script").arg("--version").output().ok()?.stdout;
    String::from_utf8_lossy(&version).contains("util-linux").then(|| finish(command))
}

/// A folder of a test's own, gone when the test is over.
pub struct Folder(PathBuf);

impl Folder {
    pub fn new(name: &str) -> Folder {
        let name = format!("{name}-{}", process::id());
        let folder = Path::new(env!("CARGO_TARGET_TMPDIR")).join(name);
        fs::create_dir(&folder).unwrap();
        Folder(folder)
    }

    pub fn path(&self, name: &str) -> PathBuf {
        self.0.join(name)
    }

    pub fn word(&self, name: &str) -> String {
        self.path(name).to_str().unwrap().to_string()
    }

    /// Writes a file and gives its name as a word.
    pub fn file(&self, name: &str, octets: &[u8]) -> String {
        File::create(self.path(name)).unwrap().write_all(octets).unwrap();
        self.word(name)
    }

    pub fn read(&self, name: &str) -> Vec<u8> {
        fs::read(self.path(name)).unwrap()
    }

    /// The names in it, hidden ones too.
    pub fn names(&self) -> Vec<String> {
        let entries = fs::read_dir(&self.0).unwrap();
        let mut names: Vec<String> =
            entries.map(|entry| entry.unwrap().file_name().into_string().unwrap()).collect();
        names.sort();
        names
    }
}

impl Drop for Folder {
    fn drop(&mut self) {
        let _ = fs::remove_dir_all(&self.0);
    }
}

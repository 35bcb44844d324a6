//! A bar on standard error for large files.

use std::io::{self, IsTerminal, Write};

/// Smaller inputs are done before a bar could be read.
const LARGE: u64 = 50_000_000;
const MEGABYTE: u64 = 1_000_000;
const WIDTH: u64 = 30;

/// Shows how far the work is, in stages. Drawn only where somebody can see it.
pub struct Progress {
    wanted: bool,
    stage: &'static str,
    total: Option<u64>,
    drawn: String,
}

impl Progress {
    pub fn new(wanted: bool) -> Progress {
        let wanted = wanted && io::stderr().is_terminal();
        Progress { wanted, stage: "", total: None, drawn: String::new() }
    }

    /// The next part of the work; `total` octets, where that is known.
    pub fn stage(&mut self, name: &'static str, total: Option<u64>) {
        self.stage = name;
        self.total = total;
    }

    /// So many octets of this stage are done.
    pub fn at(&mut self, done: u64) {
        if !self.wanted || self.total.unwrap_or(done) < LARGE {
            return;
        }
        let line = line(self.stage, done, self.total);
        if line != self.drawn {
            let _ = write!(io::stderr(), "\r{line}\x1b[K");
            self.drawn = line;
        }
    }

    /// Takes the bar away, so that words can follow.
    pub fn clear(&mut self) {
        if !self.drawn.is_empty() {
            let _ = write!(io::stderr(), "\r\x1b[K");
            self.drawn.clear();
        }
    }
}

impl Drop for Progress {
    fn drop(&mut self) {
        self.clear();
    }
}

fn line(stage: &str, done: u64, total: Option<u64>) -> String {
    let Some(total) = total else {
        return format!("{stage:<9} {} MB", done / MEGABYTE);
    };
    let share = |of: u64| (u128::from(done) * u128::from(of) / u128::from(total.max(1))) as u64;
    let full = share(WIDTH).min(WIDTH) as usize;
    let bar = "#".repeat(full) + &".".repeat(WIDTH as usize - full);
    format!("{stage:<9} [{bar}] {:3}%", share(100).min(100))
}

#[cfg(test)]
mod tests {
    use super::*;

    #[test]
    fn a_share_of_a_known_size() {
        let third = line("reading", 100, Some(300));
        assert_eq!(third, "reading   [##########....................]  33%");
        let all = line("writing", u64::MAX, Some(u64::MAX));
        assert_eq!(all, "writing   [##############################] 100%");
        assert!(line("reading", 5, Some(0)).ends_with("100%"), "a file that grew");
    }

    #[test]
    fn an_unknown_size_is_counted() {
        assert_eq!(line("reading", 61_900_000, None), "reading   61 MB");
    }
}

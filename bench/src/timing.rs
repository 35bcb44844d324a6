//! Best times of three ways to do a thing.

use std::time::{Duration, Instant};

/// How often a thing is timed: a short one more often, since it is over before another program's
/// turn, or it is not.
fn runs(octets: usize) -> usize {
    (150_000_000 / octets).clamp(7, 150)
}

/// Runs Rattle, plain and something known in turn, several times, and keeps the best seconds of each.
pub fn best(
    octets: usize,
    mut rattle: impl FnMut(),
    mut plain: impl FnMut(),
    mut known: impl FnMut(),
) -> [f64; 3] {
    let mut best = [Duration::MAX; 3];
    for _ in 0..runs(octets) {
        let taken = [time(&mut rattle), time(&mut plain), time(&mut known)];
        for (best, taken) in best.iter_mut().zip(taken) {
            *best = taken.min(*best);
        }
    }
    best.map(|best| best.as_secs_f64())
}

/// About how long a series goes on, and how often it runs at least and at most.
const LONGEST: Duration = Duration::from_secs(2);
const FEWEST: usize = 3;
const MOST: usize = 150;

/// The best times of three things of which it is not known before how long they take: the first run
/// says how many more there are, and none where it took too long by itself.
pub struct Series {
    best: [Duration; 3],
    runs: usize,
    wanted: usize,
}

impl Series {
    pub fn new() -> Series {
        Series { best: [Duration::MAX; 3], runs: 0, wanted: 1 }
    }

    pub fn goes_on(&self) -> bool {
        self.runs < self.wanted
    }

    pub fn runs(&self) -> usize {
        self.runs
    }

    pub fn seconds(&self) -> [f64; 3] {
        self.best.map(|best| best.as_secs_f64())
    }

    /// Runs Rattle, plain and something known once.
    pub fn time(
        &mut self,
        mut rattle: impl FnMut(),
        mut plain: impl FnMut(),
        mut known: impl FnMut(),
    ) {
        let taken = [time(&mut rattle), time(&mut plain), time(&mut known)];
        if self.runs == 0 {
            self.wanted = Series::wanted(taken.iter().sum());
        }
        self.runs += 1;
        for (best, taken) in self.best.iter_mut().zip(taken) {
            *best = taken.min(*best);
        }
    }

    fn wanted(first: Duration) -> usize {
        match LONGEST.as_nanos().checked_div(first.as_nanos()) {
            Some(0) => 1,
            Some(fit) => fit.clamp(FEWEST as u128, MOST as u128) as usize,
            None => MOST,
        }
    }
}

fn time(run: &mut impl FnMut()) -> Duration {
    let start = Instant::now();
    run();
    start.elapsed()
}

fn print_line(name: &str, seconds: f64, octets: usize) {
    let speed = octets as f64 / 1e6 / seconds;
    println!("  {name:<6} {speed:6.0} MB/s  {:8.3} ms", 1e3 * seconds);
}

/// Speeds of reading `octets`, and of copying `copied`.
pub fn print(seconds: [f64; 3], octets: usize, copied: usize) {
    let [rattle, plain, copy] = seconds;
    print_line("Rattle", rattle, octets);
    print_line("plain", plain, octets);
    print_line("memcpy", copy, copied);
    println!("  ratio of times, Rattle / plain: {:.2}", rattle / plain);
}

/// Speeds of the report and of the check of the same `octets`.
pub fn print_report(seconds: [f64; 3], octets: usize) {
    let [rattle, plain, check] = seconds;
    print_line("Rattle", rattle, octets);
    print_line("plain", plain, octets);
    print_line("check", check, octets);
    println!("  ratio of times, Rattle / plain: {:.2}", rattle / plain);
    println!("  ratio of times, report / check: {:.2}", rattle / check);
}

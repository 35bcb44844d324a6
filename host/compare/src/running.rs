//! Many dumps, on all processors.

use crate::comparing::{compare_seed, Difference};
use crate::desks::Desks;
use crate::tally::Tally;
use std::num::NonZero;
use std::sync::atomic::{AtomicBool, AtomicU64, Ordering};
use std::thread::{self, available_parallelism};

/// So many seeds from this one on, up to the first difference.
pub fn compare_seeds(count: u64, seed: u64) -> Result<Tally, Difference> {
    let (next, stop) = (AtomicU64::new(0), AtomicBool::new(false));
    let work = || {
        let (mut desks, mut tally) = (Desks::default(), Tally::default());
        while !stop.load(Ordering::Relaxed) {
            let number = next.fetch_add(1, Ordering::Relaxed);
            if number >= count {
                break;
            }
            compare_seed(seed.wrapping_add(number), &mut desks, &mut tally)
                .inspect_err(|_| stop.store(true, Ordering::Relaxed))?;
        }
        Ok(tally)
    };
    let processors = available_parallelism().map_or(1, NonZero::get);
    thread::scope(|scope| {
        let threads: Vec<_> = (0..processors).map(|_| scope.spawn(work)).collect();
        let mut all = Tally::default();
        for thread in threads {
            all.add(&thread.join().expect("a thread that panicked")?);
        }
        Ok(all)
    })
}

//! Two things at a time.

use std::thread::{self, Builder};

/// Does both, the one in a thread of its own, or first where none is to be had.
pub fn both<A: Send, B>(one: impl Fn() -> A + Sync, other: impl FnOnce() -> B) -> (A, B) {
    thread::scope(|scope| match Builder::new().spawn_scoped(scope, &one) {
        Ok(thread) => {
            let other = other();
            (thread.join().expect("it does not panic"), other)
        }
        Err(_) => (one(), other()),
    })
}

#[cfg(test)]
mod tests {
    use super::*;

    #[test]
    fn each_gives_its_own() {
        assert_eq!(both(|| 1, || "two"), (1, "two"));
    }
}

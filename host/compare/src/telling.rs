//! What went wrong, told in words.

use std::fmt::Debug;

pub type Told<T> = Result<T, String>;

/// Nothing, or a call and both answers to it.
pub fn same<T: PartialEq + Debug>(call: impl FnOnce() -> String, proved: T, second: T) -> Told<()> {
    if proved == second {
        return Ok(());
    }
    Err(format!("{}\nproved: {proved:?}\nsecond: {second:?}", call()))
}

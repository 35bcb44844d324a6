//! A cut in a thread whose stack has little more than the header says that a cut needs.

use dagsumilat::{cut, Window};
use std::thread;

const HEADER: &str = include_str!("../../../include/dagsumilat.h");
const DUMP: &[u8] = include_bytes!("../../../sample/incident.mrt");

/// What the header says, in thousands of octets.
const SAID: usize = 530;
/// What a thread takes for itself.
const SPARE: usize = 20;

/// More numbers than a cut keeps on the stack.
fn muted() -> Vec<u8> {
    let list: Vec<u32> = (0..70_000).collect();
    cut(DUMP, Window { from: 0, to: u64::MAX }, &list).unwrap()
}

#[test]
fn a_cut_needs_as_much_as_the_header_says() {
    assert!(HEADER.contains(&format!("some {SAID} KB of stack")));
    let thread = thread::Builder::new().stack_size((SAID + SPARE) * 1_000);
    assert_eq!(thread.spawn(muted).unwrap().join().unwrap(), muted());
}

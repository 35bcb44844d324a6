//! The calls of include/dagsumilat.h, with its words, and one of the system's. All unsafe code of
//! this crate stands here and in [`writers`].
//!
//! What makes each call sound: a slice's pointer is never null and has as many elements behind it
//! as its length says; `out`, the report and the answer are lent for writing, so that they overlap
//! with nothing; and the calls promise to write nowhere else, keep no pointer and accept any octets and
//! numbers.
//!
//! The answer is lent, as in C, so that the comparison can put it between walls.

pub mod writers;

/// No table in force; no peer AS.
pub const NONE: u64 = u64::MAX;

extern "C" {
    fn dagsumilat_check(dump: *const u8, dump_len: usize, answer: *mut [u64; 3]);
    fn dagsumilat_first_fault(dump: *const u8, dump_len: usize, answer: *mut [u64; 4]);
    fn dagsumilat_report(
        dump: *const u8,
        dump_len: usize,
        report: *mut [u64; 39],
        answer: *mut [u64; 2],
    );
    fn dagsumilat_cut(
        dump: *const u8,
        dump_len: usize,
        from: u64,
        to: u64,
        mutes: *const u32,
        mutes_len: usize,
        out: *mut u8,
        out_len: usize,
        answer: *mut [u64; 3],
    );
    fn dagsumilat_record(
        dump: *const u8,
        dump_len: usize,
        at: usize,
        table: u64,
        answer: *mut [u64; 10],
    );
    fn dagsumilat_peer(dump: *const u8, dump_len: usize, at: usize, answer: *mut [u64; 7]);
    fn dagsumilat_entry(dump: *const u8, dump_len: usize, at: usize, answer: *mut [u64; 6]);
    fn dagsumilat_read(record: *const u8, record_len: usize, table: u64, answer: *mut [u64; 20]);
}

pub fn check(dump: &[u8], answer: &mut [u64; 3]) {
    // SAFETY: see the top of this file.
    unsafe { dagsumilat_check(dump.as_ptr(), dump.len(), answer) }
}

pub fn first_fault(dump: &[u8], answer: &mut [u64; 4]) {
    // SAFETY: see the top of this file.
    unsafe { dagsumilat_first_fault(dump.as_ptr(), dump.len(), answer) }
}

pub fn report(dump: &[u8], report: &mut [u64; 39], answer: &mut [u64; 2]) {
    // SAFETY: see the top of this file.
    unsafe { dagsumilat_report(dump.as_ptr(), dump.len(), report, answer) }
}

pub fn cut(dump: &[u8], from: u64, to: u64, mutes: &[u32], out: &mut [u8], answer: &mut [u64; 3]) {
    let (octets, size) = (dump.as_ptr(), dump.len());
    let (numbers, count) = (mutes.as_ptr(), mutes.len());
    let (room, most) = (out.as_mut_ptr(), out.len());
    // SAFETY: see the top of this file.
    unsafe { dagsumilat_cut(octets, size, from, to, numbers, count, room, most, answer) }
}

pub fn record(dump: &[u8], at: usize, table: u64, answer: &mut [u64; 10]) {
    // SAFETY: see the top of this file.
    unsafe { dagsumilat_record(dump.as_ptr(), dump.len(), at, table, answer) }
}

pub fn peer(dump: &[u8], at: usize, answer: &mut [u64; 7]) {
    // SAFETY: see the top of this file.
    unsafe { dagsumilat_peer(dump.as_ptr(), dump.len(), at, answer) }
}

pub fn entry(dump: &[u8], at: usize, answer: &mut [u64; 6]) {
    // SAFETY: see the top of this file.
    unsafe { dagsumilat_entry(dump.as_ptr(), dump.len(), at, answer) }
}

pub fn read(record: &[u8], table: u64, answer: &mut [u64; 20]) {
    // SAFETY: see the top of this file.
    unsafe { dagsumilat_read(record.as_ptr(), record.len(), table, answer) }
}

/// See [`crate::in_large_pages`].
#[cfg(target_os = "linux")]
pub fn advise_large_pages<T>(memory: &[T]) {
    use std::ffi::{c_int, c_void};

    extern "C" {
        fn madvise(address: *mut c_void, size: usize, advice: c_int) -> c_int;
    }
    /// A multiple of every page size in use.
    const PAGE: usize = 65_536;
    const HUGE_PAGE: c_int = 14;

    let start = memory.as_ptr() as usize;
    let (first, end) = (start.next_multiple_of(PAGE), start + size_of_val(memory));
    if let Some(size) = end.checked_sub(first) {
        // SAFETY: these octets are the caller's, and this advice changes neither them nor who may
        // read and write them. If it is not taken, nothing is lost.
        unsafe { madvise(first as *mut c_void, size, HUGE_PAGE) };
    }
}

#[cfg(not(target_os = "linux"))]
pub fn advise_large_pages<T>(_memory: &[T]) {}

//! Memory between walls: pages that nobody may read or write. All unsafe code of this crate stands
//! here.

use std::ffi::{c_int, c_void};
use std::marker::PhantomData;
use std::{ptr, slice};

extern "C" {
    fn mmap(
        address: *mut c_void,
        size: usize,
        protection: c_int,
        flags: c_int,
        file: c_int,
        offset: i64,
    ) -> *mut c_void;
    fn mprotect(address: *mut c_void, size: usize, protection: c_int) -> c_int;
    fn munmap(address: *mut c_void, size: usize) -> c_int;
}

const NOTHING: c_int = 0;
const READ_AND_WRITE: c_int = 3;
/// Private and anonymous, and no memory is set aside for pages that nobody touches.
const PAGES: c_int = 0x4022;

/// A multiple of every page size in use.
const WALL: usize = 65_536;

/// Numbers for which zero octets are a value.
///
/// # Safety
/// All octets of the type may be zero, and its alignment is below that of a page.
pub unsafe trait Number: Copy {}
unsafe impl Number for u8 {}
unsafe impl Number for u32 {}
unsafe impl Number for u64 {}

/// Numbers that begin right behind a wall and end right before another one.
pub struct Walled<T> {
    start: *mut u8,
    octets: usize,
    kind: PhantomData<T>,
}

impl<T: Number> Walled<T> {
    /// At least so many numbers, zero at first.
    pub fn new(size: usize) -> Walled<T> {
        let octets = (size * size_of::<T>()).next_multiple_of(WALL);
        let all = octets + 2 * WALL;
        // SAFETY: a new mapping, all of it walls; then its middle is opened.
        let start = unsafe {
            let mapped = mmap(ptr::null_mut(), all, NOTHING, PAGES, -1, 0);
            assert!(mapped as isize != -1, "no memory for {octets} octets");
            let start = mapped.cast::<u8>().add(WALL);
            assert_eq!(mprotect(start.cast(), octets, READ_AND_WRITE), 0, "no open pages");
            start
        };
        Walled { start, octets, kind: PhantomData }
    }

    pub fn numbers(&self) -> &[T] {
        // SAFETY: these octets are open, live as long as `self`, and any of them make numbers.
        unsafe { slice::from_raw_parts(self.start.cast(), self.octets / size_of::<T>()) }
    }

    pub fn numbers_mut(&mut self) -> &mut [T] {
        // SAFETY: as above, and `self` is lent to nobody else.
        unsafe { slice::from_raw_parts_mut(self.start.cast(), self.octets / size_of::<T>()) }
    }
}

impl<T> Drop for Walled<T> {
    fn drop(&mut self) {
        // SAFETY: the mapping made by `new`, walls included; no reference to it is left.
        unsafe { munmap(self.start.sub(WALL).cast(), self.octets + 2 * WALL) };
    }
}

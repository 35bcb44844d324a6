//! What is asked of the system beyond Rust's standard library. All unsafe code of the program
//! stands here, for x86-64 and aarch64 under Linux; elsewhere each function answers that there is
//! no such thing, and its caller does without.

#[cfg(all(target_os = "linux", any(target_arch = "x86_64", target_arch = "aarch64")))]
mod linux;
#[cfg(all(target_os = "linux", any(target_arch = "x86_64", target_arch = "aarch64")))]
pub use linux::{name_file, terminal_width, unnamed_file, was_open, SignalsWait};

#[cfg(not(all(target_os = "linux", any(target_arch = "x86_64", target_arch = "aarch64"))))]
mod elsewhere;
#[cfg(not(all(target_os = "linux", any(target_arch = "x86_64", target_arch = "aarch64"))))]
pub use elsewhere::{name_file, terminal_width, unnamed_file, was_open, SignalsWait};

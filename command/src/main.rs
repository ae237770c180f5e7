//! The command `pirasteh`: an unproved shell over the proved library.
//!
//!     pirasteh ask FILE|-
//!     pirasteh why FILE|-
//!     pirasteh trail FILE|-
//!     pirasteh token list FILE|-
//!     pirasteh token pack FILE|-
//!
//! It reads bytes, hands them to the library, and prints what the library says. What the answers
//! and the refusals are is the library's to say.
//!
//! # Why this program has its own `main`
//!
//! Before an ordinary `main` Rust opens `/dev/null` in place of each closed descriptor from 0 to 2.
//! An answer written to a closed standard output would then be lost without an error, and a
//! program that trusts the exit status would never know. So C's `main` is defined here, nothing is
//! opened, and `stream` uses the descriptors as they are. Of what Rust does at the start only the
//! signal of a broken pipe is of use here; `main` sees to it.

#![cfg_attr(not(test), no_main)]
#![warn(missing_docs)]
#![warn(clippy::pedantic)]
#![deny(unsafe_op_in_unsafe_fn)]

mod arguments;
mod run;
mod stream;
mod text;

use std::ffi::{c_char, c_int, CStr, OsStr, OsString};
use std::os::unix::ffi::OsStrExt;

extern "C" {
    /// The C library's, which Rust's standard library links.
    fn signal(number: c_int, handler: usize) -> usize;
}

/// The signal that a write to a pipe without a reader sends.
const SIGPIPE: c_int = 13;
/// The handler that ignores a signal.
const SIG_IGN: usize = 1;

/// Where the program starts: C's `main`, but for the tests, which have their own.
///
/// # Safety
///
/// For the system to call: `words` has `count` pointers to strings that end in 0.
#[cfg_attr(not(test), no_mangle)]
unsafe extern "C" fn main(count: c_int, words: *const *const c_char) -> c_int {
    // A write to a pipe without a reader then fails as any other does, and is told as any other.
    // SAFETY: no handler of ours is ever run.
    unsafe { signal(SIGPIPE, SIG_IGN) };
    // SAFETY: as this function asks.
    run::run(unsafe { arguments(count, words) })
}

/// The words of the command line, without the program's name. `std::env` has them as well, but
/// without an ordinary `main` it has them on some systems only.
///
/// # Safety
///
/// As for `main`.
unsafe fn arguments(count: c_int, words: *const *const c_char) -> Vec<OsString> {
    let count = usize::try_from(count).unwrap_or(0);
    (1..count)
        .map(|i| {
            // SAFETY: as this function asks.
            let word = unsafe { CStr::from_ptr(*words.add(i)) };
            OsStr::from_bytes(word.to_bytes()).to_owned()
        })
        .collect()
}

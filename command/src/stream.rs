//! Reading and writing by descriptors as the program was given them.
//!
//! `std::io::Stdout` is not used: it takes a closed descriptor for one that swallows everything.

use std::fs::File;
use std::io::{self, Read, Write};
use std::mem::ManuallyDrop;
use std::os::fd::{FromRawFd, RawFd};
use std::path::Path;

/// One byte more than the longest question has, and far more than the longest token, so that a
/// longer input is seen to be too long. More is not read, so that an endless one comes to an end.
const MOST: u64 = pirasteh::QUESTION_MAX as u64 + 1;

const STANDARD_INPUT: RawFd = 0;
const STANDARD_OUTPUT: RawFd = 1;
const STANDARD_ERROR: RawFd = 2;

/// A descriptor as a file that is never closed.
fn standard(descriptor: RawFd) -> ManuallyDrop<File> {
    // SAFETY: nothing else in this program uses the descriptor, and it is never closed. Where it
    // was closed from the start, reading and writing fail, which is what should happen.
    ManuallyDrop::new(unsafe { File::from_raw_fd(descriptor) })
}

fn read(file: &File) -> io::Result<Vec<u8>> {
    let mut bytes = Vec::new();
    file.take(MOST).read_to_end(&mut bytes)?;
    Ok(bytes)
}

/// The bytes of standard input, to the limit.
pub fn read_input() -> io::Result<Vec<u8>> {
    read(&standard(STANDARD_INPUT))
}

/// The bytes of a file, to the limit.
pub fn read_file(name: &Path) -> io::Result<Vec<u8>> {
    read(&File::open(name)?)
}

/// Writes all of the bytes to standard output.
pub fn write_output(bytes: &[u8]) -> io::Result<()> {
    (&*standard(STANDARD_OUTPUT)).write_all(bytes)
}

/// Writes the bytes to standard error. Where that fails there is nobody left to tell; the exit
/// status still says what happened.
pub fn write_error(bytes: &[u8]) {
    let _ = (&*standard(STANDARD_ERROR)).write_all(bytes);
}

//! Memory between two zones that may not be touched. Bytes that are put at its very end or
//! beginning cannot be read past that end without a fault; elsewhere, and on the other side,
//! there are guard bytes. Linux only.

use std::ffi::{c_int, c_void};
use std::sync::atomic::{AtomicU64, Ordering};

extern "C" {
    fn mmap(
        at: *mut c_void,
        length: usize,
        access: c_int,
        flags: c_int,
        file: c_int,
        offset: i64,
    ) -> *mut c_void;
    fn mprotect(at: *mut c_void, length: usize, access: c_int) -> c_int;
    fn signal(number: c_int, handler: extern "C" fn(c_int)) -> usize;
    fn write(file: c_int, bytes: *const u8, length: usize) -> isize;
    fn _exit(code: c_int) -> !;
}

const NO_ACCESS: c_int = 0;
const READ_AND_WRITE: c_int = 3;
const PRIVATE_AND_ANONYMOUS: c_int = 0x22;
/// A multiple of every page size that Linux has.
const ZONE: usize = 65_536;
/// As many guard bytes are on each side, where there is room.
const GUARD: usize = 64;

pub struct Fence {
    room: &'static mut [u8],
}

/// Where some bytes were put, and what the guard bytes around them are.
#[derive(Clone, Copy)]
pub struct Spot {
    at: usize,
    length: usize,
    guard: u8,
}

impl Fence {
    /// Room for at least `length` bytes, for as long as the program runs.
    pub fn new(length: usize) -> Fence {
        let length = length.div_ceil(ZONE) * ZONE;
        // SAFETY: a mapping of our own, of which only the middle is ever made into a slice.
        unsafe {
            let all = mmap(
                std::ptr::null_mut(),
                length + 2 * ZONE,
                NO_ACCESS,
                PRIVATE_AND_ANONYMOUS,
                -1,
                0,
            );
            assert!(all as isize != -1, "no memory for a fence");
            let middle = all.cast::<u8>().add(ZONE);
            assert_eq!(mprotect(middle.cast(), length, READ_AND_WRITE), 0, "no fence");
            Fence { room: std::slice::from_raw_parts_mut(middle, length) }
        }
    }

    /// Puts bytes at the end of the room, at its beginning, or somewhere between, by `dice`.
    pub fn put(&mut self, bytes: &[u8], dice: u64) -> Spot {
        let slack = self.room.len() - bytes.len();
        let at = match dice % 4 {
            0 | 1 => slack,
            2 => 0,
            _ => (GUARD + (dice >> 8) as usize % 16).min(slack),
        };
        let guard = [0x00, 0xFF, 0x01, 0x5A][(dice >> 2) as usize % 4];
        let spot = Spot { at, length: bytes.len(), guard };
        let (before, after) = self.around(spot);
        self.room[before..at].fill(guard);
        self.room[at..at + bytes.len()].copy_from_slice(bytes);
        self.room[at + bytes.len()..after].fill(guard);
        spot
    }

    fn around(&self, spot: Spot) -> (usize, usize) {
        let after = (spot.at + spot.length + GUARD).min(self.room.len());
        (spot.at.saturating_sub(GUARD), after)
    }

    pub fn bytes(&self, spot: Spot) -> &[u8] {
        &self.room[spot.at..spot.at + spot.length]
    }

    pub fn bytes_mut(&mut self, spot: Spot) -> &mut [u8] {
        &mut self.room[spot.at..spot.at + spot.length]
    }

    /// The bytes are these, and the guards are as they were.
    pub fn holds(&self, spot: Spot, bytes: &[u8]) -> bool {
        let (before, after) = self.around(spot);
        let is_guard = |part: &[u8]| part.iter().all(|&byte| byte == spot.guard);
        self.bytes(spot) == bytes
            && is_guard(&self.room[before..spot.at])
            && is_guard(&self.room[spot.at + spot.length..after])
    }
}

/// The case under way, for `on_fault`.
pub static SEED: AtomicU64 = AtomicU64::new(0);
pub static CASE: AtomicU64 = AtomicU64::new(0);

/// From now on a fault names the case under way before the program ends with 1.
pub fn name_faults() {
    const ILLEGAL: c_int = 4;
    const ABORT: c_int = 6;
    const BUS: c_int = 7;
    const SEGMENT: c_int = 11;
    for number in [ILLEGAL, ABORT, BUS, SEGMENT] {
        // SAFETY: the handler calls only what a handler may.
        unsafe { signal(number, on_fault) };
    }
}

extern "C" fn on_fault(_: c_int) {
    say(b"fault: the library read or wrote where it may not, or stopped.\nagain: compare --seed ");
    say_number(SEED.load(Ordering::Relaxed));
    say(b" --only ");
    say_number(CASE.load(Ordering::Relaxed));
    say(b"\n");
    // SAFETY: ends the program.
    unsafe { _exit(1) }
}

fn say(bytes: &[u8]) {
    // SAFETY: a write of live bytes.
    unsafe { write(2, bytes.as_ptr(), bytes.len()) };
}

fn say_number(mut number: u64) {
    let mut digits = [0; 20];
    let mut at = digits.len();
    loop {
        at -= 1;
        digits[at] = b'0' + (number % 10) as u8;
        number /= 10;
        if number == 0 {
            break;
        }
    }
    say(&digits[at..]);
}

//! The numbers of a record or of a question file, as they stand there.
//!
//! Written once more, for the reference keeps its own to itself and stops at a bad one.

use pirasteh_cases::make;
use pirasteh_cases::numbers::Form;
use std::ops::Range;

/// A number, good or bad.
#[derive(Debug)]
pub struct Number {
    pub bits: u32,
    pub at: usize,
    pub length: usize,
    /// What its groups make together, as far as there is room.
    pub value: u128,
    last: Option<u8>,
    /// Its place among the words of an identity, and how many these are.
    pub word: Option<(usize, usize)>,
}

/// More groups do not fit a `u128`.
const MOST_GROUPS: usize = 18;

impl Number {
    /// The number at this place. It goes on to its last byte, or to the end.
    pub fn read(bytes: &[u8], at: usize, bits: u32) -> Number {
        let rest = &bytes[at..];
        let last = rest.iter().position(|byte| byte & 0x80 == 0);
        let length = last.map_or(rest.len(), |last| last + 1);
        let mut value = 0;
        for (place, byte) in rest[..length].iter().take(MOST_GROUPS).enumerate() {
            value |= u128::from(byte & 0x7F) << (7 * place);
        }
        Number { bits, at, length, value, last: last.map(|last| rest[last]), word: None }
    }

    pub fn end(&self) -> usize {
        self.at + self.length
    }

    /// What is wrong with it, with the size.
    pub fn fault(&self) -> Option<(Form, usize)> {
        let Some(last) = self.last else { return Some((Form::Cut, self.length)) };
        if last == 0 && self.length > 1 {
            Some((Form::Long, self.length))
        } else if self.length > self.bits.div_ceil(7) as usize {
            Some((Form::Many, self.length))
        } else if self.value >> self.bits != 0 {
            Some((Form::Wide, (u128::BITS - self.value.leading_zeros()) as usize))
        } else {
            None
        }
    }

    /// The bytes with a good number in its place: what is left of it within its width.
    pub fn mended(&self, bytes: &[u8]) -> Vec<u8> {
        let low = self.value & ((1 << self.bits) - 1);
        [&bytes[..self.at], &make::sevens(low as u64), &bytes[self.end()..]].concat()
    }
}

/// Reads on to the first bad number, which is then the last that it has.
pub struct Walk<'a> {
    bytes: &'a [u8],
    at: usize,
    numbers: Vec<Number>,
}

impl Walk<'_> {
    pub fn of_record(bytes: &[u8]) -> Vec<Number> {
        let mut walk = Walk { bytes, at: 0, numbers: Vec::new() };
        walk.record();
        walk.numbers
    }

    /// The file's own numbers, and where its token is, as far as it goes.
    pub fn of_file(bytes: &[u8]) -> (Vec<Number>, Range<usize>) {
        let mut walk = Walk { bytes, at: 0, numbers: Vec::new() };
        let token = walk.file().unwrap_or_default();
        (walk.numbers, token)
    }

    fn next(&mut self, bits: u32) -> Option<usize> {
        let number = Number::read(self.bytes, self.at, bits);
        self.at = number.end();
        let value = number.fault().is_none().then_some(number.value as usize);
        self.numbers.push(number);
        value
    }

    fn identity(&mut self) -> Option<()> {
        let words = self.next(32)?;
        self.next(48)?;
        for place in 0..words {
            let value = self.next(32);
            if let Some(number) = self.numbers.last_mut() {
                number.word = Some((place, words));
            }
            value?;
        }
        Some(())
    }

    fn record(&mut self) -> Option<()> {
        self.next(32)?;
        let flags = self.next(32)?;
        self.next(64)?;
        self.identity()?;
        for _ in 0..self.next(32)? {
            self.identity()?;
            self.next(32)?;
        }
        if flags & 1 != 0 {
            self.identity()?;
            for _ in 0..self.next(32)? {
                self.identity()?;
            }
        }
        Some(())
    }

    fn part(&mut self) -> Option<Range<usize>> {
        let length = self.next(32)?;
        let part = self.at..self.at + length;
        self.at = part.end;
        (part.end <= self.bytes.len()).then_some(part)
    }

    fn file(&mut self) -> Option<Range<usize>> {
        self.next(32)?;
        self.next(32)?;
        let token = self.part()?;
        for _ in 0..3 {
            self.part()?;
        }
        Some(token)
    }
}

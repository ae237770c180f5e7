//! The bytes of one number: good ones of every length, and bad ones of every form.

use super::{Aim, Form};
use crate::make;
use crate::rng::Rng;

/// A number in so many bytes, whether it takes them or not.
fn in_bytes(value: u128, length: usize) -> Vec<u8> {
    let mut out: Vec<u8> = (0..length).map(|place| (value >> (7 * place)) as u8 | 0x80).collect();
    if let Some(last) = out.last_mut() {
        *last &= 0x7F;
    }
    out
}

/// A good number of so many bytes: the smallest, the largest, the next, or any.
fn of_length(rng: &mut Rng, bits: u32, length: usize) -> u64 {
    let smallest = if length == 1 { 0 } else { 1u128 << (7 * (length - 1)) };
    let largest = (1u128 << (7 * length).min(bits as usize)) - 1;
    let value = match rng.below(4) {
        0 => smallest,
        1 => largest,
        2 => smallest + 1,
        _ => smallest + u128::from(rng.u64()) % (largest - smallest + 1),
    };
    value as u64
}

/// A good number of any length.
pub fn any(rng: &mut Rng, bits: u32) -> u64 {
    let most = bits.div_ceil(7) as usize;
    match rng.below(4) {
        0 => 1 << rng.below(bits as usize),
        1 => of_length(rng, bits, 1),
        _ => {
            let length = 1 + rng.below(most);
            of_length(rng, bits, length)
        }
    }
}

impl Aim {
    /// A number of this form, if it is a good one.
    pub fn value(self, rng: &mut Rng) -> Option<u64> {
        match self.form {
            Form::Good | Form::Last => Some(of_length(rng, self.door.bits, self.size)),
            Form::Bit => Some(1 << self.size),
            Form::Long | Form::Wide | Form::Many | Form::Cut => None,
        }
    }

    /// The bytes of this form for a number that is good. A careless reader takes those of a bad
    /// form for the number itself, or for its lower groups.
    pub fn bytes(self, rng: &mut Rng, value: u64) -> Vec<u8> {
        let (size, bits) = (self.size, self.door.bits);
        let low = |bits: usize| (1u128 << bits) - 1;
        let good = u128::from(value);
        match self.form {
            Form::Good | Form::Last | Form::Bit => make::sevens(value),
            Form::Long => in_bytes(good & low(7 * (size - 1)), size),
            Form::Wide => {
                let more = if rng.one_in(2) { u128::from(rng.u64()) << bits } else { 0 };
                in_bytes(good | 1 << (size - 1) | more & low(size - 1), self.door.most())
            }
            Form::Many => {
                let top: u128 = rng.of(&[1, 1, 2, 0x10, 0x40, 0x7F]);
                in_bytes(good | top << (7 * (size - 1)), size)
            }
            Form::Cut => in_bytes(good, size + 1)[..size].to_vec(),
        }
    }
}

#[cfg(test)]
mod tests {
    use super::*;
    use crate::numbers::{Door, Place, DOORS};

    #[test]
    fn each_form_is_made_as_it_is_named() {
        let rng = &mut Rng::new(1, 1);
        let door = Door { place: Place::Record, bits: 32 };
        let mut made = |form, size| Aim { door, form, size }.bytes(rng, 5);
        assert_eq!(made(Form::Good, 1), [5]);
        assert_eq!(made(Form::Long, 2), [0x85, 0]);
        assert_eq!(made(Form::Long, 6), [0x85, 0x80, 0x80, 0x80, 0x80, 0]);
        assert_eq!(made(Form::Wide, 33), [0x85, 0x80, 0x80, 0x80, 0x10]);
        assert_eq!(made(Form::Many, 6)[..5], [0x85, 0x80, 0x80, 0x80, 0x80]);
        assert!(made(Form::Cut, 0).is_empty());
        assert_eq!(made(Form::Cut, 2), [0x85, 0x80]);
    }

    #[test]
    fn good_numbers_have_the_length_that_is_asked_for() {
        let rng = &mut Rng::new(1, 2);
        for door in DOORS {
            for length in door.sizes(Form::Good).cycle().take(1_000) {
                let number = make::sevens(of_length(rng, door.bits, length));
                assert_eq!(number.len(), length, "{door:?}: {number:02x?}");
            }
        }
    }
}

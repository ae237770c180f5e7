//! Words of identities that take five bytes in sevens, or nearly do: in the first word, in the last
//! and between, of short identities and of long ones.

use super::bytes::any;
use super::token::{identities, token};
use crate::make::{self, Token};
use crate::random::{Case, Room};
use crate::rng::Rng;

/// How many words the identity has.
pub const LENGTHS: [usize; 4] = [1, 2, 5, 15];
/// Good words: the largest of four bytes, and the smallest and the largest of five.
pub const GOOD: [u32; 3] = [(1 << 28) - 1, 1 << 28, u32::MAX];

/// What the word is to its reader.
#[derive(Clone, Copy, Debug, PartialEq, Eq)]
pub enum Form {
    /// Good, in a record that is listed.
    Listed(u32),
    /// Good, in a listing that is packed.
    Packed(u32),
    /// Five bytes of 33 bits.
    Wide,
    /// Five bytes, and the last of them is 0.
    Long,
    /// The record ends after so many of five bytes.
    Cut(usize),
}

/// A form of one word.
#[derive(Clone, Copy, Debug, PartialEq, Eq)]
pub struct Aim {
    pub place: usize,
    pub length: usize,
    pub form: Form,
}

pub fn aims() -> Vec<Aim> {
    let mut forms = vec![Form::Wide, Form::Long];
    forms.extend(GOOD.map(Form::Listed));
    forms.extend(GOOD.map(Form::Packed));
    forms.extend((1..5).map(Form::Cut));
    let mut all = Vec::new();
    for length in LENGTHS {
        let mut places = vec![0, length / 2, length - 1];
        places.dedup();
        for place in places {
            all.extend(forms.iter().map(|&form| Aim { place, length, form }));
        }
    }
    all
}

/// The case of one turn.
pub fn case(rng: &mut Rng, turn: u64) -> Case {
    thread_local! {
        static AIMS: Vec<Aim> = aims();
    }
    let aim = AIMS.with(|aims| aims[(turn % aims.len() as u64) as usize]);
    let mut token = token(rng, false);
    let which = rng.below(identities(&mut token).len());
    let words: Vec<u32> = (0..aim.length).map(|_| word(rng)).collect();
    *identities(&mut token)[which] = make::sid(any(rng, 48), &words);
    let mut with = |word: u32| -> Token {
        let at = 8 + 4 * aim.place;
        identities(&mut token)[which][at..at + 4].copy_from_slice(&word.to_le_bytes());
        token.clone()
    };
    match aim.form {
        Form::Listed(word) => Case::List(with(word).record(), Room::Exact),
        Form::Packed(word) => Case::Pack(with(word).listing(), Room::Exact),
        bad => {
            let (zero, one) = (with(0).numbers(), with(1).numbers());
            let at = zero.iter().zip(one).position(|(a, b)| *a != b).unwrap_or_default();
            Case::List(spoiled(rng, &zero, at, bad), Room::Fixed(28_021))
        }
    }
}

/// Every other word takes five bytes.
fn word(rng: &mut Rng) -> u32 {
    if rng.one_in(2) {
        rng.u32() | 1 << 28
    } else {
        any(rng, 32) as u32
    }
}

/// The record of these numbers, with a bad one in one place.
fn spoiled(rng: &mut Rng, numbers: &[u64], at: usize, form: Form) -> Vec<u8> {
    let mut all: Vec<Vec<u8>> = numbers.iter().map(|&number| make::sevens(number)).collect();
    let low = if rng.one_in(2) { 0 } else { u64::from(rng.u32()) };
    let mut bad = make::sevens(1 << 32 | low);
    match form {
        Form::Long => bad[4] = 0,
        Form::Cut(length) => {
            bad.truncate(length);
            all.truncate(at + 1);
        }
        _ => {}
    }
    all[at] = bad;
    all.concat()
}

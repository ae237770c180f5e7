//! Numbers in sevens, in every form that their reader has to tell from the others.
//!
//! A form comes in sizes: good numbers of one to five bytes, say. Each size of each form, behind
//! each door of the reader, is an aim. The cases take all aims in turn, so that a short run misses
//! none of them.

mod aimed;
mod bytes;
mod token;
pub mod words;

use crate::random::Case;
use crate::rng::Rng;
pub(crate) use bytes::any;
use std::ops::Range;

/// Where a number stands.
#[derive(Clone, Copy, Debug, PartialEq, Eq)]
pub enum Place {
    /// In a record that is converted.
    Record,
    /// In the token of a question.
    Token,
    /// In a question file, outside its parts.
    File,
}

/// A place, and how wide the numbers are that are read there.
#[derive(Clone, Copy, Debug, PartialEq, Eq)]
pub struct Door {
    pub place: Place,
    pub bits: u32,
}

pub const DOORS: [Door; 7] = [
    Door { place: Place::Record, bits: 32 },
    Door { place: Place::Record, bits: 48 },
    Door { place: Place::Record, bits: 64 },
    Door { place: Place::Token, bits: 32 },
    Door { place: Place::Token, bits: 48 },
    Door { place: Place::Token, bits: 64 },
    Door { place: Place::File, bits: 32 },
];

/// What a number is to its reader. The last four are bad.
#[derive(Clone, Copy, Debug, PartialEq, Eq)]
pub enum Form {
    /// Good, of so many bytes.
    Good,
    /// Good, of so many bytes, and nothing follows.
    Last,
    /// Good, this bit and no other.
    Bit,
    /// So many bytes, and the last of them is 0.
    Long,
    /// So many bits, too many, in as many bytes as the largest good number.
    Wide,
    /// So many bytes, more than that.
    Many,
    /// All ends after so many bytes, and the number does not.
    Cut,
}

pub const FORMS: [Form; 7] =
    [Form::Good, Form::Last, Form::Bit, Form::Long, Form::Wide, Form::Many, Form::Cut];

impl Door {
    /// The bytes of the largest good number.
    pub fn most(self) -> usize {
        self.bits.div_ceil(7) as usize
    }

    /// The sizes that a form has here.
    pub fn sizes(self, form: Form) -> Range<usize> {
        let (bits, most) = (self.bits as usize, self.most());
        match form {
            // The last number of a file is the length of a policy, which is not there then.
            Form::Last if self.place == Place::File => 1..2,
            // Behind the privileges stands the user.
            Form::Last if bits == 64 => 0..0,
            Form::Good | Form::Last => 1..most + 1,
            Form::Bit => 0..bits,
            Form::Long => 2..most + 2,
            Form::Wide => bits + 1..7 * most + 1,
            Form::Many => most + 1..most + 4,
            Form::Cut => 0..most + 2,
        }
    }
}

/// One size of one form behind one door.
#[derive(Clone, Copy, Debug, PartialEq, Eq)]
pub struct Aim {
    pub door: Door,
    pub form: Form,
    pub size: usize,
}

pub fn aims() -> Vec<Aim> {
    let mut all = Vec::new();
    for door in DOORS {
        for form in FORMS {
            all.extend(door.sizes(form).map(|size| Aim { door, form, size }));
        }
    }
    all
}

/// So many turns of each round are listings: the other way to a record of numbers of all lengths.
const LISTINGS: usize = 60;

/// The case of one turn.
pub fn case(rng: &mut Rng, turn: u64) -> Case {
    thread_local! {
        static AIMS: Vec<Aim> = aims();
    }
    AIMS.with(|aims| {
        let turn = turn % (aims.len() + LISTINGS) as u64;
        match aims.get(turn as usize) {
            Some(&aim) => aimed::case(rng, aim),
            None => aimed::listing(rng),
        }
    })
}

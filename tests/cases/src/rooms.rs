//! Tokens whose record or listing has exactly a certain length: those on either side of which a
//! converter may take another room for its work. Good ones, ones that are spoiled at their very
//! end, and ones that break a token rule.
//!
//! As with numbers, the cases take all aims in turn.

mod fill;

use crate::make::{self, Descriptor, Question, Token};
use crate::random::{Case, Room};
use crate::rng::Rng;
use fill::Numbers;

pub const RECORDS: [usize; 8] = [63, 64, 65, 66, 511, 512, 513, 514];
pub const LISTINGS: [usize; 5] = [256, 1020, 1024, 1028, 2052];

/// What a record or a listing is.
#[derive(Clone, Copy, Debug, PartialEq, Eq)]
pub enum Shape {
    Good,
    /// It lacks its end.
    Cut,
    /// Something stands behind its end.
    Extra,
    /// It breaks a token rule.
    Rule,
}

pub const SHAPES: [Shape; 4] = [Shape::Good, Shape::Cut, Shape::Extra, Shape::Rule];

/// Where a record stands. One that is converted has a buffer that is just long enough, or one that
/// is too short.
#[derive(Clone, Copy, Debug, PartialEq, Eq)]
pub enum Door {
    Check,
    File,
    Enough,
    Short,
}

pub const DOORS: [Door; 4] = [Door::Check, Door::File, Door::Enough, Door::Short];

/// How long the buffer is that is lent for a listing's record: by the record, or by twice the
/// listing.
#[derive(Clone, Copy, Debug, PartialEq, Eq)]
pub enum Lent {
    OneShort,
    Exact,
    TwiceLess2,
    TwiceLess1,
    Twice,
    TwiceMore1,
}

pub const LENT: [Lent; 6] = [
    Lent::OneShort,
    Lent::Exact,
    Lent::TwiceLess2,
    Lent::TwiceLess1,
    Lent::Twice,
    Lent::TwiceMore1,
];

impl Lent {
    /// What is refused has no record to go by.
    pub fn fits(self, shape: Shape) -> bool {
        shape == Shape::Good || !matches!(self, Lent::OneShort | Lent::Exact)
    }

    fn room(self, listing: usize) -> Room {
        match self {
            Lent::OneShort => Room::Short(1),
            Lent::Exact => Room::Exact,
            Lent::TwiceLess2 => Room::Fixed(2 * listing - 2),
            Lent::TwiceLess1 => Room::Fixed(2 * listing - 1),
            Lent::Twice => Room::Fixed(2 * listing),
            Lent::TwiceMore1 => Room::Fixed(2 * listing + 1),
        }
    }
}

#[derive(Clone, Copy, Debug, PartialEq, Eq)]
pub enum Aim {
    /// A record. In a small one every number takes one byte, and so its listing is four times as
    /// long, which is as long as it gets.
    Record { length: usize, shape: Shape, small: bool, door: Door },
    /// A listing. In a small one every number takes one byte of the record.
    Listing { length: usize, shape: Shape, small: bool, lent: Lent },
}

pub fn aims() -> Vec<Aim> {
    let mut all = Vec::new();
    for shape in SHAPES {
        for small in [false, true] {
            for length in RECORDS {
                all.extend(DOORS.map(|door| Aim::Record { length, shape, small, door }));
            }
            for length in LISTINGS {
                let lent = LENT.into_iter().filter(|lent| lent.fits(shape));
                all.extend(lent.map(|lent| Aim::Listing { length, shape, small, lent }));
            }
        }
    }
    all
}

/// The case of one turn.
pub fn case(rng: &mut Rng, turn: u64) -> Case {
    thread_local! {
        static AIMS: Vec<Aim> = aims();
    }
    AIMS.with(|aims| match aims[(turn % aims.len() as u64) as usize] {
        Aim::Record { length, shape, small, door } => of_record(rng, length, shape, small, door),
        Aim::Listing { length, shape, small, lent } => {
            let listing = listing(rng, length, shape, small);
            let room = lent.room(listing.len());
            Case::Pack(listing, room)
        }
    })
}

fn of_record(rng: &mut Rng, length: usize, shape: Shape, small: bool, door: Door) -> Case {
    let numbers = if small { Numbers::Small } else { Numbers::Any };
    let by = match shape {
        Shape::Cut => length + 1,
        Shape::Extra => length - 1,
        Shape::Good | Shape::Rule => length,
    };
    let token = fill::token(rng, by, numbers, shape == Shape::Rule);
    let mut record = token.record();
    record.resize(length, if small { rng.of(&[0, 1, 4]) } else { rng.byte() });
    let is_good = shape == Shape::Good;
    match door {
        Door::Check => Case::Check(question(rng, &token, record)),
        Door::File => Case::File(question(rng, &token, record).file()),
        Door::Enough if is_good => Case::List(record, Room::Exact),
        Door::Enough => Case::List(record, Room::Fixed(4 * length)),
        Door::Short if is_good => Case::List(record, Room::Short(1)),
        Door::Short => Case::List(record, Room::Fixed(rng.below(64))),
    }
}

/// A listing of this length, or next to it if it is spoiled by a single byte.
fn listing(rng: &mut Rng, length: usize, shape: Shape, small: bool) -> Vec<u8> {
    // Whole words are missing or too many, or single bytes.
    let words = rng.one_in(2);
    let by = match shape {
        Shape::Cut if words => length + 4,
        Shape::Extra if words => length - 4,
        _ => length,
    };
    // A small token has a quarter of its listing's length. What its numbers are is all the same to
    // the listing.
    let mut token = fill::token(rng, by / 4, Numbers::Small, shape == Shape::Rule);
    if !small {
        let numbers = rng.of(&[Numbers::Any, Numbers::Long]);
        fill::renumber(rng, &mut token, numbers);
    }
    let mut out = token.listing();
    match shape {
        Shape::Cut if !words => out.truncate(length - 1),
        Shape::Extra if !words => out.push(rng.of(&[0, 1, 0xFF])),
        _ => out.resize(length, 0),
    }
    out
}

/// A question about an object whose list names the first and the last identities of the token, each
/// with a right of its own.
fn question(rng: &mut Rng, token: &Token, record: Vec<u8>) -> Question {
    let mut named = vec![&token.user];
    named.extend(token.groups.iter().map(|(group, _)| group).take(1));
    named.extend(token.groups.iter().map(|(group, _)| group).rev().take(2));
    let mut entries: Vec<Vec<u8>> =
        named.iter().enumerate().map(|(place, sid)| make::allow(1 << place, sid)).collect();
    if let Some((package, capabilities)) = &token.confinement {
        entries.push(make::allow(0x13, package));
        entries.extend(capabilities.last().map(|last| make::allow(0xC, last)));
    }
    Question {
        kind: 1 + rng.below(2) as u32,
        mask: rng.of(&[0x0200_0000, 0x3F, 0x7]),
        token: record,
        self_id: vec![],
        descriptor: Descriptor::owned_by(named[named.len() - 1]).dacl(&make::acl(&entries)).bytes(),
        policy: vec![],
    }
}

#[cfg(test)]
mod tests {
    use super::*;

    #[test]
    fn the_lengths_are_as_aimed_at() {
        for (turn, aim) in aims().into_iter().cycle().take(20_000).enumerate() {
            let rng = &mut Rng::new(1, turn as u64);
            let (made, wanted) = match (case(rng, turn as u64), aim) {
                (Case::Check(q), Aim::Record { length, .. }) => (q.token.len(), length),
                (Case::List(record, _), Aim::Record { length, .. }) => (record.len(), length),
                (Case::File(_), Aim::Record { door: Door::File, .. }) => continue,
                // Spoiled by a single byte it is next to it.
                (Case::Pack(listing, _), Aim::Listing { length, .. }) => {
                    ((listing.len() + 1) / 4 * 4, length)
                }
                _ => panic!("another kind of case for {aim:?}"),
            };
            assert_eq!(made, wanted, "{aim:?}");
        }
    }

    #[test]
    fn small_ones_have_numbers_of_one_byte() {
        let rng = &mut Rng::new(1, 1);
        for length in (60..520).chain(60..520) {
            let breaks = rng.one_in(2);
            let token = fill::token(rng, length, Numbers::Small, breaks);
            assert!(token.record().iter().all(|&byte| byte < 0x80));
            assert_eq!(token.listing().len(), 4 * length);
        }
    }
}

//! A token whose record has exactly a certain length.

use crate::make::{self, numbers_of, sevens, Token};
use crate::numbers::any;
use crate::people;
use crate::rng::Rng;

/// How long the numbers of a token are in its record.
#[derive(Clone, Copy, PartialEq, Eq)]
pub enum Numbers {
    /// One byte each.
    Small,
    Any,
    /// As many bytes as they may have, so that the record is longer than the listing.
    Long,
}

impl Numbers {
    fn one(self, rng: &mut Rng, bits: u32) -> u64 {
        match self {
            Numbers::Small => rng.below(128) as u64,
            Numbers::Any => any(rng, bits),
            Numbers::Long => u64::MAX >> (64 - bits) & !(rng.below(4) as u64),
        }
    }

    fn identity(self, rng: &mut Rng, words: usize) -> Vec<u8> {
        let words: Vec<u32> = (0..words).map(|_| self.one(rng, 32) as u32).collect();
        make::sid(self.one(rng, 48), &words)
    }
}

/// Where less is left than this, only a small group leaves enough for one more.
const TIGHT: usize = 37;

/// A token whose record has so many bytes, 60 or more. It keeps the rules, or breaks one.
pub fn token(rng: &mut Rng, length: usize, numbers: Numbers, breaks: bool) -> Token {
    let mut token = base(rng, numbers);
    if breaks {
        break_rule(rng, &mut token);
    }
    let mut left = length - token.record().len();
    while left > 18 {
        let (group, attributes) = if left < TIGHT {
            small_group(rng, 13)
        } else if numbers == Numbers::Small {
            small_group(rng, 16)
        } else {
            let words = 1 + rng.below(4);
            (numbers.identity(rng, words), numbers.one(rng, 32) as u32)
        };
        left -= packed(&group) + sevens(u64::from(attributes)).len();
        put(rng, &mut token, group, attributes);
    }
    // What is left is one group.
    if left > 0 {
        let group = Numbers::Small.identity(rng, left - 3);
        put(rng, &mut token, group, 4);
    }
    token
}

/// The bytes of an identity in a record.
fn packed(sid: &[u8]) -> usize {
    numbers_of(sid).into_iter().map(|number| sevens(number).len()).sum()
}

/// A group of fewer words than this, with numbers of one byte.
fn small_group(rng: &mut Rng, below: usize) -> (Vec<u8>, u32) {
    let words = rng.below(below);
    (Numbers::Small.identity(rng, words), rng.of(&[4, 7, 4, 0x10, 0x14, 0]))
}

fn put(rng: &mut Rng, token: &mut Token, group: Vec<u8>, attributes: u32) {
    let place = if rng.one_in(2) { token.groups.len() } else { rng.below(token.groups.len() + 1) };
    token.groups.insert(place, (group, attributes));
}

/// What stands around the groups: 48 bytes at most.
fn base(rng: &mut Rng, numbers: Numbers) -> Token {
    let words = 1 + rng.below(3);
    let mut token = Token::of(&numbers.identity(rng, words)).privileges(numbers.one(rng, 64));
    if rng.one_in(2) {
        let mut last = Numbers::Small.identity(rng, 1);
        if last == people::owner_rights() || last == people::principal_self() {
            last[8] += 1;
        }
        token = token.confined(&make::sid(15, &[2, 9]), &[&people::all_restricted(), &last]);
    }
    token
}

/// Breaks a rule without a change of the shape.
fn break_rule(rng: &mut Rng, token: &mut Token) {
    let unlike = rng.of(&[0, 1, 2]);
    match (&mut token.confinement, unlike) {
        (None, 0) => token.flags = 2,
        (Some((_, capabilities)), 0) => capabilities[0] = make::sid(15, &[2, 3]),
        (Some((_, capabilities)), 1) => capabilities[1] = people::principal_self(),
        _ => token.groups.push((people::owner_rights(), 4)),
    }
}

/// Gives the user, the groups and the package other numbers, but for identities that break a rule.
/// The listing is as long as before.
pub fn renumber(rng: &mut Rng, token: &mut Token, numbers: Numbers) {
    token.privileges = numbers.one(rng, 64);
    let other = |rng: &mut Rng, sid: &mut Vec<u8>| {
        if *sid != people::owner_rights() {
            *sid = numbers.identity(rng, usize::from(sid[1]));
        }
    };
    other(rng, &mut token.user);
    for (group, attributes) in &mut token.groups {
        other(rng, group);
        *attributes = numbers.one(rng, 32) as u32;
    }
    if let Some((package, _)) = &mut token.confinement {
        other(rng, package);
    }
}

//! Conditions that are as long as they get, by thousands of SIDs and by padding. The answer hangs on
//! the last SID.

use super::cast::Cast;
use super::place::{Pass, Place};
use crate::expressions::*;
use crate::make::{sid, Question};
use crate::rng::Rng;

/// Where the condition stands.
#[derive(Clone, Copy, Debug, PartialEq, Eq)]
pub enum Row {
    /// An applies_to of the longest length, and one byte shorter and longer.
    AppliesTo(usize),
    /// In an entry that nearly fills its list.
    Listed(Pass),
}

pub const LONGEST: usize = 65_536;

pub const ROWS: [Row; 7] = [
    Row::AppliesTo(LONGEST - 1),
    Row::AppliesTo(LONGEST),
    Row::AppliesTo(LONGEST + 1),
    Row::Listed(Pass::Normal),
    Row::Listed(Pass::Confined),
    Row::Listed(Pass::Effective),
    Row::Listed(Pass::Staged),
];

/// What else a list or a descriptor has, at most.
const BESIDE: usize = 2_500;

pub fn question(rng: &mut Rng, row: Row) -> Question {
    let (pass, length) = match row {
        Row::AppliesTo(length) => (Pass::AppliesTo, length),
        Row::Listed(pass) => (pass, 65_532 - BESIDE - 4 * rng.below(200)),
    };
    let cast = Cast::new(rng, pass);
    let place = Place { pass, second: rng.one_in(2) };
    let last = if rng.one_in(2) { cast.member(rng, pass) } else { cast.outsider(rng, pass) };
    let condition = condition(rng, length, &last);
    place.question(rng, &cast, &condition)
}

/// Strangers of one word, and the last of the list; then an operator and zeros.
fn condition(rng: &mut Rng, length: usize, last: &[u8]) -> Vec<u8> {
    let room = length - PREFIX.len() - 5 - 5 - last.len() - 1;
    let count = if rng.one_in(4) { rng.below(3_000) } else { room / 17 };
    let mut sids: Vec<Vec<u8>> = (0..count as u32).map(|i| sid(5, &[1_000_000 + i])).collect();
    sids.push(last.to_vec());
    let mut out = asks(rng.of(&[MEMBER_OF_ANY, NOT_MEMBER_OF_ANY]), &composite(&sids));
    out.resize(length, 0);
    out
}

//! Whether a question is refused for a condition and for nothing else, and where that stands.

use super::holds::{holds, Set};
use super::spots::{self, Spot};
use crate::children;
use crate::who::{Who, OWNER_RIGHTS, PRINCIPAL_SELF};
use pirasteh_cases::conditions::faults::{self, Pair};
use pirasteh_cases::expressions::{always, padded};
use pirasteh_cases::make::Question;

/// The refusal of a broken condition, or of one with another token.
pub fn number(place: faults::Spot, broken: bool) -> u32 {
    match (place, broken) {
        (faults::Spot::Descriptor, true) => 6,
        (faults::Spot::Descriptor, false) => 8,
        (_, true) => 9,
        (_, false) => 10,
    }
}

/// The condition of a refused question that is its only fault: with another it is accepted.
pub fn only_cause(q: &Question, place: faults::Spot) -> Option<Spot<'_>> {
    let all = spots::of(q).into_iter();
    let mut all = all.filter(|spot| spot.place == place);
    all.find(|spot| spot.says(q, &always()).is_some_and(|said| said.is_ok()))
}

/// Whether a question is refused for a broken condition, and, if that is mended, for another token
/// before it or behind it.
pub fn is_pair(q: &Question, pair: Pair) -> bool {
    let all = spots::of(q);
    let refusals = [true, false].map(|broken| number(pair.spots[0], broken));
    if children::ask(q) != Err(refusals[0]) {
        return false;
    }
    let mend = |q: &Question, spot: &Spot| spot.with(q, &padded(always()));
    let broken = all.iter().position(|spot| {
        mend(q, spot).is_some_and(|other| children::ask(&other) == Err(refusals[1]))
    });
    let Some((broken, mended)) = broken.and_then(|at| Some((at, mend(q, &all[at])?))) else {
        return false;
    };
    let rest = spots::of(&mended);
    let Some(other) = rest
        .iter()
        .position(|spot| mend(&mended, spot).is_some_and(|other| children::ask(&other).is_ok()))
    else {
        return false;
    };
    let in_order = (broken < other) == pair.broken_first;
    let places = if pair.broken_first {
        [all[broken].place, rest[other].place]
    } else {
        [rest[other].place, all[broken].place]
    };
    let apart = all[broken].rule != rest[other].rule;
    in_order && places == pair.spots && apart == pair.apart
}

/// Where a condition is judged though its entry says nothing.
pub const IDLE: [&str; 4] = [
    "in an inherit-only entry",
    "in a stranger's entry",
    "in a rule that does not apply",
    "in an entry with mask 0",
];

/// Which of these a refused condition stands in.
pub fn idle(q: &Question, spot: &Spot) -> [bool; 4] {
    let in_list = spot.place != faults::Spot::AppliesTo;
    let applies = || {
        let sections = crate::lists::sections(&q.policy).unwrap_or_default();
        let section = sections.get(5 * spot.rule).map(|at| &q.policy[at.clone()]);
        section.is_none_or(|bytes| bytes.is_empty() || holds(q, Set::Normal, bytes) != Some(false))
    };
    [
        in_list && spot.is_inherit_only(),
        in_list && is_stranger(q, spot.sid()),
        in_list && spot.place != faults::Spot::Descriptor && !applies(),
        in_list && children::mask_of(spot.whole) == 0,
    ]
}

/// Whether a SID is no identity of the token, and no virtual one.
pub fn is_stranger(q: &Question, sid: &[u8]) -> bool {
    let Some(who) = Who::of(q) else { return false };
    sid != OWNER_RIGHTS
        && sid != PRINCIPAL_SELF
        && !who.normal.iter().chain(&who.confined).any(|one| one.sid == sid)
}

//! Whether the answer hangs on a condition as a row says.

use super::holds::{holds, Set};
use super::spots::{self, Spot};
use super::tokens;
use crate::children;
use crate::who::{Who, OWNER_RIGHTS, PRINCIPAL_SELF};
use pirasteh_cases::conditions::faults;
use pirasteh_cases::conditions::truths::Row;
use pirasteh_cases::conditions::{Pass, Place};
use pirasteh_cases::expressions::*;
use pirasteh_cases::make::{deny, Question};
use pirasteh_reference::Verdict;

/// S-1-5-99, who is in no case about conditions.
const NOBODY: [u8; 12] = [1, 1, 0, 0, 0, 0, 0, 5, 99, 0, 0, 0];

/// Whether some condition at the place is of the row, and the answer hangs on it.
pub fn is_row(row: Row, place: Place, q: &Question, answer: Verdict) -> bool {
    let here = match place.pass {
        Pass::Normal | Pass::Confined => faults::Spot::Descriptor,
        Pass::Effective => faults::Spot::Effective,
        Pass::Staged => faults::Spot::Staged,
        Pass::AppliesTo => faults::Spot::AppliesTo,
    };
    let all = spots::of(q);
    let mut all = all.iter().filter(|spot| spot.place == here);
    all.any(|spot| match row {
        Row::SilentOwner | Row::SilentChild => is_silent(row, place, q, spot, answer),
        _ => hangs(place, q, spot, answer).is_some_and(|now| {
            let case = Case { place, q, spot, answer, now };
            case.is(row)
        }),
    })
}

/// What a condition says, if the answer would be another by the opposite.
pub fn hangs(place: Place, q: &Question, spot: &Spot, answer: Verdict) -> Option<bool> {
    let in_list = place.pass != Pass::AppliesTo;
    if in_list && (spot.is_deny() != place.second || spot.is_inherit_only()) {
        return None;
    }
    // In confinement alone the entry has to match.
    if place.pass == Pass::Confined && Who::of(q)?.normal.iter().any(|one| one.sid == spot.sid()) {
        return None;
    }
    let now = holds(q, set_of(place.pass), spot.condition)?;
    let opposite = if now { never() } else { always() };
    let said = spot.says(q, &opposite)?.ok()?;
    let differs = match place.pass {
        Pass::AppliesTo if place.second => said.staged != answer.staged,
        Pass::AppliesTo => said.granted != answer.granted,
        _ => said != answer,
    };
    differs.then_some(now)
}

fn set_of(pass: Pass) -> Set {
    if pass == Pass::Confined {
        Set::Confined
    } else {
        Set::Normal
    }
}

/// A condition on which an answer hangs, and what it says.
struct Case<'a> {
    place: Place,
    q: &'a Question,
    spot: &'a Spot<'a>,
    answer: Verdict,
    now: bool,
}

impl Case<'_> {
    fn is(&self, row: Row) -> bool {
        let condition = self.spot.condition;
        match row {
            Row::Operator(token) => self.hangs_on_operator(token, opposite, |_| true),
            Row::OneOrAll(token) => self.hangs_on_operator(token, other_count, |list| list > 0),
            Row::Empty(token) => self.hangs_on_operator(token, other_count, |list| list == 0),
            Row::FirstSid => self.hangs_on_sid(|sids| sids.first()),
            Row::LastSid => self.hangs_on_sid(|sids| sids.last()),
            Row::DenyOnly => self.is_otherwise_by(Set::Denying),
            Row::Disabled => {
                self.is_otherwise_by(Set::Listed) && !self.is_otherwise_by(Set::Denying)
            }
            Row::OtherPass if self.place.pass == Pass::Confined => {
                self.is_otherwise_by(Set::Normal)
            }
            Row::OtherPass => self.is_otherwise_by(Set::Confined),
            Row::OwnerRights => self.is_otherwise_without(&OWNER_RIGHTS),
            Row::PrincipalSelf => self.is_otherwise_without(&PRINCIPAL_SELF),
            Row::Operands(count) => tokens::depth(condition) == count,
            Row::True => self.now,
            Row::False => !self.now,
            Row::SilentOwner | Row::SilentChild => false,
        }
    }

    /// Whether the answer is another with this condition.
    fn differs(&self, condition: &[u8]) -> bool {
        let said = self.spot.says(self.q, condition);
        said.is_some_and(|said| said.is_ok_and(|said| said != self.answer))
    }

    /// Whether it hangs on an operator of this token, whose list, if it has one, has so many bytes.
    fn hangs_on_operator(
        &self,
        token: u8,
        other: fn(u8) -> Option<u8>,
        list: fn(usize) -> bool,
    ) -> bool {
        let condition = self.spot.condition;
        let all = tokens::of(condition);
        let places = (1..all.len()).filter(|&place| condition[all[place].start] == token);
        let mut places = places.filter(|&place| {
            let before = &all[place - 1];
            !MEMBERS.contains(&token) || list(before.len() - 5)
        });
        places.any(|place| {
            self.differs(&tokens::with_operator(condition, all[place].start, other(token)))
        })
    }

    /// Whether it hangs on one SID of a composite of three or more.
    fn hangs_on_sid(
        &self,
        which: fn(&[std::ops::Range<usize>]) -> Option<&std::ops::Range<usize>>,
    ) -> bool {
        let condition = self.spot.condition;
        let all = tokens::of(condition);
        let mut composites = all.iter().filter(|token| condition[token.start] == COMPOSITE);
        composites.any(|composite| {
            let sids = tokens::inside(condition, composite);
            let one = which(&sids).filter(|_| sids.len() > 2);
            one.is_some_and(|one| self.differs(&tokens::without(condition, composite, one)))
        })
    }

    fn is_otherwise_by(&self, set: Set) -> bool {
        holds(self.q, set, self.spot.condition).is_some_and(|said| said != self.now)
    }

    /// Whether it says otherwise if nobody stands for one of the virtual identities.
    fn is_otherwise_without(&self, sid: &[u8]) -> bool {
        let other = tokens::renamed(self.spot.condition, sid, &NOBODY);
        let set = set_of(self.place.pass);
        holds(self.q, set, &other).is_some_and(|said| said != self.now)
    }
}

/// The operator that says the opposite, of some operands at least. Without a not there is none.
fn opposite(token: u8) -> Option<u8> {
    match token {
        MEMBER_OF => Some(NOT_MEMBER_OF),
        NOT_MEMBER_OF => Some(MEMBER_OF),
        MEMBER_OF_ANY => Some(NOT_MEMBER_OF_ANY),
        NOT_MEMBER_OF_ANY => Some(MEMBER_OF_ANY),
        AND => Some(OR),
        OR => Some(AND),
        _ => None,
    }
}

/// The operator that asks for one SID instead of all, or for all instead of one.
fn other_count(token: u8) -> Option<u8> {
    match token {
        MEMBER_OF => Some(MEMBER_OF_ANY),
        MEMBER_OF_ANY => Some(MEMBER_OF),
        NOT_MEMBER_OF => Some(NOT_MEMBER_OF_ANY),
        _ => Some(NOT_MEMBER_OF),
    }
}

/// Whether an entry for S-1-3-4 is silent, and the answer shows whether it counts.
fn is_silent(row: Row, place: Place, q: &Question, spot: &Spot, answer: Verdict) -> bool {
    let child = row == Row::SilentChild;
    if spot.sid() != OWNER_RIGHTS
        || spot.is_deny() != place.second
        || spot.is_inherit_only() != child
        || holds(q, Set::Normal, spot.condition) != Some(false)
    {
        return false;
    }
    let other = if child {
        // One that denies nothing stands for it, and counts.
        spot.with_entry(q, &deny(0, &OWNER_RIGHTS))
    } else {
        // It names nobody, and does not count.
        let nobody = crate::lists::with_body(spot.whole, &NOBODY, spot.condition);
        spot.with_entry(q, &nobody)
    };
    other.is_some_and(|other| children::ask(&other).is_ok_and(|said| said != answer))
}

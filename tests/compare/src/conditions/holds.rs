//! Whether a condition holds, by this or that set of identities. The reference is asked: a rule that
//! leaves nothing applies by the condition, to a token of these identities.

use crate::children::{self, owner_of};
use crate::who::{One, Who};
use pirasteh_cases::make::{acl, policy, Descriptor, Question, Rule, Token};

/// Who counts as a member.
#[derive(Clone, Copy, PartialEq, Eq)]
pub enum Set {
    /// Those of normal evaluation.
    Normal,
    /// Those of confinement.
    Confined,
    /// Those of normal evaluation who match for deny.
    Denying,
    /// User and groups, whatever their attributes.
    Listed,
}

/// The token of a question, with these alone.
fn token(q: &Question, set: Set) -> Option<Token> {
    let who = Who::of(q)?;
    let enabled = |all: &[One], counts: fn(&One) -> bool| {
        let first = Token::of(&all.first()?.sid);
        let rest = all[1..].iter().filter(|one| counts(one));
        Some(rest.fold(first, |token, one| token.group(&one.sid, 4)))
    };
    match set {
        Set::Normal => enabled(&who.normal, One::allows),
        Set::Confined => enabled(&who.confined, |_| true),
        Set::Denying => enabled(&who.normal, One::denies),
        Set::Listed => enabled(&who.normal, |_| true),
    }
}

/// None if there is no such set, or the condition is refused.
pub fn holds(q: &Question, set: Set, condition: &[u8]) -> Option<bool> {
    let other = Question {
        kind: 1,
        mask: 1,
        token: token(q, set)?.record(),
        self_id: q.self_id.clone(),
        descriptor: Descriptor::owned_by(owner_of(q)?).bytes(),
        policy: policy(&[Rule::of(&acl(&[])).applies_to(condition)]),
    };
    children::ask(&other).ok().map(|answer| answer.granted == 0)
}

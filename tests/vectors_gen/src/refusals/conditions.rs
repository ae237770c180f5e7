//! Conditions that are broken, 6 or 9, and conditions with another token, 8 or 10: each from both
//! sides. What a condition holds is in `shapes`; where it stands, in the other files.

mod descriptors;
mod rules;
mod shapes;

use crate::case::*;
use pirasteh_cases::expressions::*;
use pirasteh_cases::make::{acl, allow, policy, Descriptor, Question, Rule};

const READ: u32 = 0x8000_0000;

pub fn cases() -> Vec<Case> {
    let mut all = Vec::new();
    for (fault, what, condition) in shapes::all() {
        let [in_descriptor, in_policy] = fault.numbers();
        // In an entry it fills whole words. Where zeros behind it would change it, it does.
        all.push(ask(
            &format!("{in_descriptor}: a condition: {what}"),
            in_entry(&condition),
            refused(in_descriptor),
        ));
        all.push(ask(
            &format!("{in_policy}: an applies_to: {what}"),
            in_applies_to(&condition),
            refused(in_policy),
        ));
    }
    all.extend(descriptors::cases());
    all.extend(rules::cases());
    all
}

/// Why a condition is refused.
#[derive(Clone, Copy, PartialEq, Eq)]
enum Fault {
    Broken,
    Other,
}

impl Fault {
    /// The refusals of a descriptor and of a policy.
    fn numbers(self) -> [u32; 2] {
        match self {
            Fault::Broken => [6, 9],
            Fault::Other => [8, 10],
        }
    }
}

/// One that is broken, one with another token, and one that is whole.
fn broken() -> Vec<u8> {
    expression(&[[NOT]])
}

fn other() -> Vec<u8> {
    expression(&[[0xF8]])
}

fn whole() -> Vec<u8> {
    asks(MEMBER_OF, &literal(&u()))
}

fn reading() -> Vec<u8> {
    allow(READ, &u())
}

/// Card c1, where an entry for nobody has this condition.
fn in_entry(condition: &[u8]) -> Question {
    let list = acl(&[reading(), callback_allow(1, &g(), condition)]);
    c1().descriptor(Descriptor::owned_by(&w()).dacl(&list).bytes())
}

/// Card c1 with a rule that applies by this condition, and would narrow nothing.
fn in_applies_to(condition: &[u8]) -> Question {
    let rule = Rule::of(&acl(&[reading()]));
    c1().policy(policy(&[rule.applies_to(condition)]))
}

#[cfg(test)]
mod tests {
    use super::*;

    #[test]
    fn shapes_that_end_where_it_matters_fill_whole_words() {
        for (_, what, condition) in shapes::all() {
            assert!(
                !what.contains("cut off") || condition.len() % 4 == 0,
                "{what}: {} bytes",
                condition.len()
            );
        }
    }
}

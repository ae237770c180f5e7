//! An accepted question once more, with one rule more: anywhere in its policy, and of any shape that
//! is accepted. What normal evaluation and confinement leave is as it was, and no bit is gained.

use crate::children::owner_of;
use crate::lists;
use crate::who::{Who, OWNER_RIGHTS, PRINCIPAL_SELF};
use pirasteh_cases::make::{self, Question, Rule};
use pirasteh_cases::{conditions, expressions, Rng};
use pirasteh_reference::Answer;

/// Each has to be reached: where the rule stands, and what it does.
pub const ROWS: [&str; 8] = [
    "where there was none",
    "before all others",
    "between others",
    "behind all others",
    "and bits are lost by it",
    "and all bits are lost by it",
    "and the flag is raised by it",
    "and nothing is changed by it",
];

/// The first row of what it does.
pub const DID: usize = 4;

pub type Table = [u64; ROWS.len()];

const LONGEST_POLICY: usize = 262_144;
const MOST_RULES: usize = 256;

/// A question with one rule more, its number from 1, and the row of its place. None if there is no
/// room for it.
pub fn twin(q: &Question, rng: &mut Rng) -> Option<(Question, u32, usize)> {
    let old = if q.policy.is_empty() { vec![] } else { lists::sections(&q.policy)? };
    let rules = old.len() / 5;
    let place = rng.below(rules + 1);
    let sections: Vec<&[u8]> = old.into_iter().map(|section| &q.policy[section]).collect();
    let (before, behind) = sections.split_at(5 * place);
    let new = rule(rng, q)?;

    let mut policy = vec![1];
    policy.extend((rules as u32 + 1).to_le_bytes());
    for section in before.iter().chain(&new.sections()).chain(behind) {
        policy.extend((section.len() as u32).to_le_bytes());
        policy.extend(*section);
    }
    let row = match (before.is_empty(), behind.is_empty()) {
        (true, true) => 0,
        (true, false) => 1,
        (false, false) => 2,
        (false, true) => 3,
    };
    let fits = rules < MOST_RULES && policy.len() <= LONGEST_POLICY;
    fits.then_some((Question { policy, ..q.clone() }, place as u32 + 1, row))
}

/// A rule about those whom the question is about.
fn rule(rng: &mut Rng, q: &Question) -> Option<Rule> {
    let who = Who::of(q)?;
    let mut names: Vec<&[u8]> = vec![&OWNER_RIGHTS, &PRINCIPAL_SELF, owner_of(q)?];
    names.extend(who.normal.iter().chain(&who.confined).take(30).map(|one| &one.sid[..]));
    // The user may decide more than all others.
    let user = &who.normal[0].sid;
    names.extend([&user[..]; 6]);
    let some = |rng: &mut Rng| rng.of(&names).to_vec();

    let mut rule = Rule::of(&list(rng, q, &some));
    if rng.one_in(2) {
        rule.staged_dacl = list(rng, q, &some);
    }
    if rng.one_in(4) {
        rule.applies_to = conditions::whole(rng, &some);
    }
    let audit = make::acl(&[make::entry(2, 0xC0, u32::MAX, user)]);
    if rng.one_in(4) {
        rule.effective_sacl.clone_from(&audit);
    }
    if rng.one_in(6) {
        rule.staged_sacl = audit;
    }
    Some(rule)
}

/// A list that the question has already, or one of its own.
fn list(rng: &mut Rng, q: &Question, some: &impl Fn(&mut Rng) -> Vec<u8>) -> Vec<u8> {
    let old = lists::of(q);
    if !old.is_empty() && rng.one_in(3) {
        return rng.pick(&old).bytes.to_vec();
    }
    let mut entries = Vec::new();
    for _ in 0..rng.of(&[0, 1, 1, 2, 3, 4]) {
        let word = rng.u32();
        let mask = rng.of(&[u32::MAX, 0x1000_0000, 0x8000_0000, 0x6_0000, 1, 7, word]);
        let flags = rng.of(&[0, 0, 0, 0x10, 0x08]);
        let deny = rng.one_in(3);
        entries.push(if rng.one_in(4) {
            let condition = conditions::whole(rng, some);
            let kind = if deny { expressions::DENY } else { expressions::ALLOW };
            expressions::callback(kind, flags, mask, &some(rng), &condition)
        } else {
            make::entry(u8::from(deny), flags, mask, &some(rng))
        });
    }
    make::acl(&entries)
}

/// Which of the rows from `DID` on the rule belongs to. The error is something that no rule may do.
pub fn compared(before: Answer, after: Answer) -> Result<[bool; 4], &'static str> {
    if after.asked != before.asked {
        return Err("other bits are asked");
    }
    if (after.normal, after.confined) != (before.normal, before.confined) {
        return Err("what is left before the policy has changed");
    }
    if after.ruled & !before.ruled != 0 || after.granted & !before.granted != 0 {
        return Err("a bit is gained");
    }
    if after.allowed && !before.allowed {
        return Err("it is allowed now");
    }
    // Where it was allowed and is not, other audit entries speak, and those of a staged SACL may
    // differ no more.
    if before.staged && !after.staged && before.allowed == after.allowed {
        return Err("the flag is lowered");
    }
    let lost = after.granted != before.granted;
    Ok([lost, lost && after.granted == 0, after.staged && !before.staged, after == before])
}

/// Whether the events are those of before and of the new rule, which has this number: the rules
/// behind it are counted on. Another answer has other events.
pub fn keeps_events(new: u32, before: (bool, &[[u32; 3]]), after: (bool, &[[u32; 3]])) -> bool {
    if before.0 != after.0 {
        return true;
    }
    let old = after.1.iter().filter(|[source, ..]| *source != new);
    let old = old.map(|&[source, entry, mask]| [source - u32::from(source > new), entry, mask]);
    old.eq(before.1.iter().copied())
}

#[cfg(test)]
mod tests {
    use super::*;
    use crate::children::answer;
    use pirasteh_cases::random::{case, Case};

    #[test]
    fn a_gained_rule_takes_or_flags_and_does_no_more() {
        let mut table = Table::default();
        for number in 0..40_000 {
            let Case::Check(q) = case(3, number) else { continue };
            let Ok(before) = answer(&q) else { continue };
            if let Some((twin, _, row)) = twin(&q, &mut Rng::new(4, number)) {
                let after = answer(&twin).unwrap_or_else(|n| panic!("case {number}: refused {n}"));
                let did = compared(before, after);
                let did = did.unwrap_or_else(|what| panic!("case {number} of seed 3: {what}"));
                table[row] += 1;
                table[DID..]
                    .iter_mut()
                    .zip(did)
                    .for_each(|(times, here)| *times += u64::from(here));
            }
        }
        assert!(table.iter().all(|&times| times > 300), "only {table:?}");
    }

    #[test]
    fn what_no_rule_may_do() {
        let before = Answer {
            asked: 7,
            normal: 7,
            confined: 3,
            ruled: 3,
            granted: 3,
            allowed: false,
            staged: true,
        };
        let fewer = Answer { ruled: 1, granted: 1, ..before };
        assert_eq!(compared(before, before), Ok([false, false, false, true]));
        assert_eq!(compared(before, fewer), Ok([true, false, false, false]));
        assert!(compared(fewer, before).is_err());
        assert!(compared(before, Answer { normal: 3, ..fewer }).is_err());
        assert!(compared(before, Answer { confined: 1, ..fewer }).is_err());
        assert!(compared(before, Answer { asked: 15, ..fewer }).is_err());
        assert!(compared(before, Answer { allowed: true, ..before }).is_err());
        assert!(compared(before, Answer { staged: false, ..before }).is_err());
        let allowed = Answer { allowed: true, ..before };
        assert!(compared(allowed, Answer { staged: false, ..before }).is_ok());
    }

    #[test]
    fn events_of_a_gained_rule() {
        let before = [[0, 3, 1], [1, 0, 7], [2, 4, 1]];
        let after = [[0, 3, 1], [1, 0, 7], [2, 9, 9], [3, 4, 1]];
        assert!(keeps_events(2, (true, &before), (true, &after)));
        assert!(!keeps_events(3, (true, &before), (true, &after)));
        assert!(!keeps_events(2, (true, &before), (true, &before)));
        assert!(keeps_events(4, (true, &before), (true, &before)));
        assert!(keeps_events(4, (true, &before), (false, &[])));
    }
}

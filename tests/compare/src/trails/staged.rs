//! When a staged SACL raises the flag, where nothing else does, and when it does not.

use crate::conditions::holds_for;
use crate::lists::{self, Whose};
use crate::sacls::{self, Sacl};
use pirasteh_cases::make::Question;
use pirasteh_reference::{Answer, Event};

/// The first of these raise the flag, which is clear without staged SACLs.
const ROWS: [&str; 11] = [
    "the flag by staged events, where there is no effective SACL",
    "the flag by staged events, where the effective SACL has none",
    "the flag by a staged SACL without events, where the effective one has some",
    "the flag by the same masks in another order",
    "the flag by one mask more or less",
    "the flag by other masks, as many",
    "no flag, the lists and the masks are the same",
    "no flag, the same masks have other entry numbers",
    "no flag, the lists differ, and neither has events",
    "no flag, there is no staged SACL, and the effective one has events",
    "no flag, the events differ, and the rule does not apply",
];

pub type Table = [u64; ROWS.len()];

/// Entry numbers and masks of the events that a list would raise in the place of the descriptor's
/// SACL. The answer does not depend on it.
fn events(q: &Question, list: &[u8]) -> Vec<(u32, u32)> {
    let other = sacls::rewritten(q, |sacl| match sacl.whose {
        Whose::Descriptor => Some(list.to_vec()),
        _ => None,
    });
    let said = super::ask(other.as_ref().unwrap_or(q));
    let all = said.map_or(vec![], |(_, events)| events);
    all.iter().filter(|event| event.source == 0).map(|event| (event.entry, event.mask)).collect()
}

/// The row of a rule's two SACLs.
fn row(applies: bool, lists: [&[u8]; 2], events: [Vec<(u32, u32)>; 2]) -> Option<usize> {
    let masks = events.each_ref().map(|all| all.iter().map(|event| event.1).collect::<Vec<_>>());
    let sorted = masks.clone().map(|mut all| {
        all.sort_unstable();
        all
    });
    if lists[1].is_empty() {
        return (applies && !masks[0].is_empty()).then_some(9);
    }
    let differ = masks[0] != masks[1];
    if !applies {
        return differ.then_some(10);
    }
    Some(match (differ, masks[0].len(), masks[1].len()) {
        (true, 0, _) if lists[0].is_empty() => 0,
        (true, 0, _) => 1,
        (true, _, 0) => 2,
        (true, ..) if sorted[0] == sorted[1] => 3,
        (true, before, after) if before != after => 4,
        (true, ..) => 5,
        (false, 0, _) if lists[0] != lists[1] => 8,
        (false, 0, _) => return None,
        (false, ..) if events[0] != events[1] => 7,
        (false, ..) => 6,
    })
}

/// Adds the rules of an accepted question, where the flag is what the SACLs make it.
pub fn add(q: &Question, answer: &Answer, trail: &[Event], table: &mut Table) {
    let all = sacls::of(q);
    let some = |sacl: &Sacl| sacl.whose != Whose::Descriptor && !sacl.bytes.is_empty();
    // Of very many rules the first will do. In lists that are very long nothing is looked for.
    if !all.iter().any(some) || trail.len() > 200 {
        return;
    }
    let without = sacls::rewritten(q, |sacl| (sacl.whose == Whose::Staged).then(Vec::new));
    let flagged = without.as_ref().is_some_and(|q| super::ask(q).is_ok_and(|(a, _)| a.staged));
    let sections = lists::sections(&q.policy).unwrap_or_default();
    for pair in all[1..].chunks_exact(2).take(6) {
        let applies = holds_for(q, &q.policy[sections[5 * pair[0].rule].clone()]);
        let lists = [pair[0].bytes, pair[1].bytes];
        if lists.iter().any(|list| list.len() > 4_000) {
            continue;
        }
        let events = lists.map(|list| events(q, list));
        if let Some(row) = row(applies, lists, events) {
            let fits = if row < 6 { answer.staged && !flagged } else { !answer.staged };
            table[row] += u64::from(fits);
        }
    }
}

pub fn unreached(table: &Table) -> Vec<String> {
    let none = ROWS.iter().zip(table).filter(|(_, &times)| times == 0);
    none.map(|(row, _)| format!("a rule's SACLs: {row}")).collect()
}

pub fn print(table: &Table) {
    println!("  effective and staged SACLs of a rule:");
    for (row, times) in ROWS.iter().zip(table) {
        println!("  {times:9}  {row}");
    }
}

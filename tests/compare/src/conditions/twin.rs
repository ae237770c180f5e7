//! An accepted question once more, with other conditions in strangers' entries: such an entry
//! remains a stranger's with any condition.

use super::faults::is_stranger;
use crate::children::sid_of;
use crate::lists::{self, entries, is_callback, List};
use crate::who::{OWNER_RIGHTS, PRINCIPAL_SELF};
use pirasteh_cases::expressions::{self, padded};
use pirasteh_cases::make::Question;
use pirasteh_cases::{conditions, Rng};

/// What is done to the strangers' callback entries of a question.
#[derive(Clone, Copy)]
pub enum Way {
    Others,
    PutIn,
    TakenOut,
}

/// None if there is nothing to change, or no room for it.
pub fn twin(q: &Question, rng: &mut Rng) -> Option<(Question, Way)> {
    let way = rng.of(&[Way::Others, Way::Others, Way::PutIn, Way::TakenOut]);
    Some((lists::rewritten(q, |list| changed(rng, way, q, list))?, way))
}

/// A list with other callback entries of strangers.
fn changed(rng: &mut Rng, way: Way, q: &Question, list: &List) -> Option<Vec<u8>> {
    let all = entries(list.bytes)?.into_iter().map(|at| &list.bytes[at]);
    let all: Vec<&[u8]> = all.collect();
    // Whom conditions name: mostly somebody of the list.
    let mut names: Vec<&[u8]> = vec![&OWNER_RIGHTS, &PRINCIPAL_SELF];
    names.extend(all.iter().take(20).map(|entry| sid_of(entry)).filter(|sid| !sid.is_empty()));
    let condition = |rng: &mut Rng| padded(conditions::whole(rng, &|rng| rng.of(&names).to_vec()));
    let mut new: Vec<Vec<u8>> = Vec::new();
    for entry in &all {
        if !is_callback(entry) || !is_stranger(q, sid_of(entry)) {
            new.push(entry.to_vec());
            continue;
        }
        match way {
            Way::Others => new.push(lists::with_body(entry, sid_of(entry), &condition(rng))),
            Way::PutIn => new.push(entry.to_vec()),
            Way::TakenOut => {}
        }
    }
    if let Way::PutIn = way {
        let who = stranger(rng, q, &all)?;
        let kind = rng.of(&[expressions::ALLOW, expressions::DENY]);
        let mask = rng.of(&[u32::MAX, 0x1000_0000, 7, 0]);
        let place = rng.below(new.len() + 1);
        let entry = expressions::callback(kind, rng.of(&[0, 0x10]), mask, &who, &condition(rng));
        new.insert(place, entry);
    }
    lists::with_entries(list.bytes, &new)
}

/// A stranger whom the list names, or the next one to somebody whom it names.
fn stranger(rng: &mut Rng, q: &Question, all: &[&[u8]]) -> Option<Vec<u8>> {
    let mut sid = sid_of(all.get(rng.below(all.len().max(1)))?).to_vec();
    if sid.is_empty() || !is_stranger(q, &sid) {
        *sid.last_mut()? ^= 1 << rng.below(8);
    }
    is_stranger(q, &sid).then_some(sid)
}

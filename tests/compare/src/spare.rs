//! Spare bytes behind the SIDs of allow and deny entries: where a question has some, and the same
//! question with others. They never alter an answer.

use crate::lists::{self, end_of_sid, entries, is_callback, List, Whose};
use pirasteh_cases::make::Question;
use pirasteh_cases::Rng;
use pirasteh_reference as reference;
use std::ops::Range;

/// What there is in the entries of an accepted question.
#[derive(Default)]
pub struct Seen {
    /// Spare bytes behind a SID, in each kind of list.
    pub descriptor: bool,
    pub effective: bool,
    pub staged: bool,
    /// The size of the longest entry.
    pub longest: usize,
}

/// What there is in the entries of an accepted question.
pub fn seen(q: &Question) -> Seen {
    let mut seen = Seen::default();
    for list in lists::of(q) {
        let found = match list.whose {
            Whose::Descriptor => &mut seen.descriptor,
            Whose::Effective => &mut seen.effective,
            Whose::Staged => &mut seen.staged,
        };
        for entry in entries(list.bytes).unwrap_or_default() {
            seen.longest = seen.longest.max(entry.len());
            let whole = &list.bytes[entry.clone()];
            *found |= !is_callback(whole) && end_of_sid(whole).is_some_and(|end| end < entry.len());
        }
    }
    seen
}

/// Whether a question that is refused with `number`, 6 or 9, has no other fault of that number than
/// SIDs that end behind their entries, though inside their lists: the reference gives another
/// answer if these entries are of a type whose body is not judged.
pub fn refused_by_end_of_sid(q: &Question, number: u32) -> bool {
    let in_descriptor = number == reference::refused::DESCRIPTOR_SHAPE;
    let mut other = q.clone();
    let part = if in_descriptor { &mut other.descriptor } else { &mut other.policy };
    let mut found = false;
    for list in lists::of(q) {
        if in_descriptor != (list.whose == Whose::Descriptor) {
            continue;
        }
        for entry in entries(list.bytes).unwrap_or_default() {
            let end = end_of_sid(&list.bytes[entry.clone()]).unwrap_or(0);
            if end > entry.len() && entry.start + end <= list.bytes.len() {
                part[list.at + entry.start] = 5;
                found = true;
            }
        }
    }
    found
        && reference::check(
            other.kind,
            other.mask,
            &other.token,
            &other.self_id,
            &other.descriptor,
            &other.policy,
        ) != Err(number)
}

/// What is done to the spare bytes of a question.
#[derive(Clone, Copy)]
enum Way {
    TakenOut,
    Others,
    SameLength,
}

/// An accepted question once more, with other spare bytes behind the SIDs of its entries. None if
/// there is nothing to change, or no room for it.
pub fn twin(q: &Question, rng: &mut Rng) -> Option<Question> {
    let way = rng.of(&[Way::TakenOut, Way::Others, Way::Others, Way::SameLength]);
    lists::rewritten(q, |list| changed(rng, way, list))
}

/// A list with other spare bytes in its entries.
fn changed(rng: &mut Rng, way: Way, list: &List) -> Option<Vec<u8>> {
    let old = entries(list.bytes)?;
    // Once in a while one of the entries gets very many.
    let long = if rng.one_in(60) { rng.below(old.len().max(1)) } else { usize::MAX };
    let mut new = Vec::new();
    for (number, entry) in old.iter().enumerate() {
        let whole = &list.bytes[entry.clone()];
        // What a callback entry has behind its SID is no spare.
        let end = end_of_sid(whole).filter(|&end| end <= whole.len() && !is_callback(whole));
        let Some(end) = end else {
            new.push(whole.to_vec());
            continue;
        };
        let length = match way {
            Way::TakenOut => 0,
            Way::SameLength => whole.len() - end,
            Way::Others if number == long => 4 * rng.below(16_000),
            Way::Others => 4 * rng.of(&[0, 0, 1, 2, 3, 4, 5, 6, 10, 19]),
        };
        let stuff = stuff(rng, list.bytes, &old);
        let size = ((end + length) as u16).to_le_bytes();
        let mut other = vec![whole[0], whole[1], size[0], size[1]];
        other.extend(&whole[4..end]);
        other.extend(stuff.iter().cycle().take(length));
        new.push(other);
    }
    lists::with_entries(list.bytes, &new)
}

/// What spare bytes are made of: nothing much, or an entry of the list that decides much.
fn stuff(rng: &mut Rng, bytes: &[u8], entries: &[Range<usize>]) -> Vec<u8> {
    match rng.below(6) {
        0 => vec![0],
        1 => vec![0xFF],
        2 => rng.bytes(24),
        _ => {
            let mut stuff = bytes[rng.pick(entries).clone()].to_vec();
            let Some(end) = end_of_sid(&stuff).filter(|&end| end <= stuff.len()) else {
                return stuff;
            };
            stuff.truncate(end);
            stuff[..4].copy_from_slice(&[rng.of(&[0, 1]), 0, end as u8, 0]);
            stuff[4..8].copy_from_slice(&[0xFF; 4]);
            stuff
        }
    }
}

#[cfg(test)]
mod tests {
    use super::*;
    use crate::children::answer;
    use pirasteh_cases::random::{case, Case};

    #[test]
    fn a_twin_has_the_same_answer_and_other_spare_bytes() {
        let mut twins = 0;
        for number in 0..40_000 {
            let Case::Check(q) = case(3, number) else { continue };
            let before = answer(&q);
            if before.is_err() {
                continue;
            }
            if let Some(twin) = twin(&q, &mut Rng::new(4, number)) {
                twins += 1;
                assert_eq!(answer(&twin), before, "case {number} of seed 3");
            }
        }
        assert!(twins > 5_000, "only {twins}");
    }
}

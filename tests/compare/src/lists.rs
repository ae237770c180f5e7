//! The DACLs of a question, and the same question with others in their places.
//!
//! What is read here is read by headers and sizes. Whether a question is well shaped is not judged.

use pirasteh_cases::make::Question;
use std::ops::Range;

/// Whose a list is.
#[derive(Clone, Copy, Debug, PartialEq, Eq)]
pub enum Whose {
    Descriptor,
    Effective,
    Staged,
}

/// One list of a question.
#[derive(Clone, Copy)]
pub struct List<'a> {
    pub whose: Whose,
    /// Where it begins, in the descriptor or in the policy.
    pub at: usize,
    pub bytes: &'a [u8],
}

fn u16_at(bytes: &[u8], at: usize) -> Option<usize> {
    let two = bytes.get(at..at + 2)?;
    Some(usize::from(u16::from_le_bytes([two[0], two[1]])))
}

pub fn u32_at(bytes: &[u8], at: usize) -> Option<usize> {
    let four = bytes.get(at..at.checked_add(4)?)?;
    Some(u32::from_le_bytes([four[0], four[1], four[2], four[3]]) as usize)
}

/// The list that begins at `at`.
pub fn list_at(whose: Whose, bytes: &[u8], at: usize) -> Option<List<'_>> {
    let size = u16_at(bytes, at.checked_add(2)?)?;
    let bytes = bytes.get(at..at + size)?;
    (size >= 8).then_some(List { whose, at, bytes })
}

/// The sections of a policy, five for each rule, without their lengths.
pub fn sections(policy: &[u8]) -> Option<Vec<Range<usize>>> {
    let mut all = Vec::new();
    let mut at = 5;
    for _ in 0..5 * u32_at(policy, 1)?.min(256) {
        let section = at + 4..at + 4 + u32_at(policy, at)?;
        at = section.end;
        all.push(section);
    }
    (at == policy.len()).then_some(all)
}

/// The DACLs of a question, as far as they can be found: one in the descriptor, others in the
/// policy.
pub fn of(q: &Question) -> Vec<List<'_>> {
    let d = &q.descriptor;
    let mut all = Vec::new();
    if d.len() >= 20 && d[2] & 0x04 != 0 {
        all.extend(u32_at(d, 16).and_then(|at| list_at(Whose::Descriptor, d, at)));
    }
    for rule in sections(&q.policy).unwrap_or_default().chunks(5) {
        all.extend(list_at(Whose::Effective, &q.policy, rule[1].start));
        if !rule[3].is_empty() {
            all.extend(list_at(Whose::Staged, &q.policy, rule[3].start));
        }
    }
    all
}

/// The entries of a list, by their places in it.
pub fn entries(list: &[u8]) -> Option<Vec<Range<usize>>> {
    let mut all = Vec::new();
    let mut at = 8;
    for _ in 0..u16_at(list, 4)? {
        let entry = at..at + u16_at(list, at + 2)?;
        if entry.len() < 4 || entry.end > list.len() {
            return None;
        }
        at = entry.end;
        all.push(entry);
    }
    Some(all)
}

/// How far the SID of an allow or deny entry goes, from the beginning of the entry. It may have a
/// condition.
pub fn end_of_sid(entry: &[u8]) -> Option<usize> {
    let is_read = matches!(entry, [0 | 1 | 9 | 10, ..]);
    let is_read = is_read && entry.len() >= 16 && entry[8] == 1 && entry[9] <= 15;
    is_read.then(|| 16 + 4 * usize::from(entry[9]))
}

/// Whether an allow or deny entry has a condition behind its SID, and no spare bytes.
pub fn is_callback(entry: &[u8]) -> bool {
    matches!(entry, [9 | 10, ..])
}

/// The entry with another SID, and with other bytes behind that.
pub fn with_body(entry: &[u8], sid: &[u8], behind: &[u8]) -> Vec<u8> {
    let mut out = [&entry[..8], sid, behind].concat();
    let size = out.len() as u16;
    out[2..4].copy_from_slice(&size.to_le_bytes());
    out
}

/// A list with these entries in place of its own. What stands behind the last stays as it was. None
/// if it would be too long for a list.
pub fn with_entries(list: &[u8], new: &[Vec<u8>]) -> Option<Vec<u8>> {
    let behind = entries(list)?.last().map_or(8, |entry| entry.end);
    let mut out = [&list[..8], &new.concat(), &list[behind..]].concat();
    let size = u16::try_from(out.len()).ok()?;
    let count = u16::try_from(new.len()).ok()?;
    out[2..4].copy_from_slice(&size.to_le_bytes());
    out[4..6].copy_from_slice(&count.to_le_bytes());
    Some(out)
}

/// A question once more, with another applies_to in the rule of this number.
pub fn with_applies_to(q: &Question, rule: usize, applies_to: &[u8]) -> Option<Question> {
    let mut other = q.clone();
    other.policy.truncate(5);
    for (number, section) in sections(&q.policy)?.into_iter().enumerate() {
        let bytes = if number == 5 * rule { applies_to } else { &q.policy[section] };
        other.policy.extend((bytes.len() as u32).to_le_bytes());
        other.policy.extend(bytes);
    }
    Some(other)
}

const LONGEST_LIST: usize = 65_535;
const LONGEST_DESCRIPTOR: usize = 65_535;
const LONGEST_POLICY: usize = 262_144;

/// An accepted question once more, with other DACLs where `change` gives one. None if there is
/// nothing to change, or no room for it.
pub fn rewritten(
    q: &Question,
    mut change: impl FnMut(&List) -> Option<Vec<u8>>,
) -> Option<Question> {
    let lists = of(q);
    let mut changed = |list: &List, room: usize| {
        change(list).filter(|new| new.len() <= room && new != list.bytes)
    };
    let mut other = q.clone();
    if let Some(list) = lists.iter().find(|list| list.whose == Whose::Descriptor) {
        // The new list stands behind all else, so that parts which share bytes with the old one
        // stay as they are.
        let at = other.descriptor.len();
        if let Some(new) = changed(list, LONGEST_DESCRIPTOR.saturating_sub(at)) {
            other.descriptor.extend(new);
            other.descriptor[16..20].copy_from_slice(&(at as u32).to_le_bytes());
        }
    }
    let mut of_rules = lists.iter().filter(|list| list.whose != Whose::Descriptor).peekable();
    if of_rules.peek().is_some() {
        other.policy.truncate(5);
        for section in sections(&q.policy)? {
            let list = of_rules.next_if(|list| list.at == section.start);
            let new = list.and_then(|list| changed(list, LONGEST_LIST));
            let new = new.as_deref().unwrap_or(&q.policy[section]);
            other.policy.extend((new.len() as u32).to_le_bytes());
            other.policy.extend(new);
        }
        if other.policy.len() > LONGEST_POLICY {
            other.policy.clone_from(&q.policy);
        }
    }
    (other.descriptor != q.descriptor || other.policy != q.policy).then_some(other)
}

//! The SACLs of a question, and the same question with others in their places.
//!
//! What is read here is read by headers and sizes. Whether a question is well shaped is not judged.

use crate::lists::{self, u32_at, Whose};
use pirasteh_cases::make::Question;

/// One SACL of a question.
#[derive(Clone, Copy)]
pub struct Sacl<'a> {
    pub whose: Whose,
    /// The number of its rule, from 0.
    pub rule: usize,
    /// Without bytes if it is absent.
    pub bytes: &'a [u8],
}

impl<'a> Sacl<'a> {
    /// Its entries, each by its bytes.
    pub fn entries(&self) -> Vec<&'a [u8]> {
        if self.bytes.is_empty() {
            return Vec::new();
        }
        let all = lists::entries(self.bytes).unwrap_or_default();
        all.into_iter().map(|at| &self.bytes[at]).collect()
    }
}

/// Which section of a rule it is.
fn section_of(whose: Whose) -> usize {
    if whose == Whose::Effective {
        2
    } else {
        4
    }
}

/// All of them, as far as they can be found: the descriptor's, then two of each rule. Absent ones
/// too.
pub fn of(q: &Question) -> Vec<Sacl<'_>> {
    let mut all = Vec::new();
    let d = &q.descriptor;
    if d.len() >= 20 {
        let there = d[2] & 0x10 != 0;
        let at = u32_at(d, 12).filter(|_| there);
        let list = at.and_then(|at| lists::list_at(Whose::Descriptor, d, at));
        let bytes = list.map_or(&[][..], |list| list.bytes);
        all.push(Sacl { whose: Whose::Descriptor, rule: 0, bytes });
    }
    let sections = lists::sections(&q.policy).unwrap_or_default();
    for (rule, sections) in sections.chunks_exact(5).enumerate() {
        for whose in [Whose::Effective, Whose::Staged] {
            let bytes = &q.policy[sections[section_of(whose)].clone()];
            all.push(Sacl { whose, rule, bytes });
        }
    }
    all
}

const LONGEST_LIST: usize = 65_535;
const LONGEST_DESCRIPTOR: usize = 65_535;
const LONGEST_POLICY: usize = 262_144;

/// A question once more, with other SACLs where `change` gives one; one without bytes is absent.
/// None if there is nothing to change, or no room for it.
pub fn rewritten(
    q: &Question,
    mut change: impl FnMut(&Sacl) -> Option<Vec<u8>>,
) -> Option<Question> {
    let all = of(q);
    let mut changed =
        |sacl: &Sacl| change(sacl).filter(|new| new.len() <= LONGEST_LIST && new != sacl.bytes);
    let mut other = q.clone();
    if let Some(new) = all.first().and_then(&mut changed) {
        // The new list stands behind all else, so that parts which share bytes with the old one
        // stay as they are.
        let at = other.descriptor.len();
        if at + new.len() <= LONGEST_DESCRIPTOR {
            other.descriptor[2] &= !0x10;
            if !new.is_empty() {
                other.descriptor[2] |= 0x10;
                other.descriptor[12..16].copy_from_slice(&(at as u32).to_le_bytes());
                other.descriptor.extend(new);
            }
        }
    }
    let mut of_rules = all.iter().skip(1);
    if all.len() > 1 {
        other.policy.truncate(5);
        for (number, section) in lists::sections(&q.policy)?.into_iter().enumerate() {
            let new = if matches!(number % 5, 2 | 4) {
                of_rules.next().and_then(&mut changed)
            } else {
                None
            };
            let new = new.as_deref().unwrap_or(&q.policy[section]);
            other.policy.extend((new.len() as u32).to_le_bytes());
            other.policy.extend(new);
        }
        if other.policy.len() > LONGEST_POLICY {
            other.policy.clone_from(&q.policy);
        }
    }
    (other.descriptor != q.descriptor || other.policy != q.policy).then_some(other)
}

//! Policies with as many entries as fit.

use crate::named::full_entry;
use crate::people::Sid;
use pirasteh_cases::make::{acl, Rule};

/// The most bytes of a policy and of a list.
pub const POLICY: usize = 262_144;
const LIST: usize = 65_535;
/// The bytes before a list's entries, and before a policy's rules.
const LIST_HEAD: usize = 8;
const POLICY_HEAD: usize = 5;
/// What a rule has beside the entries of its one list: the sizes of five sections, and the head.
const RULE: usize = 5 * 4 + LIST_HEAD;

/// How many entries of this size the lists have, one list in each rule: as long as a list may
/// be, and the last one as long as there is room.
pub fn lists(entry: usize) -> Vec<usize> {
    let most = (LIST - LIST_HEAD) / entry;
    let mut room = POLICY - POLICY_HEAD;
    let mut all = Vec::new();
    while room >= RULE + entry {
        let length = most.min((room - RULE) / entry);
        room -= RULE + length * entry;
        all.push(length);
    }
    all
}

/// Rules with effective lists of these lengths, no stranger in two of them.
pub fn rules(strangers: &[Sid], lengths: &[usize]) -> Vec<Rule> {
    let mut rest = strangers.iter();
    lengths.iter().map(|&length| Rule::of(&list(rest.by_ref().take(length)))).collect()
}

/// Every fourth entry denies.
fn list<'a>(strangers: impl Iterator<Item = &'a Sid>) -> Vec<u8> {
    let entry = |(i, who): (usize, &Sid)| full_entry(u8::from(i % 4 == 3), 0, who, 0);
    acl(&strangers.enumerate().map(entry).collect::<Vec<_>>())
}

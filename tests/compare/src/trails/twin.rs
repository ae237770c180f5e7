//! An accepted question once more, with other entries in its SACLs that change no answer, and no
//! event but for its entry number: strangers' audit entries, entries of other types, inherit-only
//! ones, and spare bytes. Where a list has nothing else left it may be absent; a staged SACL stays
//! where there is one.

use crate::children::is_inherit_only;
use crate::conditions::is_stranger;
use crate::lists::{self, Whose};
use crate::sacls::{self, Sacl};
use pirasteh_cases::audits;
use pirasteh_cases::make::{self, Question};
use pirasteh_cases::Rng;

/// What is done to the entries of a question's SACLs.
#[derive(Clone, Copy, Debug, PartialEq, Eq)]
pub enum Way {
    StrangersPutIn,
    StrangersTakenOut,
    TypesPutIn,
    TypesTakenOut,
    InheritOnly,
    Spare,
}

const WAYS: [Way; 6] = [
    Way::StrangersPutIn,
    Way::StrangersTakenOut,
    Way::TypesPutIn,
    Way::TypesTakenOut,
    Way::InheritOnly,
    Way::Spare,
];

/// None if there is nothing to change, or no room for it.
pub fn twin(q: &Question, rng: &mut Rng) -> Option<(Question, Way)> {
    let way = rng.of(&WAYS);
    Some((sacls::rewritten(q, |sacl| changed(rng, way, q, sacl))?, way))
}

fn sid_of(entry: &[u8]) -> &[u8] {
    &entry[8..16 + 4 * usize::from(entry[9])]
}

fn changed(rng: &mut Rng, way: Way, q: &Question, sacl: &Sacl) -> Option<Vec<u8>> {
    let puts_in = matches!(way, Way::StrangersPutIn | Way::TypesPutIn);
    if sacl.bytes.is_empty() {
        if !puts_in || sacl.whose == Whose::Staged || rng.one_in(2) {
            return None;
        }
        let new: Vec<Vec<u8>> = (0..rng.below(4)).map(|_| entry(rng, way, q)).collect();
        return Some(make::acl(&new));
    }
    let mut new: Vec<Vec<u8>> = Vec::new();
    for old in sacl.entries() {
        let is_audit = old[0] == 2;
        match way {
            Way::StrangersTakenOut if is_audit && is_stranger(q, sid_of(old)) => {}
            Way::TypesTakenOut if !is_audit => {}
            Way::InheritOnly if is_audit && is_inherit_only(old) => {
                let someone = |rng: &mut Rng| someone(rng, q);
                let mut other = audits::audit(rng, &someone);
                other[1] |= 0x08;
                new.push(other);
            }
            Way::Spare if is_audit => {
                new.push(lists::with_body(old, sid_of(old), &spare(rng, old)))
            }
            _ => new.push(old.to_vec()),
        }
    }
    if puts_in {
        for _ in 0..rng.below(4) {
            let place = rng.below(new.len() + 1);
            new.insert(place, entry(rng, way, q));
        }
    } else if new.is_empty() && sacl.whose != Whose::Staged && rng.one_in(2) {
        return Some(Vec::new());
    }
    lists::with_entries(sacl.bytes, &new)
}

/// Somebody of the token, or one of the two who stand for another.
fn someone(rng: &mut Rng, q: &Question) -> Vec<u8> {
    let who = crate::who::Who::of(q).map_or(vec![], |who| who.normal);
    match rng.below(4) {
        0 => crate::who::OWNER_RIGHTS.to_vec(),
        1 => crate::who::PRINCIPAL_SELF.to_vec(),
        _ => rng.pick(&who).sid.clone(),
    }
}

/// One more entry: a stranger's, whose name is nearly that of somebody who matters, or one of
/// another type.
fn entry(rng: &mut Rng, way: Way, q: &Question) -> Vec<u8> {
    if way == Way::TypesPutIn {
        return audits::other(rng, &|rng| someone(rng, q));
    }
    let stranger = |rng: &mut Rng| loop {
        let mut sid = someone(rng, q);
        let place = 2 + rng.below(sid.len() - 2);
        sid[place] ^= 1 << rng.below(8);
        if is_stranger(q, &sid) {
            return sid;
        }
    };
    audits::audit(rng, &stranger)
}

/// Other spare bytes: none, a few, or a whole entry.
fn spare(rng: &mut Rng, entry: &[u8]) -> Vec<u8> {
    match rng.below(4) {
        0 => Vec::new(),
        1 => vec![0xFF; 4 * (1 + rng.below(5))],
        2 => make::bare_entry(2, 0xC0, &[]),
        _ => make::entry(2, 0xC0, u32::MAX, sid_of(entry)),
    }
}

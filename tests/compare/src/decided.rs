//! Lists whose first entries decide all bits of the kind, or all but one, and what stands behind
//! them. A list counts where the answer hangs on what stands behind.

use crate::children::{self, is_inherit_only, mask_of, owner_of, sid_of};
use crate::lists::{self, entries, List};
use crate::who::{One, Who, OWNER_RIGHTS, PRINCIPAL_SELF};
use pirasteh_cases::decided::{aim, Row, ROWS};
use pirasteh_cases::make::{self, Question};
use pirasteh_reference::Verdict;

/// What the rows are called.
const NAMES: [&str; ROWS.len()] = [
    "one entry decides all, and then one for S-1-3-4 that counts",
    "several entries decide all, and then one for S-1-3-4 that counts",
    "one entry decides all, and then an inherit-only one for S-1-3-4",
    "several entries decide all, and then an inherit-only one for S-1-3-4",
    "all is decided, then an inherit-only one for S-1-3-4, and then one that counts",
    "all is decided, and then somebody who is nearly S-1-3-4",
    "all but one is decided, and then an entry for S-1-3-4 that counts",
    "all but one is decided, and the last by an entry for the asker",
    "all but one is decided, and the last by an entry for S-1-5-10",
    "all but one is decided, and the last by an entry for S-1-3-4",
    "all is decided, and then entries that would decide otherwise",
];

/// How often each row was reached, for each kind of list and of object.
pub type Table = [[[u64; 2]; 3]; ROWS.len()];

const ALL: [u32; 2] = [0x1F_01FF, 0xF_003F];
const GENERIC: [[u32; 4]; 2] =
    [[0x1F_01FF, 0x12_00A0, 0x12_0116, 0x12_0089], [0xF_003F, 0x2_0019, 0x2_0006, 0x2_0019]];

/// The bits of the kind that an entry has.
pub fn bits(kind: u32, mask: u32) -> u32 {
    let row = kind as usize - 1;
    let generic = GENERIC[row].iter().enumerate();
    let generic = generic.filter(|(place, _)| mask >> (28 + place) & 1 != 0);
    (generic.fold(mask, |sum, (_, bits)| sum | bits)) & ALL[row]
}

/// A walk over a list: after each entry, which bits are not decided.
struct Walk<'a> {
    all: u32,
    entries: Vec<&'a [u8]>,
    left: Vec<u32>,
}

impl<'a> Walk<'a> {
    fn new(q: &Question, list: &List<'a>) -> Option<Walk<'a>> {
        let crowd = Who::of(q)?.normal;
        let entries: Vec<&[u8]> =
            entries(list.bytes)?.into_iter().map(|at| &list.bytes[at]).collect();
        let all = ALL[q.kind as usize - 1];
        let mut left = all;
        let after = entries.iter().map(|entry| {
            if !is_inherit_only(entry) && matches(q, &crowd, entry) {
                left &= !bits(q.kind, mask_of(entry));
            }
            left
        });
        let left = after.collect();
        Some(Walk { all, entries, left })
    }

    /// Where the entries begin that stand behind the one that leaves no more than so many bits, and
    /// how many up to that one decide something.
    fn behind(&self, count: u32) -> Option<(usize, usize)> {
        let at = self.left.iter().position(|left| left.count_ones() <= count)?;
        let mut states = self.left[..=at].to_vec();
        states.dedup();
        // Entries before the first that decides something leave all.
        let nothing = usize::from(states[0] == self.all);
        Some((at + 1, states.len() - nothing))
    }
}

fn matches(q: &Question, crowd: &[One], entry: &[u8]) -> bool {
    let sid = match sid_of(entry) {
        sid if sid == OWNER_RIGHTS => owner_of(q).unwrap_or_default(),
        sid if sid == PRINCIPAL_SELF => &q.self_id,
        sid => sid,
    };
    let mut listed = crowd.iter().filter(|one| one.sid == sid);
    listed.any(|one| if entry[0] == 1 { one.denies() } else { one.allows() })
}

/// Adds the accepted question of one turn.
pub fn add(turn: u64, q: &Question, answer: Verdict, table: &mut Table) {
    let aim = aim(turn);
    // Of several lists of one kind it is the last.
    let lists = lists::of(q);
    let Some(list) = lists.iter().rev().find(|list| list.whose as usize == aim.whose) else {
        return;
    };
    let Some(walk) = Walk::new(q, list) else { return };
    if q.kind == aim.kind && is_row(aim.row, q, list, &walk, answer) {
        table[aim.row as usize][aim.whose][q.kind as usize - 1] += 1;
    }
}

fn names_owner(entry: &[u8]) -> bool {
    sid_of(entry) == OWNER_RIGHTS
}

/// Whether one of these takes the owner's rights away.
fn speak(entries: &[&[u8]]) -> bool {
    entries.iter().any(|entry| names_owner(entry) && !is_inherit_only(entry))
}

/// Whether the answer is another with these entries in the list.
fn differs(q: &Question, list: &List, new: &[Vec<u8>], answer: Verdict) -> bool {
    let other = lists::rewritten(q, |one| {
        let here = one.whose == list.whose && one.at == list.at;
        lists::with_entries(one.bytes, new).filter(|_| here)
    });
    other.is_some_and(|other| children::ask(&other).is_ok_and(|said| said != answer))
}

fn owned(entries: &[&[u8]]) -> Vec<Vec<u8>> {
    entries.iter().map(|entry| entry.to_vec()).collect()
}

/// Whether a list is what the row says, and matters.
fn is_row(row: Row, q: &Question, list: &List, walk: &Walk, answer: Verdict) -> bool {
    let Some((behind, deciding)) = walk.behind(0) else {
        return but_one(row, q, list, walk, answer);
    };
    let (early, tail) = walk.entries.split_at(behind);
    let first = tail.iter().find(|entry| names_owner(entry));
    let fits = match row {
        Row::OneThenOwner => deciding == 1 && !speak(early) && speak(tail),
        Row::SeveralThenOwner => deciding > 1 && !speak(early) && speak(tail),
        Row::OneThenChild => deciding == 1 && !speak(&walk.entries) && first.is_some(),
        Row::SeveralThenChild => deciding > 1 && !speak(&walk.entries) && first.is_some(),
        Row::ChildThenOwner => {
            !speak(early) && speak(tail) && first.is_some_and(|entry| is_inherit_only(entry))
        }
        // It would matter if it were S-1-3-4.
        Row::Nearly => {
            let at = tail.iter().position(|entry| is_nearly_owner_rights(sid_of(entry)));
            let Some(at) = at.filter(|_| !speak(&walk.entries)) else { return false };
            let mut new = owned(&walk.entries);
            new[behind + at] = make::deny(0, &OWNER_RIGHTS);
            return differs(q, list, &new, answer);
        }
        // They would decide otherwise if they were first.
        Row::Otherwise => {
            return differs(q, list, &[owned(tail), owned(early)].concat(), answer);
        }
        Row::ButOneThenOwner | Row::LastByAsker | Row::LastBySelf | Row::LastByOwner => {
            return but_one(row, q, list, walk, answer);
        }
    };
    fits && children::matters(q, list, answer)
}

/// The same for the rows where one bit is not decided at first.
fn but_one(row: Row, q: &Question, list: &List, walk: &Walk, answer: Verdict) -> bool {
    let Some((behind, _)) = walk.behind(1) else { return false };
    let (early, tail) = walk.entries.split_at(behind);
    if walk.left[behind - 1] == 0 {
        return false;
    }
    if row == Row::ButOneThenOwner {
        return !speak(early) && speak(tail) && children::matters(q, list, answer);
    }
    // The answer is another if the list ends before the entry that has the last bit.
    let Some((end, _)) = walk.behind(0) else { return false };
    let by = match sid_of(walk.entries[end - 1]) {
        sid if sid == OWNER_RIGHTS => Row::LastByOwner,
        sid if sid == PRINCIPAL_SELF => Row::LastBySelf,
        _ => Row::LastByAsker,
    };
    by == row && differs(q, list, &owned(&walk.entries[..end - 1]), answer)
}

/// S-1-3-4 with another word or authority, or with more words or none. No asker is like that.
fn is_nearly_owner_rights(sid: &[u8]) -> bool {
    sid != OWNER_RIGHTS && (sid[6] == 3 || matches!(sid[7], 2 | 3))
}

/// What should have been reached and was not.
pub fn unreached(table: &Table) -> Vec<String> {
    let mut all = Vec::new();
    for (row, lists) in NAMES.iter().zip(table) {
        for (name, kinds) in children::COLUMNS.iter().zip(lists) {
            let none = kinds.iter().enumerate().filter(|(_, &times)| times == 0);
            all.extend(none.map(|(kind, _)| format!("in {name}, kind {}: {row}", kind + 1)));
        }
    }
    all
}

pub fn print(table: &Table) {
    let columns = children::COLUMNS.join(", ");
    println!("  what the answer hangs on in {columns}, each for kinds 1 and 2:");
    for (row, lists) in NAMES.iter().zip(table) {
        let times = lists.as_flattened().iter().map(|times| format!("{times:>7}"));
        println!("  {}  {row}", times.collect::<String>());
    }
}

#[cfg(test)]
mod tests {
    use super::*;
    use pirasteh_cases::make::{acl, allow, deny, entry, sid, Descriptor, Token};

    /// U asks for everything, of an object of his with this list. Whether it is of the row.
    fn is(row: Row, list: &[Vec<u8>]) -> bool {
        let user = sid(5, &[0, 7]);
        let q = Question {
            kind: 1,
            mask: 0x0200_0000,
            token: Token::of(&user).record(),
            self_id: vec![],
            descriptor: Descriptor::owned_by(&user).dacl(&acl(list)).bytes(),
            policy: vec![],
        };
        let lists = lists::of(&q);
        let walk = Walk::new(&q, &lists[0]).unwrap();
        is_row(row, &q, &lists[0], &walk, children::ask(&q).unwrap())
    }

    #[test]
    fn only_what_the_answer_hangs_on_is_counted() {
        let user = sid(5, &[0, 7]);
        let (all, own) = (0x1000_0000, &OWNER_RIGHTS);
        let owner = || allow(0, own);
        let child = || entry(0, 0x08, 0, own);
        assert!(is(Row::OneThenOwner, &[deny(all, &user), owner()]));
        assert!(!is(Row::OneThenOwner, &[allow(all, &user), owner()]));
        assert!(!is(Row::OneThenOwner, &[owner(), deny(all, &user)]));
        assert!(!is(Row::OneThenOwner, &[deny(1, &user), deny(all, &user), owner()]));
        assert!(is(Row::SeveralThenOwner, &[deny(1, &user), deny(all, &user), owner()]));
        assert!(is(Row::OneThenChild, &[deny(all, &user), child()]));
        assert!(!is(Row::OneThenChild, &[deny(all, &user), child(), owner()]));
        assert!(is(Row::ChildThenOwner, &[deny(all, &user), child(), owner()]));
        assert!(is(Row::Nearly, &[deny(all, &user), allow(0, &sid(3, &[4, 0]))]));
        assert!(is(Row::ButOneThenOwner, &[deny(0x1F_01FE, &user), owner()]));
        assert!(!is(Row::ButOneThenOwner, &[deny(all, &user), owner()]));
        assert!(is(Row::LastByAsker, &[deny(0x1F_01FE, &user), allow(1, &user)]));
        assert!(is(Row::LastByOwner, &[deny(0x1F_01FE, &user), allow(1, own)]));
        assert!(!is(Row::LastByOwner, &[deny(0x1F_01FC, &user), allow(1, own)]));
        assert!(is(Row::Otherwise, &[deny(all, &user), allow(1, &user)]));
        assert!(!is(Row::Otherwise, &[deny(all, &user), deny(1, &user)]));
    }
}

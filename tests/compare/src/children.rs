//! Entries meant for children: those with flag 0x08, inherit-only, which say nothing about the
//! object itself. Where an answer shows which entries for S-1-3-4 count, and the same question with
//! other inherit-only entries.

use crate::lists::{self, end_of_sid, entries, List};
use crate::who::{OWNER_RIGHTS, PRINCIPAL_SELF};
use pirasteh_cases::make::{self, Question};
use pirasteh_cases::{conditions, expressions, Rng};
use pirasteh_reference::{self as reference, Answer, Verdict};

/// What the entries for S-1-3-4 of one list can be. Each has to be reached, in each kind of list.
pub const ROWS: [&str; 14] = [
    "inherit-only ones, with flag 0x08 alone",
    "inherit-only ones, each with other flags too",
    "some that count, and an inherit-only one before them",
    "some that count, and an inherit-only one behind them",
    "allow entries that count",
    "deny entries that count",
    "entries that count, with mask 0",
    "entries that count, with flag 0x01 alone",
    "entries that count, with flag 0x02 alone",
    "entries that count, with flag 0x04 alone",
    "entries that count, with flag 0x10 alone",
    "entries that count, with flag 0x20 alone",
    "entries that count, with flag 0x40 alone",
    "entries that count, with flag 0x80 alone",
];
const FLAGS: [u8; 7] = [0x01, 0x02, 0x04, 0x10, 0x20, 0x40, 0x80];

/// The kinds of lists, in the order of `lists::Whose`.
pub const COLUMNS: [&str; 3] = ["the descriptor's DACL", "an effective DACL", "a staged DACL"];

/// How often each was reached in a list by which the answer is another than it would be by the
/// opposite rule.
pub type Table = [[u64; 3]; 14];

pub fn is_inherit_only(entry: &[u8]) -> bool {
    entry[1] & 0x08 != 0
}

pub fn sid_of(entry: &[u8]) -> &[u8] {
    end_of_sid(entry).and_then(|end| entry.get(8..end)).unwrap_or_default()
}

/// Spare bytes, or a condition.
pub fn behind_sid(entry: &[u8]) -> &[u8] {
    end_of_sid(entry).and_then(|end| entry.get(end..)).unwrap_or_default()
}

pub fn mask_of(entry: &[u8]) -> u32 {
    u32::from_le_bytes([entry[4], entry[5], entry[6], entry[7]])
}

/// The owner of an accepted question.
pub fn owner_of(q: &Question) -> Option<&[u8]> {
    let at = lists::u32_at(&q.descriptor, 4)?;
    let words = usize::from(*q.descriptor.get(at + 1)?);
    q.descriptor.get(at..at + 8 + 4 * words)
}

/// What the reference answers, with all masks.
pub fn answer(q: &Question) -> Result<Answer, u32> {
    reference::check(q.kind, q.mask, &q.token, &q.self_id, &q.descriptor, &q.policy)
}

/// The same without the way there. Whether an answer hangs on something is judged by this alone.
pub fn ask(q: &Question) -> Result<Verdict, u32> {
    answer(q).map(|answer| answer.verdict())
}

/// Adds the lists of an accepted question to a table.
pub fn add(q: &Question, answer: Verdict, table: &mut Table) {
    // Of very many rules the first will do.
    for list in lists::of(q).iter().take(9) {
        let rows = rows(&owners_entries(list));
        if rows.contains(&true) && matters(q, list, answer) {
            for (times, here) in table.iter_mut().zip(rows) {
                times[list.whose as usize] += u64::from(here);
            }
        }
    }
}

/// The entries of a list that name S-1-3-4.
fn owners_entries<'a>(list: &List<'a>) -> Vec<&'a [u8]> {
    let all = entries(list.bytes).unwrap_or_default().into_iter();
    all.map(|entry| &list.bytes[entry]).filter(|entry| sid_of(entry) == OWNER_RIGHTS).collect()
}

/// Which rows a list with these entries for S-1-3-4 belongs to.
fn rows(named: &[&[u8]]) -> [bool; 14] {
    let mut rows = [false; 14];
    let all = |test: &dyn Fn(&[u8]) -> bool| named.iter().all(|entry| test(entry));
    let (Some(first), Some(last)) = (named.first(), named.last()) else { return rows };
    if all(&is_inherit_only) {
        rows[0] = all(&|entry| entry[1] == 0x08);
        rows[1] = all(&|entry| entry[1] != 0x08);
    } else if !all(&|entry| !is_inherit_only(entry)) {
        rows[2] = is_inherit_only(first);
        rows[3] = is_inherit_only(last);
    } else {
        rows[4] = all(&|entry| entry[0] == 0);
        rows[5] = all(&|entry| entry[0] == 1);
        rows[6] = all(&|entry| mask_of(entry) == 0);
        for (row, flag) in rows[7..].iter_mut().zip(FLAGS) {
            *row = all(&|entry| entry[1] == flag);
        }
    }
    rows
}

/// Whether the answer is another than by the opposite rule: one by which the list's inherit-only
/// entries for S-1-3-4 count, or, where some do count, one by which they do not.
pub fn matters(q: &Question, list: &List, answer: Verdict) -> bool {
    let Some(owner) = owner_of(q).filter(|&sid| sid != OWNER_RIGHTS && sid != PRINCIPAL_SELF)
    else {
        return false;
    };
    let some_count = owners_entries(list).iter().any(|entry| !is_inherit_only(entry));
    let opposite = |entry: &[u8]| match (sid_of(entry) == OWNER_RIGHTS, is_inherit_only(entry)) {
        // One that denies nothing stands for it, and counts.
        (true, true) if !some_count => make::deny(0, &OWNER_RIGHTS),
        // It names the owner himself, which matches alike and does not count.
        (true, false) => lists::with_body(entry, owner, behind_sid(entry)),
        _ => entry.to_vec(),
    };
    let other = lists::rewritten(q, |one| {
        let here = one.whose == list.whose && one.at == list.at;
        let all = entries(one.bytes).filter(|_| here)?;
        let new: Vec<Vec<u8>> = all.into_iter().map(|entry| opposite(&one.bytes[entry])).collect();
        lists::with_entries(one.bytes, &new)
    });
    other.is_some_and(|other| ask(&other).is_ok_and(|said| said != answer))
}

/// What is done to the inherit-only entries of a question.
#[derive(Clone, Copy)]
pub enum Way {
    TakenOut,
    PutIn,
    Others,
}

/// An accepted question once more, with other inherit-only entries in its DACLs. None if there is
/// nothing to change, or no room for it.
pub fn twin(q: &Question, rng: &mut Rng) -> Option<(Question, Way)> {
    let way = rng.of(&[Way::TakenOut, Way::PutIn, Way::Others]);
    let owner = owner_of(q)?;
    Some((lists::rewritten(q, |list| changed(rng, way, owner, list))?, way))
}

/// A list with other inherit-only entries.
fn changed(rng: &mut Rng, way: Way, owner: &[u8], list: &List) -> Option<Vec<u8>> {
    let old = entries(list.bytes)?;
    let all: Vec<&[u8]> = old.into_iter().map(|entry| &list.bytes[entry]).collect();
    let mut sids = vec![owner];
    sids.extend(all.iter().map(|entry| sid_of(entry)));
    let mut new = Vec::new();
    for entry in &all {
        match way {
            Way::TakenOut if is_inherit_only(entry) => {}
            Way::Others if is_inherit_only(entry) => new.push(inherit_only(rng, &sids)),
            _ => new.push(entry.to_vec()),
        }
    }
    if let Way::PutIn = way {
        for _ in 0..1 + rng.below(3) {
            let place = rng.below(new.len() + 1);
            new.insert(place, inherit_only(rng, &sids));
        }
    }
    lists::with_entries(list.bytes, &new)
}

/// An inherit-only entry that would decide much if it counted: about the owner, every other time by
/// S-1-3-4, or about somebody whom the list names.
fn inherit_only(rng: &mut Rng, sids: &[&[u8]]) -> Vec<u8> {
    let (byte, word) = (rng.byte(), rng.u32());
    let flags = 0x08 | rng.of(&[0, 0, 0x03, 0x10, 0xF7, byte]);
    let mask = rng.of(&[0, u32::MAX, 0x1000_0000, 0x6_0000, word]);
    let sid: &[u8] = match rng.below(8) {
        0..=3 => &OWNER_RIGHTS,
        4 => &PRINCIPAL_SELF,
        _ => rng.of(sids),
    };
    if rng.one_in(3) {
        let condition = conditions::whole(rng, &|rng| rng.of(sids).to_vec());
        let kind = rng.of(&[expressions::ALLOW, expressions::DENY]);
        return expressions::callback(kind, flags, mask, sid, &condition);
    }
    make::entry(rng.of(&[0, 1]), flags, mask, sid)
}

#[cfg(test)]
mod tests {
    use super::*;
    use pirasteh_cases::make::{acl, allow, deny, entry, policy, sid, Descriptor, Rule, Token};
    use pirasteh_cases::random::{case, Case};

    #[test]
    fn a_twin_has_the_same_answer_and_other_inherit_only_entries() {
        let mut twins = [0; 3];
        for number in 0..40_000 {
            let Case::Check(q) = case(3, number) else { continue };
            let before = answer(&q);
            if before.is_err() {
                continue;
            }
            if let Some((twin, way)) = twin(&q, &mut Rng::new(4, number)) {
                twins[way as usize] += 1;
                assert_eq!(answer(&twin), before, "case {number} of seed 3");
            }
        }
        assert!(twins.iter().all(|&times| times > 1_000), "only {twins:?}");
    }

    /// U asks for this mask, of an object of his with the first list, under one rule with the other
    /// two. Then these places of the table, row and column, are reached and no others.
    fn reaches(mask: u32, lists: [&[Vec<u8>]; 3], expected: &[(usize, usize)]) {
        let user = sid(5, &[0, 7]);
        let [dacl, effective, staged] = lists.map(acl);
        let q = Question {
            kind: 1,
            mask,
            token: Token::of(&user).record(),
            self_id: vec![],
            descriptor: Descriptor::owned_by(&user).dacl(&dacl).bytes(),
            policy: policy(&[Rule::of(&effective).staged(&staged)]),
        };
        let mut table = Table::default();
        add(&q, ask(&q).unwrap(), &mut table);
        let mut reached = Vec::new();
        for (row, times) in table.iter().enumerate() {
            reached.extend((0..3).filter(|&column| times[column] > 0).map(|column| (row, column)));
        }
        assert_eq!(reached, expected, "mask {mask:#x}, lists {lists:02x?}");
    }

    #[test]
    fn what_does_not_matter_is_not_counted() {
        let own = &OWNER_RIGHTS;
        let child = || entry(0, 0x08, 0x6_0000, own);
        let inherited = || entry(0, 0x10, 0, own);
        reaches(0x6_0000, [&[], &[], &[]], &[]);
        reaches(0x6_0000, [&[entry(0, 0x08, 0, &sid(3, &[4, 0]))], &[], &[]], &[]);
        reaches(1, [&[child()], &[], &[]], &[]);
        reaches(0x6_0000, [&[child()], &[], &[]], &[(0, 0)]);
        reaches(0x6_0000, [&[], &[child()], &[]], &[(0, 1)]);
        reaches(0x6_0000, [&[], &[], &[child()]], &[(0, 2)]);
        reaches(0x6_0000, [&[entry(1, 0x0B, 0, own)], &[], &[]], &[(1, 0)]);
        reaches(0x6_0000, [&[child(), inherited()], &[], &[]], &[(2, 0)]);
        reaches(0x6_0000, [&[inherited(), child()], &[], &[]], &[(3, 0)]);
        reaches(0x6_0000, [&[], &[], &[inherited()]], &[(4, 2), (6, 2), (10, 2)]);
        reaches(0x6_0000, [&[deny(1, own)], &[], &[]], &[(5, 0)]);
        // It allows what the owner has without it.
        reaches(0x6_0000, [&[allow(0x6_0000, own)], &[], &[]], &[]);
    }
}

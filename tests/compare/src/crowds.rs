//! Which identities of large tokens were named, and which strangers that are nearly one of them.
//!
//! Each entry of these cases has a right of its own. So the answer shows of each whether it
//! matched, and each is counted by itself.

pub mod seats;

use crate::children::{mask_of, owner_of, sid_of};
use crate::lists::{self, entries, Whose};
use crate::who::{One, Who, OWNER_RIGHTS, PRINCIPAL_SELF};
use pirasteh_cases::crowds::{aim, aims, repeats, Aim, Kin};
use pirasteh_cases::make::Question;
use pirasteh_reference::Verdict;

/// Whom an entry names.
const WHOM: [&str; 8] = [
    "the first",
    "one between",
    "the last",
    "a stranger by one bit",
    "a stranger by one word",
    "a stranger by one word more",
    "a stranger by one word less",
    "a stranger of the same key",
];
const IN_CROWD: usize = 3;

/// By what the owner or the self identity is named, in a normal crowd or in a confined one.
const BY: [&str; 5] =
    ["S-1-3-4", "owner's rights", "S-1-5-10", "S-1-3-4, confined", "S-1-5-10, confined"];

/// S-1-15-2-2.
const ALL_RESTRICTED: [u8; 16] = [1, 2, 0, 0, 0, 0, 0, 15, 2, 0, 0, 0, 2, 0, 0, 0];

const AIMS: usize = 55;
const REPEATS: usize = 36;
const REPEATED: [&str; 4] =
    ["allow", "deny", "allow, with one key for all,", "deny, with one key for all,"];
const WORDS: usize = 16;

/// How often each was reached.
pub struct Table {
    named: [[u64; WHOM.len()]; AIMS],
    /// A group that is listed with several attributes, for allow and deny, and the same where all
    /// identities have one key.
    repeated: [[u64; 4]; REPEATS],
    stood_for: [[u64; WHOM.len()]; BY.len()],
    /// One that matched, of so many words.
    words: [u64; WORDS],
}

impl Default for Table {
    fn default() -> Table {
        Table {
            named: [[0; WHOM.len()]; AIMS],
            repeated: [[0; 4]; REPEATS],
            stood_for: [[0; WHOM.len()]; BY.len()],
            words: [0; WORDS],
        }
    }
}

fn words(sid: &[u8]) -> impl Iterator<Item = u32> + '_ {
    sid[8..].chunks_exact(4).map(|word| u32::from_le_bytes([word[0], word[1], word[2], word[3]]))
}

/// The words of an identity by pairs, all made one by exclusive or.
fn key(sid: &[u8]) -> [u32; 2] {
    let mut key = [0; 2];
    for (place, word) in words(sid).enumerate() {
        key[place % 2] ^= word;
    }
    key
}

/// Whether the first has one word more than the second, before all others or behind them.
fn has_one_more(long: &[u8], short: &[u8]) -> bool {
    let words = &short[8..];
    long.len() == short.len() + 4
        && long[2..8] == short[2..8]
        && (long[8..].starts_with(words) || long[8..].ends_with(words))
}

/// How a stranger differs from somebody, in the order of `WHOM`.
fn unlike(stranger: &[u8], one: &[u8]) -> [bool; 5] {
    let mut how = [false; 5];
    if stranger.len() == one.len() {
        let unlike = words(stranger).zip(words(one)).map(|(a, b)| a ^ b).filter(|&bits| bits != 0);
        let (count, bits) = unlike.fold((0, 0), |sum, bits| (sum.0 + 1, sum.1 + bits.count_ones()));
        let authority = stranger[2..8].iter().zip(&one[2..8]);
        let authority: u32 = authority.map(|(a, b)| (a ^ b).count_ones()).sum();
        how[0] = bits + authority == 1;
        how[1] = count == 1 && authority == 0;
    }
    how[2] = has_one_more(stranger, one);
    how[3] = has_one_more(one, stranger);
    how[4] = key(stranger) == key(one);
    how
}

/// Who a SID is to a crowd, in the order of `WHOM`.
fn whom(crowd: &[One], sid: &[u8]) -> [bool; WHOM.len()] {
    let mut all = [false; WHOM.len()];
    match crowd.iter().rposition(|one| one.sid == sid) {
        Some(0) => all[0] = true,
        Some(place) if place == crowd.len() - 1 => all[2] = true,
        Some(_) => all[1] = true,
        None => {
            for one in crowd {
                for (is, here) in all[IN_CROWD..].iter_mut().zip(unlike(sid, &one.sid)) {
                    *is |= here;
                }
            }
        }
    }
    all
}

/// Whether a crowd is what was aimed at. The capability that has to be there is not looked at.
fn is_kin(aim: Aim, crowd: &[One]) -> bool {
    let first = &crowd[0].sid;
    let all = crowd.iter().map(|one| &one.sid);
    let all: Vec<&Vec<u8>> = all.filter(|sid| sid[..] != ALL_RESTRICTED).collect();
    let last = usize::from(first[1]).saturating_sub(1);
    // They differ in this word at most.
    let only = |place: usize| {
        all.iter().all(|sid| {
            let mut pairs = words(sid).zip(words(first)).enumerate();
            sid[..8] == first[..8] && pairs.all(|(at, (a, b))| at == place || a == b)
        })
    };
    crowd.len() == aim.size
        && match aim.kin {
            Kin::First => only(0),
            Kin::Middle => (1..last).any(only),
            Kin::Last => only(last),
            Kin::Key => all.iter().all(|sid| key(sid) == key(first)),
            Kin::Lengths => true,
        }
}

/// Entries with a right of their own, by right and SID.
struct Named {
    own: Vec<(u32, Vec<u8>)>,
    are_denies: bool,
}

/// Those of such a case, in its descriptor or in its rule.
fn named(q: &Question) -> Option<Named> {
    let lists = lists::of(q);
    let list = lists.iter().find(|list| list.whose != Whose::Staged)?;
    let all = entries(list.bytes)?.into_iter().map(|at| &list.bytes[at]);
    let is_own = |entry: &&[u8]| mask_of(entry).is_power_of_two() && mask_of(entry) != 0x1000_0000;
    let own: Vec<&[u8]> = all.filter(is_own).collect();
    let masks = own.iter().fold(0, |sum, entry| sum | mask_of(entry));
    let alone = masks.count_ones() as usize == own.len();
    let are_denies = own.first()?[0] == 1;
    let alike = own.iter().all(|entry| entry[0] == u8::from(are_denies) && entry[1] == 0);
    let own = own.into_iter().map(|entry| (mask_of(entry), sid_of(entry).to_vec())).collect();
    (alone && alike).then_some(Named { own, are_denies })
}

impl Table {
    /// Adds the accepted question of one turn.
    pub fn add(&mut self, turn: u64, q: &Question, answer: Verdict) {
        let aim = aim(turn);
        let at = (turn % AIMS as u64) as usize;
        let Some(who) = Who::of(q) else { return };
        let crowd = if aim.confined { &who.confined } else { &who.normal };
        let Some(Named { own, are_denies }) = named(q) else { return };
        if !is_kin(aim, crowd) {
            return;
        }
        for (right, sid) in &own {
            let matched = (answer.granted & right != 0) != are_denies;
            let by = usize::from(aim.confined) * 3;
            if sid[..] == OWNER_RIGHTS {
                let owner = owner_of(q).unwrap_or_default();
                count(&mut self.stood_for[by], whom(crowd, owner), matched);
            } else if sid[..] == PRINCIPAL_SELF {
                let by = if aim.confined { 4 } else { 2 };
                count(&mut self.stood_for[by], whom(crowd, &q.self_id), matched);
            } else {
                count(&mut self.named[at], whom(crowd, sid), matched);
                self.repeated(aim, crowd, sid, are_denies);
                self.words[usize::from(sid[1])] += u64::from(matched);
            }
        }
        let speaks = own.iter().any(|(_, sid)| sid[..] == OWNER_RIGHTS);
        if !aim.confined && !are_denies && !speaks {
            let owner = owner_of(q).unwrap_or_default();
            count(&mut self.stood_for[1], whom(crowd, owner), answer.granted & 0x6_0000 != 0);
        }
    }

    fn repeated(&mut self, aim: Aim, crowd: &[One], sid: &[u8], are_denies: bool) {
        let listed = crowd.iter().filter(|one| one.sid == sid);
        let attributes: Option<Vec<u32>> = listed.map(|one| one.attributes).collect();
        let attributes = attributes.unwrap_or_default();
        if attributes.len() < 2 {
            return;
        }
        if let Some(which) = repeats().iter().position(|one| *one == attributes) {
            self.repeated[which][usize::from(are_denies)] += 1;
            self.repeated[which][2 + usize::from(are_denies)] += u64::from(aim.kin == Kin::Key);
        }
    }

    /// What should have been reached and was not.
    pub fn unreached(&self) -> Vec<String> {
        let mut all = Vec::new();
        for (aim, times) in aims().into_iter().zip(&self.named) {
            for (_, whom) in
                possible(aim).zip(WHOM).filter(|&(at, _)| at.is_some_and(|at| times[at] == 0))
            {
                all.push(format!("{aim:?}: an entry that names {whom}"));
            }
        }
        for (attributes, times) in repeats().iter().zip(&self.repeated) {
            for (_, kind) in times.iter().zip(REPEATED).filter(|(&times, _)| times == 0) {
                all.push(format!("an entry to {kind} a group listed with {attributes:x?}"));
            }
        }
        for (by, times) in BY.iter().zip(&self.stood_for) {
            for (_, whom) in times.iter().zip(WHOM).filter(|(&times, _)| times == 0) {
                all.push(format!("{by} for {whom} of a crowd"));
            }
        }
        let none = self.words.iter().enumerate().filter(|(_, &times)| times == 0);
        all.extend(none.map(|(words, _)| format!("one of a crowd who has {words} words")));
        all
    }

    pub fn print(&self) {
        println!("  entries that name one of a crowd, or a stranger; of all crowds the least:");
        for (at, name) in WHOM.iter().enumerate() {
            let crowds = aims().into_iter().zip(&self.named);
            let crowds = crowds.filter(|&(aim, _)| possible(aim).nth(at).flatten().is_some());
            println!(
                "  {:9}  {name}",
                crowds.map(|(_, times)| times[at]).min().unwrap_or_default()
            );
        }
        let least = |all: &[u64]| all.iter().min().copied().unwrap_or_default();
        println!(
            "  {:9}  a group listed twice or three times, the least of all orders",
            least(self.repeated.as_flattened())
        );
        for (by, times) in BY.iter().zip(&self.stood_for) {
            println!("  {:9}  {by} for one of these, the least of all", least(times));
        }
        println!("  {:9}  one of a crowd of 0 to 15 words, the least of all", least(&self.words));
    }
}

/// Counts one that is in the crowd if it matched, and a stranger.
fn count(times: &mut [u64; WHOM.len()], whom: [bool; WHOM.len()], matched: bool) {
    for (at, (times, here)) in times.iter_mut().zip(whom).enumerate() {
        *times += u64::from(here && (matched || at >= IN_CROWD));
    }
}

/// The places of `WHOM` that a crowd has.
fn possible(aim: Aim) -> impl Iterator<Item = Option<usize>> {
    (0..WHOM.len()).map(move |at| {
        match at {
            1 => aim.size > 2,
            2 => aim.size > 1,
            _ => true,
        }
        .then_some(at)
    })
}

#[cfg(test)]
mod tests {
    use super::*;
    use pirasteh_cases::make::sid;
    use pirasteh_cases::random::{about, case, About, Case};

    #[test]
    fn the_tables_have_room() {
        assert_eq!(aims().len(), AIMS);
        assert_eq!(repeats().len(), REPEATS);
    }

    #[test]
    fn strangers_are_told_by_how_they_differ() {
        let one = sid(5, &[1, 2, 3, 4, 5]);
        let how = |words: &[u32]| unlike(&sid(5, words), &one);
        assert_eq!(how(&[1, 2, 3, 4, 4]), [true, true, false, false, false]);
        assert_eq!(how(&[1, 9, 3, 4, 5]), [false, true, false, false, false]);
        assert_eq!(how(&[1, 2, 3, 4, 5, 6]), [false, false, true, false, false]);
        assert_eq!(how(&[2, 3, 4, 5]), [false, false, false, true, false]);
        assert_eq!(how(&[3, 4, 1, 2, 5]), [false, false, false, false, true]);
        assert_eq!(unlike(&sid(4, &[1, 2, 3, 4, 5]), &one), [true, false, false, false, true]);
    }

    #[test]
    fn every_crowd_is_what_was_aimed_at() {
        let mut crowds = 0;
        for number in 0..20_000 {
            let Some(About::Crowds(turn)) = about(number) else { continue };
            let Case::Check(q) = case(3, number) else { panic!("case {number} is no question") };
            // A stranger may be a virtual identity by chance, and then stands in no token.
            let Some(who) = Who::of(&q) else { continue };
            let aim = aim(turn);
            let crowd = if aim.confined { who.confined } else { who.normal };
            assert!(is_kin(aim, &crowd), "case {number} of seed 3");
            assert!(named(&q).is_some(), "case {number} of seed 3");
            crowds += 1;
        }
        assert!(crowds > 400, "only {crowds}");
    }
}

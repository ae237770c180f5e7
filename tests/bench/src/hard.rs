//! Strangers who are hard to tell from the identities of a token.

use crate::key::{key, KEYS};
use crate::people::{People, Sid};
use pirasteh_cases::make::sid;

/// What strangers share with identities.
#[derive(Clone, Copy, Debug)]
pub enum Shared {
    /// A stranger's last word is the last word of one identity.
    LastWithOne,
    /// All have one last word.
    LastWithAll,
    /// Of five words, all but the first.
    AllButFirst,
    /// Of fifteen words, all but the one at this place.
    FourteenOfFifteen(usize),
    /// Strangers have the key that most identities of that token have.
    KeyWithMost,
    /// All identities and all strangers have one key.
    KeyWithAll,
    /// All have one key and one last word.
    KeyAndLast,
}

use Shared::{
    AllButFirst, FourteenOfFifteen, KeyAndLast, KeyWithAll, KeyWithMost, LastWithAll, LastWithOne,
};

/// Strangers share their last word with an identity, or their key.
pub const ALL: [Shared; 8] = [
    LastWithOne,
    LastWithAll,
    AllButFirst,
    FourteenOfFifteen(0),
    FourteenOfFifteen(7),
    KeyWithMost,
    KeyWithAll,
    KeyAndLast,
];

/// Not hard: the last word, at which plain Rust looks first, tells all of them apart.
pub const LONG: [Shared; 1] = [FourteenOfFifteen(14)];

/// Those of the large policies.
pub const IN_POLICIES: [Shared; 5] =
    [LastWithOne, LastWithAll, AllButFirst, FourteenOfFifteen(0), KeyWithMost];

/// Strangers have numbers from here on, identities have smaller ones.
const STRANGERS: u32 = 100_000;
/// A search gives up after so many, some seconds.
const TRIES: u32 = 1 << 26;

impl Shared {
    /// What the third column of a row says.
    pub fn name(self) -> String {
        match self {
            LastWithOne => "last word with one".into(),
            LastWithAll => "last word with all".into(),
            AllButFirst => "all but the 1st of 5".into(),
            FourteenOfFifteen(0) => "all but the 1st of 15".into(),
            FourteenOfFifteen(at) => format!("all but the {}th of 15", at + 1),
            KeyWithMost => "key with most".into(),
            KeyWithAll => "key with all".into(),
            KeyAndLast => "key and last with all".into(),
        }
    }

    pub fn people(self, identities: usize, strangers: usize) -> People {
        let both = |one: &dyn Fn(u32) -> Sid| {
            People::numbered(identities, strangers, one, |i| one(STRANGERS + i))
        };
        match self {
            LastWithOne => People::numbered(
                identities,
                strangers,
                |i| of_domain(i, 1_000 + i),
                |i| of_domain(STRANGERS + i, 1_000 + i % identities as u32),
            ),
            LastWithAll => both(&|i| of_domain(i, 513)),
            AllButFirst => both(&|i| but_for::<5>(0, i)),
            FourteenOfFifteen(at) => both(&|i| but_for::<15>(at, i)),
            KeyWithMost => key_with_most(identities, strangers),
            KeyWithAll => key_with_all(identities, strangers, ordinary),
            KeyAndLast => key_with_all(identities, strangers, |i| of_domain(i, 513)),
        }
    }
}

/// A word that looks like any other; different numbers have different words.
fn word(number: u32) -> u32 {
    let mut x = number ^ 0x5BF0_3635;
    x = (x ^ x >> 16).wrapping_mul(0x85EB_CA6B);
    x = (x ^ x >> 13).wrapping_mul(0xC2B2_AE35);
    x ^ x >> 16
}

/// S-1-5-21, the three words of a domain, and a last one.
fn of_domain(domain: u32, last: u32) -> Sid {
    sid(5, &[21, word(3 * domain), word(3 * domain + 1), word(3 * domain + 2), last])
}

/// N words that are the same for all, but for the one at this place.
fn but_for<const N: usize>(at: usize, number: u32) -> Sid {
    let mut words: [u32; N] = std::array::from_fn(|i| word(u32::MAX - i as u32));
    words[at] = word(number);
    sid(5, &words)
}

/// One of five domains, and last words from 1000 on in each.
fn ordinary(number: u32) -> Sid {
    of_domain(number % 5, 1_000 + number / 5)
}

/// The first of these SIDs from this number on that have a key.
fn with_key(wanted: usize, from: u32, count: usize, one: impl Fn(u32) -> Sid) -> Vec<Sid> {
    let tried = (from..from + TRIES).map(one);
    let found: Vec<Sid> = tried.filter(|sid| key(sid) == wanted).take(count).collect();
    assert_eq!(found.len(), count, "too few SIDs have the key {wanted}");
    found
}

fn key_with_most(identities: usize, strangers: usize) -> People {
    let identities: Vec<Sid> = (0..identities as u32).map(ordinary).collect();
    let strangers = with_key(commonest_key(&identities), STRANGERS, strangers, ordinary);
    People { identities, strangers }
}

fn key_with_all(identities: usize, strangers: usize, one: impl Fn(u32) -> Sid) -> People {
    let mut found = with_key(key(&one(0)), 0, identities + strangers, one);
    let strangers = found.split_off(identities);
    People { identities: found, strangers }
}

/// The key that most of these have; the highest of them if there are several.
fn commonest_key(sids: &[Sid]) -> usize {
    let mut counts = [0; KEYS];
    sids.iter().for_each(|sid| counts[key(sid)] += 1);
    (0..KEYS).max_by_key(|&key| counts[key]).unwrap_or(0)
}

#[cfg(test)]
mod tests {
    use super::*;
    use std::collections::HashSet;

    fn some(shared: Shared) -> People {
        shared.people(257, 500)
    }

    fn last(sid: &Sid) -> &[u8] {
        &sid[sid.len() - 4..]
    }

    /// The places of the words in which any two of them differ.
    fn differing(people: &People) -> HashSet<usize> {
        let first = people.user();
        let all = people.identities.iter().chain(&people.strangers);
        all.flat_map(|sid| (8..first.len()).filter(|&at| sid[at] != first[at]))
            .map(|at| (at - 8) / 4)
            .collect()
    }

    #[test]
    fn nobody_is_there_twice() {
        for shared in ALL.into_iter().chain(LONG) {
            let people = some(shared);
            let all: HashSet<_> = people.identities.iter().chain(&people.strangers).collect();
            assert_eq!(all.len(), 757, "{shared:?}");
        }
    }

    #[test]
    fn last_words_are_shared() {
        let one = some(LastWithOne);
        for stranger in &one.strangers {
            let same = one.identities.iter().filter(|sid| last(sid) == last(stranger));
            assert_eq!(same.count(), 1);
        }
        assert_eq!(differing(&some(LastWithAll)), HashSet::from([1, 2, 3]));
    }

    #[test]
    fn all_words_but_one_are_shared() {
        assert_eq!(differing(&some(AllButFirst)), HashSet::from([0]));
        for at in [0, 7, 14] {
            assert_eq!(differing(&some(FourteenOfFifteen(at))), HashSet::from([at]));
        }
    }

    #[test]
    fn keys_are_shared() {
        let most = some(KeyWithMost);
        let wanted = commonest_key(&most.identities);
        assert!(most.strangers.iter().all(|sid| key(sid) == wanted));
        assert!(most.identities.iter().any(|sid| key(sid) == wanted));
        for shared in [KeyWithAll, KeyAndLast] {
            let all = some(shared);
            let wanted = key(all.user());
            assert!(all.identities.iter().chain(&all.strangers).all(|sid| key(sid) == wanted));
        }
        assert_eq!(differing(&some(KeyAndLast)), HashSet::from([1, 2, 3]));
    }
}

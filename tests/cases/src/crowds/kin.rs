//! Identities that are hard to tell apart for who does not compare all their words, and strangers
//! who differ from one of them by little.

use crate::make::sid;
use crate::rng::Rng;

/// In what the identities of a crowd differ.
#[derive(Clone, Copy, Debug, PartialEq, Eq)]
pub enum Kin {
    /// In their first word alone.
    First,
    /// In one word that is neither the first nor the last.
    Middle,
    /// In their last word alone.
    Last,
    /// In two pairs of words or more, and the pairs of all words make the same by exclusive or.
    Key,
    /// In the number of their words and in the authority.
    Lengths,
}

pub const KIN: [Kin; 5] = [Kin::First, Kin::Middle, Kin::Last, Kin::Key, Kin::Lengths];

/// A family without end.
pub struct Family {
    kin: Kin,
    authority: u64,
    words: Vec<u32>,
    /// Which bits of a word number the members.
    shift: u32,
    /// How the second word of a pair differs, by how the first does.
    second: u32,
    from: usize,
}

/// What pairs of words make by exclusive or: as those of S-1-3-4, S-1-5-10 and S-1-15-2-2, too.
const TARGETS: [[u32; 2]; 4] = [[4, 0], [10, 0], [2, 2], [0, 0]];

impl Family {
    pub fn new(rng: &mut Rng, kin: Kin) -> Family {
        let length = match kin {
            Kin::First | Kin::Last => rng.of(&[1, 2, 4, 5, 5, 5, 15]),
            Kin::Middle => rng.of(&[3, 4, 5, 5, 5, 15]),
            Kin::Key => rng.of(&[4, 5, 5, 5, 6, 7, 8, 15]),
            Kin::Lengths => 15,
        };
        let wide = if rng.one_in(2) { u32::MAX } else { 0xFF };
        let mut words: Vec<u32> = (0..length).map(|_| rng.u32() & wide).collect();
        if kin == Kin::Key && rng.one_in(2) {
            turn(&mut words, rng.of(&TARGETS));
        }
        if kin == Kin::Lengths && rng.one_in(2) {
            words.fill(0);
        }
        Family {
            kin,
            authority: rng.of(&[5, 5, 15, 0xFFFF_FFFF_FF00]),
            words,
            shift: rng.of(&[0, 8, 16, 22]),
            second: rng.of(&[0, 1, 0x101]),
            from: if kin == Kin::Lengths { rng.below(16) } else { 0 },
        }
    }

    /// One member, by its number below 1,000.
    pub fn member(&self, number: usize) -> Vec<u8> {
        let mut words = self.words.clone();
        let bits = (number as u32) << self.shift;
        let last = words.len() - 1;
        match self.kin {
            Kin::First => words[0] ^= bits,
            Kin::Middle => words[last.div_ceil(2)] ^= bits,
            Kin::Last => words[last] ^= bits,
            Kin::Key => {
                let second = (number as u32).wrapping_mul(self.second);
                for pair in [0, 2] {
                    words[pair] ^= bits;
                    words[pair + 1] ^= second;
                }
            }
            Kin::Lengths => {
                let number = number + self.from;
                return sid(self.authority + number as u64 / 16, &words[..number % 16]);
            }
        }
        sid(self.authority, &words)
    }
}

/// Changes the second pair of words, so that all pairs make this by exclusive or.
fn turn(words: &mut [u32], target: [u32; 2]) {
    for (place, target) in target.into_iter().enumerate() {
        let made = words.iter().skip(place).step_by(2).fold(target, |sum, word| sum ^ word);
        words[2 + place] ^= made;
    }
}

/// How somebody differs from a given identity.
#[derive(Clone, Copy)]
pub enum Unlike {
    OneBit,
    OneWord,
    OneMore,
    OneLess,
    SameKey,
}

pub const UNLIKE: [Unlike; 5] =
    [Unlike::OneBit, Unlike::OneWord, Unlike::OneMore, Unlike::OneLess, Unlike::SameKey];

/// Somebody who differs from an identity in this way, as far as that can be.
pub fn unlike(rng: &mut Rng, one: &[u8], how: Unlike) -> Vec<u8> {
    let authority = one[2..8].iter().fold(0, |sum, &byte| sum << 8 | u64::from(byte));
    let mut words: Vec<u32> = one[8..]
        .chunks(4)
        .map(|word| u32::from_le_bytes([word[0], word[1], word[2], word[3]]))
        .collect();
    let other = rng.of(&[1, 2, 0x80, 0x100, 0x8000_0000, 0x0101_0101]);
    match (how, words.len()) {
        (Unlike::OneMore, 0..15) => {
            let place = rng.of(&[0, words.len()]);
            words.insert(place, rng.of(&[0, 0, 1, other]));
        }
        (Unlike::OneLess, 1..) => {
            words.remove(rng.of(&[0, words.len() - 1]));
        }
        (Unlike::SameKey, 3..) => {
            words[0] ^= other;
            words[2] ^= other;
        }
        // Zeros are no part of the key.
        (Unlike::SameKey, length) => words.resize(if length == 1 { 2 } else { length + 2 }, 0),
        (Unlike::OneWord, 1..) => {
            let place = rng.below(words.len());
            words[place] = words[place].wrapping_add(1 + (rng.u32() >> 1));
        }
        (_, length) => {
            let bit = rng.below(48 + 32 * length);
            if bit < 48 {
                return sid(authority ^ 1 << bit, &words);
            }
            words[(bit - 48) / 32] ^= 1 << ((bit - 48) % 32);
        }
    }
    sid(authority, &words)
}

#[cfg(test)]
mod tests {
    use super::*;
    use std::collections::BTreeSet;

    #[test]
    fn no_member_is_another() {
        for number in 0..500 {
            let rng = &mut Rng::new(1, number);
            let family = Family::new(rng, KIN[number as usize % KIN.len()]);
            let members: BTreeSet<_> = (0..300).map(|number| family.member(number)).collect();
            assert_eq!(members.len(), 300);
        }
    }

    #[test]
    fn a_stranger_is_not_who_he_is_like() {
        for number in 0..5_000 {
            let rng = &mut Rng::new(2, number);
            let family = Family::new(rng, KIN[number as usize % KIN.len()]);
            let one = family.member(number as usize % 300);
            let how = rng.of(&UNLIKE);
            let stranger = unlike(rng, &one, how);
            assert_ne!(stranger, one);
            assert_eq!(stranger.len(), 8 + 4 * usize::from(stranger[1]));
            assert!(stranger[1] <= 15);
        }
    }
}

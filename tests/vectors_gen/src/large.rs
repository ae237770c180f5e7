//! A few cases that are as large as they get. Longer parts than these do not fit a question
//! file, so the limits of a descriptor and of a policy are not reached here.

use crate::case::*;
use crate::tokens::{bad_listing, bad_record, made};
use pirasteh_cases::make::{sid, Token};

/// Every field as long as it gets: S-1-281474976710655 and fifteen words of 4294967295.
fn longest() -> Token {
    let long = sid(0xFFFF_FFFF_FFFF, &[u32::MAX; 15]);
    let mut token = Token::of(&long).confined(&long, &[]).privileges(u64::MAX);
    token.groups = vec![(long.clone(), u32::MAX); 256];
    token.confinement = Some((long.clone(), vec![long; 64]));
    token
}

pub fn cases() -> Vec<Case> {
    let mut with_capability = longest();
    with_capability.confinement.as_mut().unwrap().1[63] = all_restricted();
    // Spare bytes in the descriptor; its length then takes three bytes, two more than c1's.
    let file = |length: usize| {
        let spare = length - 82 - 2;
        c1().descriptor(followed_by(d(), &vec![0; spare])).file()
    };
    vec![
        ask_file("a question file of 65,536 bytes", file(65_536), yes(0x0012_0089)),
        ask_file("12: a question file of 65,537 bytes", file(65_537), refused(12)),
        made("the largest token that keeps the rules: 27,942 and 22,888 bytes", with_capability),
        bad_record(
            4,
            "the longest by shape, 28,021 bytes; it lacks S-1-15-2-2",
            longest().record(),
        ),
        bad_listing(
            4,
            "the longest by shape, 22,940 bytes; it lacks S-1-15-2-2",
            longest().listing(),
        ),
    ]
}

#[cfg(test)]
mod tests {
    use super::*;

    #[test]
    fn the_lengths_are_as_said() {
        assert_eq!(longest().record().len(), 28_021);
        assert_eq!(longest().listing().len(), 22_940);
        let lengths: Vec<usize> = cases()
            .iter()
            .map(|case| match &case.body {
                Body::Ask { file, .. } => file.len(),
                Body::Convert { record, .. } => record.len(),
                Body::RefusedRecord { record, .. } => record.len(),
                Body::RefusedListing { listing, .. } => listing.len(),
            })
            .collect();
        assert_eq!(lengths, [65_536, 65_537, 27_942, 28_021, 22_940]);
    }
}

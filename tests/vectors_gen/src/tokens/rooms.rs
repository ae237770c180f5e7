//! Tokens whose record or listing is just as long as a room for it may be, or longer by little.

use super::{bad_listing, bad_record, made};
use crate::case::*;
use pirasteh_cases::make::{sid, Token};

/// U, and groups of which each takes 8 bytes of the record but the last, which takes what is left
/// of `length`. Every number takes one byte, and so the listing is four times as long.
fn small(length: usize) -> Token {
    let (mut token, left) = (tu(), length - 8);
    for number in 1..left / 8 {
        token = token.group(&sid(5, &[21, 1, 2, 3, number as u32]), 7);
    }
    let words = [9; 15];
    token.group(&sid(5, &words[..5 + left % 8]), 7)
}

/// The same token with every number as long as it gets. The listing is no longer.
fn long(mut token: Token) -> Token {
    let longest = |of: &[u8]| sid(0xFFFF_FFFF_FFFF, &[u32::MAX; 15][..usize::from(of[1])]);
    token.user = longest(&token.user);
    for (group, attributes) in &mut token.groups {
        (*group, *attributes) = (longest(group), u32::MAX);
    }
    token.privileges(u64::MAX)
}

/// The same token with S-1-3-4 for its last group, and one before it that makes up for the rest.
fn breaking(length: usize) -> Token {
    small(length - 4).group(&owner_rights(), 4)
}

pub fn cases() -> Vec<Case> {
    let mut all: Vec<Case> = [64, 65, 512, 513]
        .map(|length| made(&format!("{length} bytes, each a number of its own"), small(length)))
        .into();
    all.push(made("a listing of 1,024 bytes, of numbers as long as they get", long(small(256))));
    all.extend([
        bad_record(
            3,
            "a byte too many behind 64 that are good",
            followed_by(small(64).record(), &[0]),
        ),
        bad_record(3, "512 bytes of 513, each a number of its own", cut(small(513).record(), 512)),
        bad_record(4, "512 bytes, and the last group is S-1-3-4", breaking(512).record()),
        bad_listing(3, "1,024 bytes of 1,028", cut(small(257).listing(), 1024)),
        bad_listing(4, "1,024 bytes, and the last group is S-1-3-4", breaking(256).listing()),
    ]);
    all
}

#[cfg(test)]
mod tests {
    use super::*;

    #[test]
    fn the_lengths_are_as_said() {
        for length in [64, 65, 256, 257, 512, 513] {
            for token in [small(length), breaking(length)] {
                assert_eq!(token.record().len(), length);
                assert_eq!(token.listing().len(), 4 * length);
            }
            assert_eq!(long(small(length)).listing().len(), 4 * length);
        }
    }
}

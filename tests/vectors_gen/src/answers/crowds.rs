//! Tokens of very many identities that are hard to tell apart: by pairs of words, all of them make
//! the same by exclusive or.

use crate::case::*;
use pirasteh_cases::make::{acl, allow, deny, sid, Descriptor, Token};

/// One of them, by a number. All differ in their first and in their third word.
fn one(number: u32) -> Vec<u8> {
    sid(5, &[21 ^ number, 7, 32 ^ number, 544, 1000])
}

/// The first as the user, and 256 others as groups. These have the attributes that are said.
fn crowd(attributes: impl Fn(u32) -> u32) -> Token {
    (1..=256)
        .fold(Token::of(&one(0)), |token, number| token.group(&one(number), attributes(number)))
}

/// The same, with the first group once more in these places.
fn again(places: &[(usize, u32)]) -> Token {
    let mut token = crowd(|_| 4);
    for &(place, attributes) in places {
        token.groups[place] = (one(1), attributes);
    }
    token
}

pub fn cases() -> Vec<Case> {
    let last = one(256);
    let capabilities: Vec<Vec<u8>> =
        [all_restricted()].into_iter().chain((1..=63).map(one)).collect();
    let capabilities: Vec<&[u8]> = capabilities.iter().map(Vec::as_slice).collect();
    let confined = tu().confined(&one(0), &capabilities);
    vec![
        ask(
            "257 identities, and the entry names the last of them",
            on_list(crowd(|_| 4), 1, &[allow(1, &last)]),
            yes(1),
        ),
        ask(
            "257 identities, and the entry names somebody else like them",
            on_list(crowd(|_| 4), 1, &[allow(1, &one(257))]),
            no(0),
        ),
        ask(
            "257 identities, and the last of them is deny-only",
            on_list(
                crowd(|number| if number == 256 { 0x10 } else { 4 }),
                7,
                &[allow(4, &last), deny(1, &last), allow(3, &one(0))],
            ),
            no(2),
        ),
        ask(
            "257 identities, and the last of them is the owner",
            on(crowd(|_| 4), 0x6_0000, Descriptor::owned_by(&last).dacl(&acl(&[]))),
            yes(0x6_0000),
        ),
        ask(
            "257 identities, and one is listed twice, deny-only at first",
            on_list(again(&[(0, 0x10), (255, 4)]), 1, &[allow(1, &one(1))]),
            yes(1),
        ),
        ask(
            "257 identities, and one is listed three times: disabled, enabled and deny-only",
            on_list(
                again(&[(0, 0), (128, 4), (255, 0x10)]),
                3,
                &[deny(1, &one(1)), allow(3, &one(1))],
            ),
            no(2),
        ),
        ask(
            "64 capabilities, and the entries name the last of them, and somebody else like them",
            on_list(confined, 3, &[allow(3, &u()), allow(1, &one(63)), allow(2, &one(64))]),
            no(1).after(3, 1),
        ),
    ]
}

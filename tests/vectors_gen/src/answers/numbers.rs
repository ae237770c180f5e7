//! Identities and attribute words whose numbers take several bytes in the token: the answer hangs
//! on all of them.

use crate::case::*;
use pirasteh_cases::make::{allow, sid, Token};

pub fn cases() -> Vec<Case> {
    let words = [0x7F, 0x80, 0x4000, 0x20_0000, 0x8000_0001];
    let user = sid(0x8000_0000_0005, &words);
    let mut word_without_top = words;
    word_without_top[4] = 1;
    vec![
        ask(
            "numbers: a user with an authority of seven bytes and words of one to five",
            on_list(Token::of(&user), 3, &[allow(3, &user)]),
            yes(3),
        ),
        ask(
            "numbers: the same user is nobody else for want of his highest bits",
            on_list(
                Token::of(&user),
                3,
                &[allow(1, &sid(5, &words)), allow(2, &sid(0x8000_0000_0005, &word_without_top))],
            ),
            no(0),
        ),
        ask(
            "numbers: attributes 0x84, of two bytes, enable a group",
            on_list(tu().group(&g(), 0x84), 3, &[allow(3, &g())]),
            yes(3),
        ),
        ask(
            "numbers: attributes 0x200 do not, though their second byte is 4",
            on_list(tu().group(&g(), 0x200), 3, &[allow(3, &g())]),
            no(0),
        ),
    ]
}

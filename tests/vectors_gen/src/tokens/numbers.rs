//! The numbers of a record, in each of the three widths: every length, each bit of 48 and of 32,
//! and every form that is refused.

use super::{bad_record, both, made};
use crate::case::*;
use pirasteh_cases::hex;
use pirasteh_cases::make::{sid, Token};

pub fn cases() -> Vec<Case> {
    let mut all = lengths();
    all.extend(bits());
    all.extend(ends());
    all.extend(long_forms());
    all.extend(too_wide());
    all.extend(cut_off());
    all.extend(words_of_five_bytes());
    all
}

/// One number wherever it fits: as privileges, as authority, as word and as attribute word.
fn everywhere(number: u64) -> Token {
    let fits = |bits: u32, otherwise: u64| if number >> bits == 0 { number } else { otherwise };
    let user = sid(fits(48, 5), &[fits(32, 7) as u32]);
    Token::of(&user).privileges(number).group(&user, fits(32, 4) as u32)
}

/// The smallest number of each length, and the largest where no other case has it.
fn lengths() -> Vec<Case> {
    let mut all = vec![
        made("numbers: 127, the largest of one byte, wherever it fits", everywhere(127)),
        made("numbers: 2^14 - 1, the largest of two bytes", everywhere((1 << 14) - 1)),
        made("numbers: 2^63 - 1, the largest of nine bytes", everywhere((1 << 63) - 1)),
    ];
    for length in 5..=8 {
        let bits = 7 * length;
        all.push(made(
            &format!("numbers: 2^{bits} - 1, the largest of {length} bytes, wherever it fits"),
            everywhere((1 << bits) - 1),
        ));
    }
    for length in 2..=10 {
        let bit = 7 * (length - 1);
        all.push(made(
            &format!("numbers: 2^{bit}, the smallest of {length} bytes, wherever it fits"),
            everywhere(1 << bit),
        ));
    }
    all
}

fn bits() -> Vec<Case> {
    let mut alone = tu();
    alone.groups =
        (0..48).map(|bit| (sid(1 << bit, &[1 << (bit % 32)]), 1 << ((bit + 5) % 32))).collect();
    vec![
        both(
            "numbers: another bit in each group of seven",
            "01 00 81 82 84 88 90 A0 C0 81 82 01 01 81 82 84 88 90 A0 20 81 82 84 88 08 \
             01 01 05 07 90 A0 C0 81 01",
            "00 00 00 00 01 01 01 01 01 01 03 82 01 01 81 01 01 01 01 01 01 01 01 81 \
             01 00 00 00 01 01 00 00 00 00 00 05 07 00 00 00 10 10 30 10",
        ),
        made("numbers: each bit alone, as authority, as word and as attribute word", alone),
    ]
}

/// Where few bytes follow a number, or none. The last number of a record may be an authority; in
/// the cases of `super` it is a count, a word or an attribute word.
fn ends() -> Vec<Case> {
    let ending = |capability: Vec<u8>| tu().confined(&package(), &[&all_restricted(), &capability]);
    vec![
        made(
            "numbers: privileges of 128, and three bytes behind",
            Token::of(&sid(5, &[])).privileges(128),
        ),
        made("numbers: the last byte is an authority", ending(sid(127, &[]))),
        made("numbers: the last seven bytes are an authority", ending(sid(1 << 47, &[]))),
    ]
}

fn bad(reason: &str, record: &str) -> Case {
    bad_record(3, &format!("numbers: {reason}"), hex::bytes(record))
}

/// A last byte of 0, at every length to one more than the largest number has. Of two bytes: `super`.
fn long_forms() -> Vec<Case> {
    let mut all = vec![
        bad("an identity's count in three bytes", "01 00 00 82 80 00 05 00 07 00"),
        bad(
            "a count of capabilities in four bytes",
            "01 01 00 02 05 00 07 00 02 0F 02 09 81 80 80 00 02 0F 02 02",
        ),
        bad(
            "an attribute word of 2^28 - 1 in five bytes",
            "01 00 00 02 05 00 07 01 01 05 07 FF FF FF FF 00",
        ),
        bad("the version in six bytes", "81 80 80 80 80 00 00 00 02 05 00 07 00"),
    ];
    for length in 3..=8 {
        let (bytes, number) = filled(length);
        all.push(bad(
            &format!("an authority of {number} in {length} bytes"),
            &format!("01 00 00 02 {bytes} 00 07 00"),
        ));
    }
    for length in 3..=11 {
        let (bytes, number) = filled(length);
        all.push(bad(
            &format!("privileges of {number} in {length} bytes"),
            &format!("01 00 {bytes} 02 05 00 07 00"),
        ));
    }
    all
}

/// A number in so many bytes, the last of them 0: by turns the largest that fits without it, and 1,
/// with groups of 0 behind it. In eleven bytes the largest would be too wide besides.
fn filled(length: usize) -> (String, String) {
    if length % 2 == 1 && length < 11 {
        (format!("FF{} 00", " FF".repeat(length - 2)), format!("2^{} - 1", 7 * (length - 1)))
    } else {
        (format!("81{} 00", " 80".repeat(length - 2)), "1".into())
    }
}

/// Too wide in its last group, or by one group more.
fn too_wide() -> Vec<Case> {
    vec![
        bad("a version of 2^32 + 1", "81 80 80 80 10 00 00 02 05 00 07 00"),
        bad("a word of 2^34 + 7", "01 00 00 02 05 00 87 80 80 80 40 00"),
        bad("a word of 2^35 + 7, in six bytes", "01 00 00 02 05 00 87 80 80 80 80 01 00"),
        bad(
            "an authority of 2^49 + 5, in eight bytes",
            "01 00 00 02 85 80 80 80 80 80 80 01 00 07 00",
        ),
        bad("privileges of 2^69 + 2^63", "01 00 80 80 80 80 80 80 80 80 80 41 02 05 00 07 00"),
        bad(
            "privileges of 2^70, in eleven bytes",
            "01 00 80 80 80 80 80 80 80 80 80 80 01 02 05 00 07 00",
        ),
    ]
}

/// The record ends before the number does.
fn cut_off() -> Vec<Case> {
    let ending =
        |last: &str| format!("01 01 00 02 05 00 07 00 02 0F 02 09 02 02 0F 02 02 00 {last}");
    vec![
        bad("four bytes of an attribute word", "01 00 00 02 05 00 07 01 01 05 07 84 80 80 80"),
        bad("no authority, where it is the last number", &ending("")),
        bad("six bytes of an authority", &ending("85 80 80 80 80 80")),
        bad("one byte of the privileges", "01 00 80"),
        bad("nine bytes of the privileges", "01 00 80 80 80 80 80 80 80 80 80"),
    ]
}

/// Words about 2^28, from which on they take five bytes, and about 2^32, in long identities.
fn words_of_five_bytes() -> Vec<Case> {
    const ABOUT: [u32; 4] = [u32::MAX, (1 << 28) - 1, 1 << 28, 1 << 31];
    let of = |length: usize| -> Vec<u32> { ABOUT.into_iter().cycle().take(length).collect() };
    let token = [2, 5, 15].iter().fold(Token::of(&sid(5, &of(1))), |token, &length| {
        let mut backwards = of(length);
        backwards.reverse();
        token.group(&sid(5, &of(length)), 1 << 28).group(&sid(5, &backwards), u32::MAX)
    });
    let five = |third: &str, last: &str| {
        format!("01 00 00 05 05 15 FF FF FF FF 0F {third} 80 80 80 80 01 {last}")
    };
    vec![
        made("numbers: words about 2^28 and 2^32 in identities of 1, 2, 5 and 15 words", token),
        bad("the third of five words is 2^32", &five("80 80 80 80 10", "07 00")),
        bad("the third of five words is 2^28 - 1, in five bytes", &five("FF FF FF FF 00", "07 00")),
        bad("four bytes of the last of five words", &five("80 80 80 80 01", "FF FF FF FF")),
    ]
}

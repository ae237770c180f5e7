//! The six numbers of a question file, and where the numbers of a token end in it. Card c1 with
//! other numbers, unless said.

use crate::case::*;
use pirasteh_cases::hex;

pub fn cases() -> Vec<Case> {
    let mut all = good();
    all.extend(bad());
    all.extend(behind_the_token());
    all
}

/// Around 128, where numbers begin to take two bytes.
fn good() -> Vec<Case> {
    let spare = |length: usize| followed_by(d(), &vec![0; length - d().len()]);
    vec![
        ask("numbers: a mask of 127", c1().mask(127), no(0x09)),
        ask("numbers: a mask of 128", c1().mask(128), yes(0x80)),
        ask("numbers: a mask of 129", c1().mask(129), yes(0x81)),
        ask("1: numbers: kind 129", c1().kind(129), refused(1)),
        ask("numbers: a descriptor of 127 bytes", c1().descriptor(spare(127)), yes(0x0012_0089)),
        ask("numbers: a descriptor of 128 bytes", c1().descriptor(spare(128)), yes(0x0012_0089)),
    ]
}

fn bad() -> Vec<Case> {
    // The six numbers of c1's file stand at 0, 1, 6, 15, 16 and 81. All but the mask have one byte.
    let c1 = c1().file();
    let spliced = |at: usize, new: &str| {
        let old = if at == 1 { 5 } else { 1 };
        [&c1[..at], &hex::bytes(new), &c1[at + old..]].concat()
    };
    let mut all = Vec::new();
    for (reason, file) in [
        ("the kind in three bytes", spliced(0, "81 80 00")),
        ("the token length in four bytes", spliced(6, "88 80 80 00")),
        ("the descriptor length in five bytes", spliced(16, "C0 80 80 80 00")),
        ("the policy length in six bytes", spliced(81, "80 80 80 80 80 00")),
        ("a mask of 2^34 + 2^31", spliced(1, "80 80 80 80 48")),
        ("a mask of 2^35 + 2^31, in six bytes", spliced(1, "80 80 80 80 88 01")),
        ("four bytes of the last length", spliced(81, "80 80 80 80")),
    ] {
        all.push(ask_file(&format!("12: numbers: {reason}"), file, refused(12)));
    }
    all
}

/// What stands behind the token is no part of its last number.
fn behind_the_token() -> Vec<Case> {
    let with_self = |token: &str| c1().token(hex::bytes(token)).self_id(&w());
    vec![
        ask(
            "3: numbers: no attribute word, and a self length of 12 behind the token",
            with_self("01 00 00 02 05 00 07 01 01 05 07"),
            refused(3),
        ),
        ask(
            "3: numbers: an attribute word that would end in the self length behind the token",
            with_self("01 00 00 02 05 00 07 01 01 05 07 84"),
            refused(3),
        ),
    ]
}

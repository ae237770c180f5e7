//! Where the rights went: the masks after each step, what was lost, and the names of rights.

mod common;

use common::{C1, DESCRIPTOR, OWNER};
use pirasteh::mask::{ACCESS_SYSTEM_SECURITY, FILE_ALL_ACCESS, KEY_ALL_ACCESS, MAXIMUM_ALLOWED};
use pirasteh::{
    check, question, raw, rights, why, why_question, Descriptor, Error, Kind, Lost, Policy,
    Question, SelfId, Step, Token, Why,
};

/// A confined scanner asks a file for read data, write data, execute and delete, and loses a right
/// at each of the three steps.
const LOST: &[u8; 170] = include_bytes!("../../crates/ask/data/lost");

/// The same question by its parts, which stand in the file behind their lengths.
fn lost() -> Question<'static> {
    Question {
        kind: Kind::File,
        mask: 0x0001_0023,
        token: Token(&LOST[5..22]),
        self_id: SelfId::NONE,
        descriptor: Descriptor(&LOST[24..112]),
        policy: Policy(&LOST[113..]),
    }
}

const TOLD: Why = Why {
    kind: Kind::File,
    asked: 0x0001_0023,
    normal: 0x23,
    confined: 0x3,
    ruled: 0x1,
    granted: 0x1,
    allowed: false,
    staged: false,
};

fn lines(why: &Why) -> Vec<String> {
    why.lost().map(|lost| lost.to_string()).collect()
}

#[test]
fn a_right_is_lost_at_each_step() {
    assert_eq!(why(&lost()), Ok(TOLD));
    assert_eq!(why_question(LOST), Ok(TOLD));
    let expected = [
        Lost { bit: 0x2, name: "write data", step: Step::Policy },
        Lost { bit: 0x20, name: "execute", step: Step::Confinement },
        Lost { bit: 0x0001_0000, name: "delete", step: Step::NormalEvaluation },
    ];
    assert_eq!(TOLD.lost().collect::<Vec<_>>(), expected);
    let expected = [
        "lost 0x00000002 write data: policy",
        "lost 0x00000020 execute: confinement",
        "lost 0x00010000 delete: normal evaluation",
    ];
    assert_eq!(lines(&TOLD), expected);
}

#[test]
fn it_prints_five_lines() {
    let expected = "granted 0x00000001 allowed no staged no\nnormal 0x00000023\n\
                    confined 0x00000003\npolicy 0x00000001\ngranted 0x00000001";
    assert_eq!(TOLD.to_string(), expected);
}

/// Nothing is lost where all is granted, and where nothing is asked.
#[test]
fn nothing_is_lost() {
    let all = why(&C1).expect("an answer");
    assert_eq!((all.asked, all.normal, all.granted), (0x0012_0089, 0x0012_0089, 0x0012_0089));
    assert_eq!(all.lost().count(), 0);
    let none = why(&Question { mask: 0, ..C1 }).expect("an answer");
    assert_eq!((none.asked, none.allowed, none.lost().count()), (0, true, 0));
}

/// The maximum asks for all bits of the kind, and not for 0x01000000.
#[test]
fn the_maximum_asks_for_all_bits_of_the_kind() {
    for (kind, all) in [(Kind::File, FILE_ALL_ACCESS), (Kind::Key, KEY_ALL_ACCESS)] {
        let most = why(&Question { kind, mask: MAXIMUM_ALLOWED, ..C1 }).expect("an answer");
        assert_eq!((most.kind, most.asked), (kind, all));
        assert_eq!(most.lost().fold(most.granted, |bits, lost| bits | lost.bit), all);
    }
}

#[test]
fn the_answer_is_the_one_of_check_and_question() {
    let bad = b"neither empty nor a SID nor a policy";
    let exempt = [&[1, 3][..], &LOST[7..22]].concat();
    for asked in [
        C1,
        lost(),
        Question { token: Token(&OWNER), ..C1 },
        Question { token: Token(&exempt), ..lost() },
        Question { kind: Kind::Key, mask: MAXIMUM_ALLOWED, ..C1 },
        Question { policy: Policy::NONE, ..lost() },
        Question { mask: 0x0400_0000, ..C1 },
        Question { token: Token(bad), ..C1 },
        Question { token: Token(&[1, 2, 0, 0, 0, 0]), ..C1 },
        Question { self_id: SelfId(bad), ..C1 },
        Question { descriptor: Descriptor(&DESCRIPTOR[..60]), ..C1 },
        Question { policy: Policy(bad), ..C1 },
    ] {
        let told = why(&asked);
        assert_eq!(told.map(|why| why.answer()), check(&asked));
        assert_eq!(told.map(|why| why.kind), told.map(|_| asked.kind));
    }
    for file in [&LOST[..], &LOST[..169], &[], &[3, 0, 0, 0, 0, 0], &[1, 0, 0, 0, 0, 0]] {
        assert_eq!(why_question(file).map(|why| why.answer()), question(file));
    }
    assert_eq!(why_question(&[]), Err(Error::FileShape));
    assert_eq!(why_question(&[3, 0, 0, 0, 0, 0]), Err(Error::Kind));
}

/// All words are written in every case, and a refusal zeroes them.
#[test]
fn a_refusal_zeroes_every_word() {
    for (file, status, expected) in [
        (&LOST[..], 0, [1, 0x0001_0023, 0x23, 0x3, 0x1, 0x1, 0, 0]),
        (&LOST[..169], 12, [0; 8]),
        (&[1, 0, 0, 0, 0, 0], 3, [0; 8]),
    ] {
        let mut words = [0x5A5A_5A5A; 8];
        let [kind, asked, normal, confined, ruled, granted, allowed, staged] = &mut words;
        // SAFETY: the pointers are of a live slice and of live words, which do not overlap.
        let said = unsafe {
            raw::pirasteh_why_question(
                file.as_ptr(),
                file.len(),
                kind,
                asked,
                normal,
                confined,
                ruled,
                granted,
                allowed,
                staged,
            )
        };
        assert_eq!((said, words), (status, expected));
    }
}

/// What stands in a `Why` that was not made by the library is told without a panic.
#[test]
fn a_bit_without_a_name() {
    let made = Why { kind: Kind::Key, asked: 0x8010_0001, granted: 1, ..TOLD };
    let expected = [
        "lost 0x00100000 unnamed right: normal evaluation",
        "lost 0x80000000 unnamed right: normal evaluation",
    ];
    assert_eq!(lines(&made), expected);
}

#[test]
fn every_right_has_a_name_and_nothing_else_has_one() {
    for (kind, all) in [(Kind::File, FILE_ALL_ACCESS), (Kind::Key, KEY_ALL_ACCESS)] {
        let mut names = Vec::new();
        for bit in (0..32).map(|place| 1 << place) {
            let name = rights::name(kind, bit);
            let right = (all | ACCESS_SYSTEM_SECURITY) & bit != 0;
            assert_eq!(name.is_some(), right, "{kind:?}, {bit:#010x}");
            names.extend(name);
        }
        let several = names.len();
        names.sort_unstable();
        names.dedup();
        assert_eq!(names.len(), several, "two rights of {kind:?} have one name");
        for mask in [0, 3, all, u32::MAX] {
            assert_eq!(rights::name(kind, mask), None, "{kind:?}, {mask:#010x}");
        }
    }
}

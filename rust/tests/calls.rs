//! The functions do what their documentation says, beyond its examples.

mod common;

use common::{C1, DESCRIPTOR, OWNER, USER};
use pirasteh::{
    allows, check, list, list_vec, pack, pack_vec, question, Answer, Descriptor, Error, Kind,
    Listing, Policy, Question, SelfId, Token,
};

const GRANTED: Result<Answer, Error> =
    Ok(Answer { granted: 0x0012_0089, allowed: true, staged: false });

#[test]
fn card_c1() {
    assert_eq!(check(&C1), GRANTED);
    assert!(allows(&C1));
}

/// Card c2: the owner asks. Answered, with a right, and not allowed.
#[test]
fn answered_is_not_allowed() {
    let owner = Question { token: Token(&OWNER), ..C1 };
    let answer = check(&owner).expect("an answer");
    assert_eq!(answer.to_string(), "granted 0x00020000 allowed no staged no");
    assert!(!allows(&owner));
}

/// Card c7: the staged list of a rule would have decided otherwise.
#[test]
fn staged_is_told() {
    let mut descriptor = DESCRIPTOR;
    descriptor[44..48].copy_from_slice(&3_u32.to_le_bytes());
    let list = |mask: u32| {
        let mut bytes = descriptor[32..].to_vec();
        bytes[12..16].copy_from_slice(&mask.to_le_bytes());
        [&32_u32.to_le_bytes()[..], &bytes].concat()
    };
    let none = [0; 4];
    let policy = [&[1, 1, 0, 0, 0][..], &none, &list(1), &none, &list(3), &none].concat();
    let seven =
        Question { mask: 3, descriptor: Descriptor(&descriptor), policy: Policy(&policy), ..C1 };
    let answer = check(&seven).expect("an answer");
    assert_eq!(answer.to_string(), "granted 0x00000001 allowed no staged yes");
}

#[test]
fn each_part_has_its_refusal() {
    let bad = b"neither empty nor a SID nor a policy";
    for (question, error) in [
        (Question { mask: 0x0400_0000, ..C1 }, Error::Mask),
        (Question { kind: Kind::Key, mask: 0x0010_0000, ..C1 }, Error::Mask),
        (Question { token: Token(bad), ..C1 }, Error::TokenShape),
        (Question { token: Token(&[1, 2, 0, 0, 0, 0]), ..C1 }, Error::TokenRule),
        (Question { self_id: SelfId(bad), ..C1 }, Error::SelfId),
        (Question { descriptor: Descriptor(&[]), ..C1 }, Error::DescriptorShape),
        (Question { policy: Policy(bad), ..C1 }, Error::PolicyShape),
    ] {
        assert_eq!(check(&question), Err(error));
        assert!(!allows(&question));
    }
    assert_eq!(question(&[]), Err(Error::FileShape));
    assert_eq!(question(&[3, 0, 0, 0, 0, 0]), Err(Error::Kind));
}

#[test]
fn errors_have_the_numbers_of_the_page() {
    assert_eq!(Error::from_number(0), None);
    for number in 1..=14 {
        let error = Error::from_number(number).expect("a refusal");
        assert_eq!(error.number(), number);
        assert_eq!(error.to_string(), format!("refused {number}: {}", error.meaning()));
        assert_eq!(matches!(error, Error::Unknown(_)), number > 12);
        assert!(!error.meaning().contains('\n'));
    }
}

#[test]
fn kinds_have_the_numbers_of_the_page() {
    for number in 0..5 {
        let kind = Kind::from_number(number);
        assert_eq!(kind.map(Kind::number), (1..=2).contains(&number).then_some(number));
    }
}

#[test]
fn buffers_are_written_as_far_as_the_result_goes() {
    let listing = list_vec(Token(&USER)).expect("a listing");
    assert_eq!(pack_vec(Listing(&listing)).as_deref(), Ok(&USER[..]));

    let mut out = [0x5A; 40];
    assert_eq!(list(Token(&USER), &mut out), Ok(32));
    assert_eq!(out[..32], listing);
    assert_eq!(out[32..], [0x5A; 8]);

    let mut out = [0x5A; 31];
    assert_eq!(list(Token(&USER), &mut out), Err(Error::ShortBuffer));
    assert_eq!(pack(Listing(&USER), &mut out), Err(Error::TokenShape));
    assert_eq!(out, [0x5A; 31]);
    assert_eq!(pack(Listing(&listing), &mut []), Err(Error::ShortBuffer));
}

#[test]
fn many_threads_may_ask() {
    std::thread::scope(|scope| {
        for _ in 0..8 {
            scope.spawn(|| (0..1000).for_each(|_| assert_eq!(check(&C1), GRANTED)));
        }
    });
}

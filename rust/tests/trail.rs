//! The audit trail: what is written, when, into how much room, and what reads it.

mod common;

use common::{C1, DESCRIPTOR, OWNER};
use pirasteh::mask::{DELETE, GENERIC_ALL, GENERIC_READ, MAXIMUM_ALLOWED};
use pirasteh::{
    check, events, question, raw, trail, trail_bound, trail_question, Answer, Descriptor, Error,
    Event, Kind, NoTrail, Policy, Question, SelfId, Token, Traced, DESCRIPTOR_MAX, POLICY_MAX,
    QUESTION_MAX, TRAIL_MAX, TRAIL_QUESTION_MAX,
};

/// The user reads data of a file whose SACL has an entry for failure at anything, and one for
/// success in reading. The one rule of the policy has a SACL of its own, with an entry for both.
const OPENED: &[u8; 223] = include_bytes!("../../crates/ask/data/opened");

/// The same question by its parts, which stand in the file behind their lengths.
fn opened() -> Question<'static> {
    Question {
        kind: Kind::File,
        mask: 0x1,
        token: Token(&OPENED[3..11]),
        self_id: SelfId::NONE,
        descriptor: Descriptor(&OPENED[13..133]),
        policy: Policy(&OPENED[134..]),
    }
}

/// Its trail, and its answer.
const TRAIL: [u8; 10] = [0, 1, 0x01, 1, 0, 0x80, 0x80, 0x80, 0x80, 0x01];
const ANSWER: Answer = Answer { granted: 0x1, allowed: true, staged: false };

/// Card c1, which has no SACL.
const C1_FILE: &[u8; 82] = include_bytes!("../../crates/ask/data/c1");

fn event(source: u32, entry: u32, mask: u32) -> Event {
    Event { source, entry, mask }
}

/// The answer to a question, and its events.
fn traced(question: &Question<'_>) -> (Answer, Vec<Event>) {
    let mut room = vec![0; trail_bound(question.descriptor.0.len(), question.policy.0.len())];
    let traced = trail(question, &mut room).expect("an answer");
    let told: Result<Vec<_>, _> = events(&room[..traced.length]).collect();
    (traced.answer, told.expect("a trail"))
}

#[test]
fn an_event_for_each_entry_that_speaks() {
    let mut room = [0xEE; 12];
    assert_eq!(trail(&opened(), &mut room), Ok(Traced { answer: ANSWER, length: 10 }));
    assert_eq!(room[..10], TRAIL);
    assert_eq!(room[10..], [0xEE; 2]);
    let mut room = [0xEE; TRAIL_QUESTION_MAX];
    let traced = trail_question(OPENED, &mut room).expect("an answer");
    assert_eq!(traced, Traced { answer: ANSWER, length: 10 });
    assert_eq!(traced.to_string(), "granted 0x00000001 allowed yes staged no");
    assert_eq!(room[..10], TRAIL);
    assert!(room[10..].iter().all(|&byte| byte == 0xEE));
}

#[test]
fn success_and_failure_have_their_own_entries() {
    let (answer, told) = traced(&opened());
    assert!(answer.allowed);
    assert_eq!(told, [event(0, 1, 0x1), event(1, 0, GENERIC_ALL)]);
    let (answer, told) = traced(&Question { mask: DELETE, ..opened() });
    assert_eq!((answer.granted, answer.allowed), (0, false));
    assert_eq!(told, [event(0, 0, GENERIC_ALL), event(1, 0, GENERIC_ALL)]);
    // Write data would be allowed by the descriptor, and is lost to the rule: failure.
    let (answer, told) = traced(&Question { mask: 0x3, ..opened() });
    assert_eq!((answer.granted, answer.allowed), (0x1, false));
    assert_eq!(told, [event(0, 0, GENERIC_ALL), event(1, 0, GENERIC_ALL)]);
}

/// Who is not named, and what is not named, leaves no event.
#[test]
fn no_event() {
    for question in [
        C1,
        Question { token: Token(&OWNER), ..opened() },
        Question { mask: 0, ..opened() },
        Question { mask: MAXIMUM_ALLOWED, ..opened() },
    ] {
        assert_eq!(traced(&question).1, []);
        let traced = trail(&question, &mut []).expect("room for no event");
        assert_eq!(traced.length, 0);
    }
    // Beside the maximum a bit that is named counts.
    let (_, told) = traced(&Question { mask: MAXIMUM_ALLOWED | 0x1, ..opened() });
    assert_eq!(told, [event(0, 1, 0x1), event(1, 0, GENERIC_ALL)]);
}

/// The entry with this number of the descriptor's SACL, or with 2 the one of the rule's, has a byte
/// changed: 0 is its type, 1 its flags.
fn changed(entry: usize, place: usize, byte: u8) -> Vec<u8> {
    let mut file = OPENED.to_vec();
    file[[13 + 40, 13 + 64, 134 + 57][entry] + place] = byte;
    file
}

fn told_of(file: &[u8]) -> Result<Vec<Event>, Error> {
    let mut room = [0; TRAIL_QUESTION_MAX];
    let traced = trail_question(file, &mut room)?;
    Ok(events(&room[..traced.length]).map(|event| event.expect("a trail")).collect())
}

#[test]
fn flags_and_types() {
    let [first, second, third] =
        [event(0, 0, GENERIC_ALL), event(0, 1, 1), event(1, 0, GENERIC_ALL)];
    // Inherit-only, for the other outcome, for both, and of another type.
    assert_eq!(told_of(&changed(1, 1, 0x48)), Ok(vec![third]));
    assert_eq!(told_of(&changed(1, 1, 0x80)), Ok(vec![third]));
    assert_eq!(told_of(&changed(0, 1, 0xC0)), Ok(vec![first, second, third]));
    assert_eq!(told_of(&changed(0, 0, 3)), Ok(vec![second, third]));
    assert_eq!(told_of(&changed(2, 1, 0x80)), Ok(vec![second]));
}

/// A SID of more words than its entry has room for is misshapen, in an audit entry too.
#[test]
fn audit_entries_are_judged() {
    for (entry, refused) in [(0, 6), (1, 6), (2, 9)] {
        let file = changed(entry, 9, 3);
        assert_eq!(told_of(&file).map_err(Error::number), Err(refused));
        assert_eq!(question(&file).map_err(Error::number), Err(refused));
        // As an entry of another type only its size is judged.
        let mut other = file;
        other[[13 + 40, 13 + 64, 134 + 57][entry]] = 3;
        assert!(told_of(&other).is_ok());
    }
}

/// A staged SACL raises the flag where its masks would be others, and only there.
#[test]
fn a_staged_sacl_is_told() {
    let sacl = &OPENED[134 + 49..134 + 81];
    let none = [0; 4];
    let ask = |mask: u32, staged: &[u8]| {
        let length = u32::try_from(staged.len()).expect("a short list").to_le_bytes();
        let policy = [&OPENED[134..134 + 81], &none, &length, staged].concat();
        let question = Question { mask, policy: Policy(&policy), ..opened() };
        let (answer, told) = traced(&question);
        assert_eq!(check(&question), Ok(answer));
        (answer.staged, told.len())
    };
    let mut other = sacl.to_vec();
    other[15] = 0x80; // generic read
    let empty = [2, 0, 8, 0, 0, 0, 0, 0];
    assert_eq!(ask(1, &[]), (false, 2));
    assert_eq!(ask(1, sacl), (false, 2));
    assert_eq!(ask(1, &other), (true, 2));
    assert_eq!(ask(1, &empty), (true, 2));
    // Of delete the staged entry says nothing, and the effective one does.
    assert_eq!(ask(DELETE, &other), (true, 2));
    // Nothing is named, so neither says anything.
    assert_eq!(ask(0, &other), (false, 0));
}

/// All of it is written, or nothing is and there is no answer.
#[test]
fn all_or_nothing() {
    for length in 0..12 {
        for file in [false, true] {
            let mut room = vec![0xEE; length];
            let said =
                if file { trail_question(OPENED, &mut room) } else { trail(&opened(), &mut room) };
            if length < 10 {
                assert_eq!(said, Err(Error::ShortBuffer));
                assert_eq!(room, vec![0xEE; length]);
            } else {
                assert_eq!(said, Ok(Traced { answer: ANSWER, length: 10 }));
                assert_eq!(room[..10], TRAIL);
                assert_eq!(room[10..], vec![0xEE; length - 10]);
            }
        }
    }
}

/// 11 comes last, and a refusal by any number writes nothing but zeros into the words.
#[test]
fn a_refusal_zeroes_every_word() {
    let misshapen = changed(2, 9, 3);
    for (file, status, expected) in [
        (&OPENED[..], 11, [0; 3]),
        (&OPENED[..222], 12, [0; 3]),
        (&misshapen, 9, [0; 3]),
        (&[1, 0, 0, 0, 0, 0], 3, [0; 3]),
        (C1_FILE, 0, [0x0012_0089, 1, 0]),
    ] {
        let mut words = [0x5A5A_5A5A; 3];
        let [granted, allowed, staged] = &mut words;
        let mut written = usize::MAX;
        let mut room = [0xEE; 9];
        // SAFETY: the pointers are of a live slice, a live array and live words, which do not
        // overlap.
        let said = unsafe {
            raw::pirasteh_trail_question(
                file.as_ptr(),
                file.len(),
                room.as_mut_ptr(),
                room.len(),
                &raw mut written,
                granted,
                allowed,
                staged,
            )
        };
        assert_eq!((said, words, written), (status, expected, 0));
        assert_eq!(room, [0xEE; 9]);
    }
}

#[test]
fn the_answer_is_the_one_of_check_and_question() {
    let bad = b"neither empty nor a SID nor a policy";
    let mut room = vec![0; TRAIL_MAX];
    for asked in [
        C1,
        opened(),
        Question { token: Token(&OWNER), ..opened() },
        Question { kind: Kind::Key, mask: GENERIC_READ, ..opened() },
        Question { policy: Policy::NONE, mask: 0x3, ..opened() },
        Question { mask: 0x0400_0000, ..opened() },
        Question { token: Token(bad), ..opened() },
        Question { token: Token(&[1, 2, 0, 0, 0, 0]), ..opened() },
        Question { self_id: SelfId(bad), ..opened() },
        Question { descriptor: Descriptor(&DESCRIPTOR[..60]), ..opened() },
        Question { policy: Policy(bad), ..opened() },
    ] {
        assert_eq!(trail(&asked, &mut room).map(|traced| traced.answer), check(&asked));
    }
    for file in [&OPENED[..], &OPENED[..222], &[], &[3, 0, 0, 0, 0, 0], &[1, 0, 0, 0, 0, 0]] {
        assert_eq!(trail_question(file, &mut room).map(|traced| traced.answer), question(file));
    }
}

#[test]
fn bounds() {
    assert_eq!(trail_bound(DESCRIPTOR_MAX, POLICY_MAX), TRAIL_MAX);
    assert_eq!(trail_bound(QUESTION_MAX, 0), TRAIL_QUESTION_MAX);
    for both in 0..1000 {
        assert_eq!(trail_bound(both / 2, both - both / 2), 9 * both / 16);
    }
    let most = isize::MAX as usize;
    assert_eq!(trail_bound(most, most) / 9, (2 * most) / 16);
}

/// The densest trail that there is: a SACL of as many audit entries as it holds, each for a SID of
/// no words, with the widest mask.
#[test]
fn the_fullest_trail_fits_its_bound() {
    let sid = [1, 0, 0, 0, 0, 0, 0, 5]; // S-1-5
    let token = [1, 0, 0, 0, 5, 0];
    let entry = [&[2, 0xC0, 16, 0, 0xFF, 0xFF, 0xFF, 0xFF][..], &sid].concat();
    let count = (DESCRIPTOR_MAX - 36) / 16;
    let size = u16::try_from(8 + 16 * count).expect("a list");
    let mut descriptor =
        [&[1, 0, 0x10, 0x80, 20, 0, 0, 0, 0, 0, 0, 0, 28, 0, 0, 0][..], &[0; 4]].concat();
    descriptor.extend(sid);
    descriptor.extend([2, 0]);
    descriptor.extend(size.to_le_bytes());
    descriptor.extend(u16::try_from(count).expect("a count").to_le_bytes());
    descriptor.extend([0, 0]);
    for _ in 0..count {
        descriptor.extend(&entry);
    }
    let question = Question { token: Token(&token), descriptor: Descriptor(&descriptor), ..C1 };
    let (answer, told) = traced(&question);
    assert!(answer.allowed);
    assert_eq!(told.len(), count);
    for (number, event) in (0..).zip(told) {
        assert_eq!(event, Event { source: 0, entry: number, mask: u32::MAX });
    }
}

#[test]
fn bytes_that_are_no_trail() {
    let read = |bytes: &[u8]| events(bytes).collect::<Vec<_>>();
    let widest = [0xFF, 0xFF, 0xFF, 0xFF, 0x0F];
    assert_eq!(read(&[]), []);
    assert_eq!(read(&[0, 0, 0]), [Ok(event(0, 0, 0))]);
    assert_eq!(read(&[127, 0x80, 1, 0xAC, 2]), [Ok(event(127, 128, 300))]);
    assert_eq!(read(&[widest, widest, widest].concat()), [Ok(event(u32::MAX, u32::MAX, u32::MAX))]);
    for (bytes, why) in [
        (&[0][..], NoTrail::CutShort),
        (&[0, 0], NoTrail::CutShort),
        (&[0, 0, 0x80], NoTrail::CutShort),
        (&[0, 0, 0xFF, 0xFF, 0xFF, 0xFF], NoTrail::CutShort),
        (&[0x80, 0, 0, 0], NoTrail::LongerForm),
        (&[0, 0, 0x80, 0x80, 0x80, 0x80, 0x00], NoTrail::LongerForm),
        (&[0, 0, 0x80, 0x80, 0x80, 0x80, 0x10], NoTrail::TooWide),
        (&[0, 0, 0xFF, 0xFF, 0xFF, 0xFF, 0x1F], NoTrail::TooWide),
        (&[0, 0, 0x80, 0x80, 0x80, 0x80, 0x80, 0x01], NoTrail::TooWide),
    ] {
        assert_eq!(read(bytes), [Err(why)], "{bytes:02x?}");
        let behind = [&TRAIL, bytes].concat();
        let expected = [Ok(event(0, 1, 1)), Ok(event(1, 0, GENERIC_ALL)), Err(why)];
        assert_eq!(read(&behind), expected, "{bytes:02x?}");
    }
}

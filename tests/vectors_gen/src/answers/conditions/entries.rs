//! Callback entries in a list: one whose condition is false says nothing.

use super::{asker, owned};
use crate::case::*;
use pirasteh_cases::expressions::*;
use pirasteh_cases::make::{allow, deny, sid, Question};

pub fn cases() -> Vec<Case> {
    let mut all = walks();
    all.extend(strangers());
    all.extend(lengths());
    all
}

/// G is a member and W is none.
fn yes_if() -> Vec<u8> {
    asks(MEMBER_OF, &literal(&g()))
}

fn no_if() -> Vec<u8> {
    asks(MEMBER_OF, &literal(&w()))
}

fn asks_for(mask: u32, entries: &[Vec<u8>]) -> Question {
    on_list(asker(), mask, entries)
}

fn walks() -> Vec<Case> {
    let [holds, fails] = [yes_if(), no_if()];
    vec![
        ask(
            "callbacks: an allow with a true condition allows",
            asks_for(3, &[callback_allow(3, &u(), &holds)]),
            yes(3),
        ),
        ask(
            "callbacks: an allow with a false condition says nothing",
            asks_for(3, &[callback_allow(3, &u(), &fails)]),
            no(0),
        ),
        ask(
            "callbacks: a deny with a true condition denies",
            asks_for(3, &[callback_deny(1, &u(), &holds), allow(3, &u())]),
            no(2),
        ),
        ask(
            "callbacks: a deny with a false condition says nothing",
            asks_for(3, &[callback_deny(1, &u(), &fails), allow(3, &u())]),
            yes(3),
        ),
        ask(
            "callbacks: a false allow leaves its bits to the deny behind it",
            asks_for(3, &[callback_allow(3, &u(), &fails), deny(1, &u()), allow(3, &u())]),
            no(2),
        ),
        ask(
            "callbacks: a true allow keeps its bits from the deny behind it",
            asks_for(3, &[callback_allow(1, &u(), &holds), deny(3, &u()), allow(3, &u())]),
            no(1),
        ),
        ask(
            "callbacks: stored order decides, a true deny behind an allow is late",
            asks_for(3, &[allow(1, &u()), callback_deny(3, &u(), &holds), allow(3, &u())]),
            no(1),
        ),
        ask(
            "callbacks: the entries of a list are true and false by turns",
            asks_for(
                0xF,
                &[
                    callback_allow(1, &u(), &holds),
                    callback_deny(2, &u(), &fails),
                    callback_allow(4, &g(), &fails),
                    callback_deny(8, &g(), &holds),
                    allow(0xF, &u()),
                ],
            ),
            no(7),
        ),
        ask(
            "callbacks: generic bits are mapped as in other entries",
            asks_for(0x8000_0000, &[callback_allow(0x8000_0000, &u(), &holds)]),
            yes(0x0012_0089),
        ),
        ask(
            "callbacks: a key",
            asks_for(0x0200_0000, &[callback_allow(0x8000_0000, &u(), &holds)]).kind(2),
            yes(0x0002_0019),
        ),
        ask(
            "callbacks: no entry grants 0x01000000",
            asks_for(0x0100_0001, &[callback_allow(u32::MAX, &u(), &holds)]),
            no(1),
        ),
        ask(
            "callbacks: an inherit-only allow is skipped though its condition is true",
            asks_for(1, &[callback(ALLOW, 0x08, 1, &u(), &holds)]),
            no(0),
        ),
        ask(
            "callbacks: an inherit-only deny is skipped though its condition is true",
            asks_for(1, &[callback(DENY, 0x0B, 1, &u(), &holds), allow(1, &u())]),
            yes(1),
        ),
        ask(
            "callbacks: other flags do not matter",
            asks_for(1, &[callback(ALLOW, 0xF7, 1, &u(), &holds)]),
            yes(1),
        ),
        ask(
            "callbacks: an allow for a deny-only group does not match, whatever its condition",
            on_list(tu().group(&g(), 0x10), 1, &[callback_allow(1, &g(), &always())]),
            no(0),
        ),
        ask(
            "callbacks: an allow for S-1-5-10 with a true condition",
            asks_for(1, &[callback_allow(1, &principal_self(), &holds)]).self_id(&u()),
            yes(1),
        ),
        ask(
            "callbacks: the last entry of a list, with spare bytes of the list behind it",
            {
                let list = pirasteh_cases::make::acl(&[callback_allow(1, &u(), &holds)]);
                let size = list.len() as u8 + 5;
                let list = patched(followed_by(list, &[0xF8; 5]), 2, &[size]);
                on(asker(), 1, pirasteh_cases::make::Descriptor::owned_by(&w()).dacl(&list))
            },
            yes(1),
        ),
    ]
}

/// An entry that names a stranger is a stranger's with any condition.
fn strangers() -> Vec<Case> {
    let stranger = sid(5, &[0, 8]);
    let beside = |entry: Vec<u8>| asks_for(3, &[entry, allow(1, &u())]);
    vec![
        ask(
            "strangers: a callback allow with a condition that is true",
            beside(callback_allow(3, &stranger, &always())),
            no(1),
        ),
        ask(
            "strangers: a callback deny with a condition that is true",
            beside(callback_deny(3, &stranger, &yes_if())),
            no(1),
        ),
        ask(
            "strangers: a callback deny with a condition that is false",
            beside(callback_deny(3, &stranger, &never())),
            no(1),
        ),
        ask(
            "strangers: a callback allow for the owner, who does not ask",
            owned(asker(), &w(), &[callback_allow(1, &w(), &always())]),
            no(0),
        ),
        ask(
            "strangers: a condition that names its entry's own SID",
            beside(callback_deny(3, &stranger, &asks(NOT_MEMBER_OF, &literal(&stranger)))),
            no(1),
        ),
    ]
}

/// As many bytes as a question file has room for.
fn lengths() -> Vec<Case> {
    // The file has 16 bytes beside the descriptor, that has 40 before its entries, and the entry 24
    // before its condition.
    let room = 65_536 - 16 - 40 - 24;
    let strangers: Vec<Vec<u8>> = (0..3_845).map(|i| sid(5, &[1_000_000 + i])).collect();
    let list = [&strangers[..], &[u()]].concat();
    let mut condition = asks(MEMBER_OF_ANY, &composite(&list));
    condition.resize(room, 0);
    vec![ask(
        "callbacks: 3,846 SIDs in a condition as long as c1's file has room for; the last is U",
        on_list(tu(), 1, &[callback_allow(1, &u(), &condition)]),
        yes(1),
    )]
}

#[cfg(test)]
mod tests {
    use super::*;

    #[test]
    fn the_longest_condition_fills_a_question_file() {
        let Body::Ask { file, .. } = &lengths()[0].body else { panic!("no question") };
        assert_eq!(file.len(), 65_536);
    }
}

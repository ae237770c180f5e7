//! Callback entries for S-1-3-4 and an owner's two rights: they count whatever their conditions, if
//! they are not inherit-only. U owns the object and asks for the two rights, unless said.

use super::asker;
use crate::case::*;
use pirasteh_cases::expressions::*;
use pirasteh_cases::make::{acl, allow, policy, Descriptor, Question, Rule};

const BOTH: u32 = 0x6_0000;

fn owns(entries: &[Vec<u8>]) -> Question {
    on(asker(), BOTH, Descriptor::owned_by(&u()).dacl(&acl(entries)))
}

pub fn cases() -> Vec<Case> {
    let mut all = in_the_dacl();
    all.extend(in_rules());
    all
}

fn in_the_dacl() -> Vec<Case> {
    let own = owner_rights();
    let silent = |flags: u8| callback(ALLOW, flags, BOTH, &own, &never());
    vec![
        ask("owner callbacks: a false condition counts", owns(&[silent(0)]), no(0)),
        ask(
            "owner callbacks: a false deny of nothing counts",
            owns(&[callback_deny(0, &own, &never())]),
            no(0),
        ),
        ask(
            "owner callbacks: a true condition counts, and gives the owner what it has",
            owns(&[callback_allow(0x2_0000, &own, &always())]),
            no(0x2_0000),
        ),
        ask(
            "owner callbacks: a condition about S-1-3-4 itself is true for the owner",
            owns(&[callback_allow(BOTH, &own, &asks(MEMBER_OF, &literal(&own)))]),
            yes(BOTH),
        ),
        ask(
            "owner callbacks: a false condition counts behind an entry for the owner's own SID",
            owns(&[allow(0x4_0000, &u()), silent(0x10)]),
            no(0x4_0000),
        ),
        ask("owner callbacks: inherit-only, and false", owns(&[silent(0x08)]), yes(BOTH)),
        ask(
            "owner callbacks: inherit-only, and true",
            owns(&[callback(DENY, 0x0B, BOTH, &own, &always())]),
            yes(BOTH),
        ),
        ask(
            "owner callbacks: one that counts behind an inherit-only one",
            owns(&[silent(0x08), silent(0)]),
            no(0),
        ),
        ask(
            "owner callbacks: S-1-3-4 in a condition alone does not count",
            owns(&[callback_allow(1, &w(), &asks(MEMBER_OF, &literal(&own)))]),
            yes(BOTH),
        ),
        ask(
            "owner callbacks: an entry of the owner's own SID with a false condition",
            owns(&[callback_deny(BOTH, &u(), &never())]),
            yes(BOTH),
        ),
        ask(
            "owner callbacks: all is denied, and behind that one with a false condition",
            owns(&[pirasteh_cases::make::deny(0x1000_0000, &u()), silent(0)]),
            no(0),
        ),
        ask(
            "owner callbacks: S-1-3-4-0 with a false condition does not count",
            owns(&[callback_allow(BOTH, &pirasteh_cases::make::sid(3, &[4, 0]), &never())]),
            yes(BOTH),
        ),
    ]
}

/// For a rule its own list decides.
fn in_rules() -> Vec<Case> {
    let own = owner_rights();
    let silent = |flags: u8| callback(ALLOW, flags, BOTH, &own, &never());
    let free = Rule::of(&acl(&[]));
    let rule = |entries: &[Vec<u8>]| Rule::of(&acl(entries));
    let under = |rule: Rule| owns(&[]).policy(policy(&[rule]));
    vec![
        ask(
            "owner callbacks: a false one in a rule",
            under(rule(&[silent(0)])),
            no(0).after(BOTH, BOTH),
        ),
        ask("owner callbacks: inherit-only in a rule", under(rule(&[silent(0x08)])), yes(BOTH)),
        ask(
            "owner callbacks: a false one in the staged list raises the flag",
            under(free.clone().staged(&acl(&[silent(0)]))),
            yes_staged(BOTH),
        ),
        ask(
            "owner callbacks: inherit-only in the staged list raises none",
            under(free.staged(&acl(&[silent(0x08)]))),
            yes(BOTH),
        ),
        ask(
            "owner callbacks: a false one in a rule that does not apply",
            under(rule(&[silent(0)]).applies_to(&never())),
            yes(BOTH),
        ),
        ask(
            "owner callbacks: a false one in the DACL, where a rule gives the owner both",
            owns(&[silent(0)]).policy(policy(&[rule(&[allow(BOTH, &own)])])),
            no(0),
        ),
    ]
}

//! The walk over a list, the maximum, and the staging flag.

use super::{owned, TAKE_OWNERSHIP};
use crate::case::*;
use pirasteh_cases::make::{self, acl, allow, deny, entry, Rule};

pub fn cases() -> Vec<Case> {
    let mut all = flags();
    all.extend(maximum_and_nothing());
    all.extend(others());
    all
}

fn flags() -> Vec<Case> {
    let rule = |effective: u32, staged: u32| {
        make::policy(&[
            Rule::of(&acl(&[allow(effective, &u())])).staged(&acl(&[allow(staged, &u())]))
        ])
    };
    let own = owner_rights();
    let for_owners = |effective: &[Vec<u8>], staged: &[Vec<u8>]| {
        make::policy(&[Rule::of(&acl(effective)).staged(&acl(staged))])
    };
    vec![
        ask(
            "an inherit-only allow is skipped",
            on_list(tu(), 1, &[entry(0, 0x08, 1, &u())]),
            no(0),
        ),
        ask(
            "an inherit-only deny is skipped",
            on_list(tu(), 1, &[entry(1, 0x0B, 1, &u()), allow(1, &u())]),
            yes(1),
        ),
        ask("other flags do not matter", on_list(tu(), 1, &[entry(0, 0xF7, 1, &u())]), yes(1)),
        ask(
            "staging: the flag rises for a bit that the DACL withholds",
            on_list(tu(), 3, &[]).policy(rule(1, 3)),
            no_staged(0),
        ),
        ask(
            "staging: the flag rises for a bit that confinement withholds",
            on_list(confined(), 3, &[allow(3, &u())]).policy(rule(1, 3)),
            no_staged(0).after(3, 0),
        ),
        ask(
            "staging: with the maximum all bits of the kind are compared",
            on_list(tu(), 0x0200_0000, &[allow(1, &u())]).policy(rule(1, 3)),
            yes_staged(1),
        ),
        ask(
            "staging: bits that are not asked are not compared",
            on_list(tu(), 1, &[allow(1, &u())]).policy(rule(1, 0x1F_01FF)),
            yes(1),
        ),
        ask(
            "staging: asking nothing raises no flag",
            on_list(tu(), 0, &[]).policy(rule(1, 3)),
            yes(0),
        ),
        ask(
            "staging: privileges are in both results, so their bits do not differ",
            on_list(tu().privileges(TAKE_OWNERSHIP), 0x8_0000, &[]).policy(rule(0, 0x8_0000)),
            yes(0x8_0000),
        ),
        ask(
            "staging: the effective list names S-1-3-4, the staged one leaves the owner's rights",
            owned(&u(), 0x6_0000, &[]).policy(for_owners(&[allow(0x2_0000, &own)], &[])),
            no_staged(0x2_0000).after(0x6_0000, 0x6_0000),
        ),
        ask(
            "staging: the staged list names S-1-3-4, the effective one leaves the owner's rights",
            owned(&u(), 0x6_0000, &[]).policy(for_owners(&[], &[allow(0x2_0000, &own)])),
            yes_staged(0x6_0000),
        ),
    ]
}

fn maximum_and_nothing() -> Vec<Case> {
    let list = [allow(1, &u())];
    vec![
        ask("what is asked: asking nothing on an empty list is allowed", on_list(tu(), 0, &[]), yes(0)),
        ask("what is asked: the maximum with nothing granted is not allowed (Samba)", on_list(tu(), 0x0200_0000, &[]), no(0)),
        ask("what is asked: the maximum with one bit granted is allowed", on_list(tu(), 0x0200_0000, &list), yes(1)),
        ask("what is asked: the maximum with a named bit missing is not", on_list(tu(), 0x0200_0002, &list), no(1)),
        ask("what is asked: the maximum with the named bit granted is", on_list(tu(), 0x0200_0001, &list), yes(1)),
        ask("what is asked: the maximum and 0x01000000 without SeSecurity", on_list(tu(), 0x0300_0000, &list), no(1)),
        ask("strangers: entries of strangers change nothing",
            on_list(tu(), 3, &[deny(3, &g()), allow(1, &u()), allow(7, &g()), deny(2, &w())]), no(1)),
        ask("strangers: an entry that names the owner directly is a stranger's if the owner does not ask",
            owned(&w(), 3, &[allow(2, &w()), allow(1, &u())]), no(1)),
        ask("strangers: an entry that names the self identity directly is a stranger's if it does not ask",
            owned(&w(), 3, &[deny(1, &g()), allow(1, &u())]).self_id(&g()), no(1)),
        ask("strangers: capabilities of an exempt token match nothing",
            on_list(confined().exempt(), 3, &[deny(1, &package()), allow(3, &all_restricted()), allow(1, &u())]), no(1)),
    ]
}

fn others() -> Vec<Case> {
    vec![
        ask(
            "other systems: under the maximum a later deny takes nothing back (Wine)",
            on_list(tu(), 0x0200_0000, &[allow(3, &u()), deny(2, &u())]),
            yes(3),
        ),
        ask(
            "other systems: a deny of a bit that is granted already does not stop the walk (Wine)",
            on_list(tu(), 3, &[allow(1, &u()), deny(1, &u()), allow(2, &u())]),
            yes(3),
        ),
        ask(
            "other systems: DACL bit clear, and an offset to a list that denies (Samba)",
            c1().descriptor(patched(patched(d(), 2, &[0]), 40, &[1])).mask(2),
            yes(2),
        ),
        ask(
            "other systems: a deny of a type that is not known is not skipped (Samba)",
            on_list(tu(), 1, &[entry(12, 0, 1, &u()), allow(1, &u())]),
            refused(8),
        ),
        ask(
            "denies are not sorted to the front",
            on_list(tu(), 7, &[allow(1, &u()), deny(3, &u()), allow(6, &u())]),
            no(5),
        ),
        ask(
            "an allow does not undo a deny",
            on_list(tu(), 1, &[deny(1, &u()), allow(1, &u())]),
            no(0),
        ),
        ask(
            "bits are decided one by one",
            on_list(tu(), 0xF, &[deny(8, &u()), allow(3, &u()), deny(6, &u()), allow(0xF, &u())]),
            no(3),
        ),
        ask(
            "a deny that matches does not refuse what is not asked",
            on_list(tu(), 1, &[deny(6, &u()), allow(7, &u())]),
            yes(1),
        ),
    ]
}

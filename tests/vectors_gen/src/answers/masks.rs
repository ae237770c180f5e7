//! What each step leaves of the bits asked: normal evaluation, confinement, the policy. U asks,
//! confined to the package, unless said.

use super::{one_rule, SECURITY, TAKE_OWNERSHIP};
use crate::case::*;
use pirasteh_cases::expressions::never;
use pirasteh_cases::hex;
use pirasteh_cases::make::{self, acl, allow, deny, Descriptor, Question, Rule};

const READ: u32 = 0x8000_0000;
const WRITE: u32 = 0x4000_0000;
const EXECUTE: u32 = 0x2000_0000;
const ALL: u32 = 0x1000_0000;
const MAXIMUM: u32 = 0x0200_0000;

/// The confined token asks, of an object whose list allows this to U and that to the package.
fn asks(mask: u32, user: u32, to_package: u32) -> Question {
    on_list(confined(), mask, &[allow(user, &u()), allow(to_package, &package())])
}

/// One rule that allows this to U.
fn rule(mask: u32) -> Vec<u8> {
    one_rule(&[allow(mask, &u())])
}

pub fn cases() -> Vec<Case> {
    let mut all = steps();
    all.extend(what_is_asked());
    all.extend(privileges_and_owners());
    all.extend(nothing_comes_back());
    all.extend(denies_and_strangers());
    all
}

fn steps() -> Vec<Case> {
    vec![
        ask(
            "masks: lost at normal evaluation alone",
            asks(7, 3, 7).policy(rule(7)),
            no(3).after(3, 3),
        ),
        ask("masks: lost at confinement alone", asks(7, 7, 3).policy(rule(7)), no(3).after(7, 3)),
        ask("masks: lost at the policy alone", asks(7, 7, 7).policy(rule(3)), no(3).after(7, 7)),
        ask(
            "masks: a bit is lost at each of the three steps",
            asks(0xF, 7, 0xB).policy(rule(0xD)),
            no(1).after(7, 3),
        ),
        ask(
            "masks: a key, lost at normal evaluation alone",
            asks(0x3F, 0x1F, 0x3F).kind(2).policy(rule(0x3F)),
            no(0x1F).after(0x1F, 0x1F),
        ),
        ask(
            "masks: a key, lost at confinement alone",
            asks(0x3F, 0x3F, 0x2F).kind(2).policy(rule(0x3F)),
            no(0x2F).after(0x3F, 0x2F),
        ),
        ask(
            "masks: a key, lost at the policy alone",
            asks(0x3F, 0x3F, 0x3F).kind(2).policy(rule(0x37)),
            no(0x37).after(0x3F, 0x3F),
        ),
        ask(
            "masks: a key, and a bit is lost at each of the three steps",
            asks(0x3F, 0x1F, 0x2F).kind(2).policy(rule(0x37)),
            no(0x07).after(0x1F, 0x0F),
        ),
        ask(
            "masks: a bit that every step would take is lost at the first",
            asks(3, 1, 1).policy(rule(1)),
            no(1).after(1, 1),
        ),
        ask(
            "masks: a bit that confinement and the policy would take is lost at confinement",
            asks(3, 3, 1).policy(rule(1)),
            no(1).after(3, 1),
        ),
    ]
}

fn what_is_asked() -> Vec<Case> {
    vec![
        ask(
            "masks: the maximum of a file, narrowed by each step after normal evaluation",
            asks(MAXIMUM, ALL, READ).policy(rule(EXECUTE)),
            yes(0x0012_0080).after(0x001F_01FF, 0x0012_0089),
        ),
        ask(
            "masks: the maximum of a key, narrowed by each step after normal evaluation",
            asks(MAXIMUM, ALL, WRITE).kind(2).policy(rule(READ)),
            yes(0x0002_0000).after(0x000F_003F, 0x0002_0006),
        ),
        ask(
            "masks: the maximum, and the policy takes all of it",
            asks(MAXIMUM, 7, 7).policy(one_rule(&[])),
            no(0).after(7, 7),
        ),
        ask(
            "masks: generic write of a file is mapped before any step",
            asks(WRITE, ALL, 0x16).policy(rule(6)),
            no(6).after(0x0012_0116, 0x16),
        ),
        ask(
            "masks: a bit that was not asked is in none of them",
            on(
                confined().privileges(SECURITY | TAKE_OWNERSHIP),
                1,
                Descriptor::owned_by(&u())
                    .dacl(&acl(&[allow(u32::MAX, &u()), allow(u32::MAX, &package())])),
            )
            .policy(rule(u32::MAX)),
            yes(1).after(1, 1),
        ),
        ask(
            "masks: asking nothing, where every step would take something",
            asks(0, 6, 5).policy(rule(3)),
            yes(0).after(0, 0),
        ),
    ]
}

/// Both are inside the first mask, and inside every rule's result.
fn privileges_and_owners() -> Vec<Case> {
    let owns = |entries: &[Vec<u8>], token: make::Token, mask: u32| {
        on(token, mask, Descriptor::owned_by(&u()).dacl(&acl(entries)))
    };
    vec![
        ask(
            "masks: 0x01000000 of SeSecurity is in the first; no entry saves it in confinement",
            on_list(
                confined().privileges(SECURITY),
                0x0100_0001,
                &[allow(u32::MAX, &u()), allow(u32::MAX, &package())],
            ),
            no(1).after(0x0100_0001, 1),
        ),
        ask(
            "masks: the maximum and 0x01000000 with SeSecurity on a null DACL",
            on(confined().privileges(SECURITY), 0x0300_0000, Descriptor::owned_by(&w())),
            no(0x001F_01FF).after(0x011F_01FF, 0x001F_01FF),
        ),
        ask(
            "masks: 0x80000 of SeTakeOwnership is in the first, and lost at confinement",
            on_list(confined().privileges(TAKE_OWNERSHIP), 0x8_0000, &[allow(1, &package())])
                .policy(one_rule(&[])),
            no(0).after(0x8_0000, 0),
        ),
        ask(
            "masks: 0x80000 of SeTakeOwnership passes where the package is allowed it",
            on_list(
                confined().privileges(TAKE_OWNERSHIP),
                0x8_0000,
                &[allow(0x8_0000, &package())],
            )
            .policy(one_rule(&[])),
            yes(0x8_0000).after(0x8_0000, 0x8_0000),
        ),
        ask(
            "masks: not confined, and the policy takes a bit of the list and none of privileges",
            on_list(tu().privileges(SECURITY | TAKE_OWNERSHIP), 0x0108_0003, &[allow(3, &u())])
                .policy(rule(1)),
            no(0x0108_0001).after(0x0108_0003, 0x0108_0003),
        ),
        ask(
            "masks: an owner's two rights are in the first; confinement takes one, the rule none",
            owns(&[allow(1, &u()), allow(0x2_0001, &package())], confined(), 0x6_0001)
                .policy(rule(1)),
            no(0x2_0001).after(0x6_0001, 0x2_0001),
        ),
        ask(
            "masks: a key, and an owner's two rights are lost at a rule that names S-1-3-4",
            owns(&[], tu(), 0x6_0000).kind(2).policy(one_rule(&[deny(0, &owner_rights())])),
            no(0).after(0x6_0000, 0x6_0000),
        ),
    ]
}

fn nothing_comes_back() -> Vec<Case> {
    let both = one_rule(&[allow(ALL, &u()), allow(ALL, &package())]);
    let staging = make::policy(&[Rule::of(&acl(&[allow(7, &u())])).staged(&acl(&[]))]);
    let idle = make::policy(&[Rule::of(&acl(&[])).applies_to(&never())]);
    vec![
        ask(
            "masks: a rule gives nothing back that normal evaluation or confinement has taken",
            asks(7, 3, 1).policy(both),
            no(1).after(3, 1),
        ),
        ask(
            "masks: an exempt token loses nothing at confinement",
            asks(0xF, 7, 1).token(confined().exempt().record()).policy(rule(5)),
            no(5).after(7, 7),
        ),
        ask(
            "masks: a policy without rules takes nothing",
            asks(7, 7, 3).policy(hex::bytes("01 00 00 00 00")),
            no(3).after(7, 3),
        ),
        ask(
            "masks: a rule that does not apply takes nothing",
            asks(7, 7, 5).policy(idle),
            no(5).after(7, 5),
        ),
        ask(
            "masks: a staged list raises the flag and takes nothing",
            asks(7, 7, 3).policy(staging),
            no_staged(3).after(7, 3),
        ),
    ]
}

fn denies_and_strangers() -> Vec<Case> {
    let list = [deny(1, &u()), deny(2, &package()), allow(0xF, &u()), allow(0xF, &package())];
    let strangers = [
        deny(0xF, &w()),
        allow(7, &u()),
        allow(0xF, &g()),
        deny(0xF, &g()),
        allow(0xB, &package()),
    ];
    vec![
        ask(
            "masks: a deny at each step takes its own bit",
            on_list(confined(), 0xF, &list).policy(one_rule(&[deny(4, &u()), allow(0xF, &u())])),
            no(8).after(0xE, 0xC),
        ),
        ask(
            "masks: entries of strangers change none of them",
            on_list(confined(), 0xF, &strangers).policy(one_rule(&[
                deny(0xF, &g()),
                allow(0xD, &u()),
                allow(0xF, &w()),
            ])),
            no(1).after(7, 3),
        ),
    ]
}

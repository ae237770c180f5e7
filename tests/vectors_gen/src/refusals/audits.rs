//! Audit entries: 6 and 9 by their shape in SACLs, 8 and 10 by their type in DACLs, and their place
//! among the other refusals. Where a SACL raises events, no other number gives way to 11.

use crate::case::*;
use pirasteh_cases::expressions::never;
use pirasteh_cases::make::{acl, allow, bare_entry, policy, Descriptor, Question, Rule};

const READ: u32 = 0x8000_0000;

/// A list with an audit entry that is a header alone, and one with an event.
fn short() -> Vec<u8> {
    acl(&[bare_entry(2, 0x08, &[])])
}

fn telling() -> Vec<u8> {
    acl(&[audit(BOTH, READ, &u())])
}

fn reading() -> Vec<u8> {
    acl(&[allow(READ, &u())])
}

/// c1 with this in its SACL.
fn with(sacl: &[u8]) -> Question {
    c1().descriptor(Descriptor::owned_by(&w()).sacl(sacl).dacl(&reading()).bytes())
}

pub fn cases() -> Vec<Case> {
    let mut all = by_type();
    all.extend(order());
    all.extend(before_a_short_buffer());
    all
}

/// In a DACL nothing is asked of an audit entry but its header.
fn by_type() -> Vec<Case> {
    let on_list = |list: &[u8]| c1().descriptor(Descriptor::owned_by(&w()).dacl(list).bytes());
    let outside = || acl(&[allow(READ, &u()), saying(audit(0, 1, &g()), 15)]);
    let rule = |rule: Rule| c1().policy(policy(&[rule]));
    vec![
        ask("8: a DACL with an audit entry that is a header alone", on_list(&short()), refused(8)),
        ask(
            "8: a DACL with an audit entry whose SID does not fit",
            on_list(&outside()),
            refused(8),
        ),
        ask(
            "10: an effective DACL with an audit entry that is a header alone",
            rule(Rule::of(&short())),
            refused(10),
        ),
        ask(
            "10: an effective DACL with an audit entry whose SID does not fit",
            rule(Rule::of(&outside())),
            refused(10),
        ),
        ask(
            "10: a staged DACL with an audit entry that is a header alone",
            rule(Rule::of(&reading()).staged(&short())),
            refused(10),
        ),
        ask(
            "10: a staged DACL with an audit entry whose SID fits",
            rule(Rule::of(&reading()).staged(&telling())),
            refused(10),
        ),
    ]
}

fn order() -> Vec<Case> {
    let ownerless = Descriptor { owner: None, ..Descriptor::default() };
    let odd = acl(&[bare_entry(5, 0, &[])]);
    let never_applies = |rule: Rule| rule.applies_to(&never());
    vec![
        ask("5 before 6 of an audit entry", with(&short()).self_id(&[1]), refused(5)),
        ask(
            "6 of an audit entry before 7",
            c1().descriptor(ownerless.sacl(&short()).dacl(&reading()).bytes()),
            refused(6),
        ),
        ask(
            "6 of an audit entry before 8 of the DACL",
            c1().descriptor(Descriptor::owned_by(&w()).sacl(&short()).dacl(&odd).bytes()),
            refused(6),
        ),
        ask(
            "6 of the descriptor's audit entry before 9 of a rule's",
            with(&short())
                .policy(policy(&[Rule { effective_sacl: short(), ..Rule::of(&reading()) }])),
            refused(6),
        ),
        ask(
            "8 before 9 of an audit entry",
            c1().descriptor(Descriptor::owned_by(&w()).dacl(&odd).bytes())
                .policy(policy(&[Rule { staged_sacl: short(), ..Rule::of(&reading()) }])),
            refused(8),
        ),
        ask(
            "9 of an audit entry in the last list of all before 10 of the first",
            c1().policy(policy(&[
                Rule::of(&odd),
                never_applies(Rule { staged_sacl: short(), ..Rule::of(&reading()) }),
            ])),
            refused(9),
        ),
    ]
}

/// Each would raise an event if it were answered.
fn before_a_short_buffer() -> Vec<Case> {
    let odd = acl(&[bare_entry(5, 0, &[])]);
    let telling_rule = |rule: Rule| Rule { effective_sacl: telling(), ..rule };
    vec![
        ask("a SACL with an event", with(&telling()), yes(0x0012_0089).raising(&[[0, 0, READ]])),
        ask("1 before 11", with(&telling()).kind(3), refused(1)),
        ask("2 before 11", with(&telling()).mask(READ | 0x200), refused(2)),
        ask("3 before 11", with(&telling()).token(vec![]), refused(3)),
        ask(
            "4 before 11",
            with(&telling()).token(tu().group(&owner_rights(), 4).record()),
            refused(4),
        ),
        ask("5 before 11", with(&telling()).self_id(&[1]), refused(5)),
        ask(
            "6 before 11: the second entry of the SACL is misshapen",
            with(&acl(&[audit(BOTH, READ, &u()), bare_entry(2, 0, &[])])),
            refused(6),
        ),
        ask(
            "7 before 11",
            c1().descriptor(Descriptor::default().sacl(&telling()).dacl(&reading()).bytes()),
            refused(7),
        ),
        ask(
            "8 before 11",
            c1().descriptor(Descriptor::owned_by(&w()).sacl(&telling()).dacl(&odd).bytes()),
            refused(8),
        ),
        ask("9 before 11", with(&telling()).policy(vec![1]), refused(9)),
        ask(
            "9 before 11: the staged SACL of the second rule is misshapen",
            with(&telling()).policy(policy(&[
                telling_rule(Rule::of(&reading())),
                telling_rule(Rule { staged_sacl: short(), ..Rule::of(&reading()) }),
            ])),
            refused(9),
        ),
        ask(
            "10 before 11: another type in the DACL of the second rule",
            with(&telling()).policy(policy(&[
                telling_rule(Rule::of(&reading())),
                telling_rule(Rule::of(&odd)),
            ])),
            refused(10),
        ),
        ask_file("12 before 11", followed_by(with(&telling()).file(), &[0]), refused(12)),
    ]
}

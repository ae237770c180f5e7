//! Which conditions of a policy are judged, and which of two refusals is given.

use super::{broken, in_applies_to, other, reading, whole};
use crate::case::*;
use pirasteh_cases::expressions::*;
use pirasteh_cases::make::{self, acl, policy, Question, Rule};

pub fn cases() -> Vec<Case> {
    let mut all = in_policies();
    all.extend(order_in_policies());
    all.extend(applies_to());
    all
}

fn with_rules(rules: &[Rule]) -> Question {
    c1().policy(policy(rules))
}

fn plain() -> Rule {
    Rule::of(&acl(&[reading()]))
}

fn in_policies() -> Vec<Case> {
    let with = |condition: &[u8]| acl(&[reading(), callback_allow(1, &g(), condition)]);
    let child = |condition: &[u8]| acl(&[reading(), callback(DENY, 0x08, 1, &u(), condition)]);
    let mut all = Vec::new();
    for (number, what, condition) in
        [(9, "a broken condition", broken()), (10, "another token", other())]
    {
        let mut case = |place: &str, rules: &[Rule]| {
            all.push(ask(&format!("{number}: {what} {place}"), with_rules(rules), refused(number)));
        };
        case("in an effective list", &[Rule::of(&with(&condition))]);
        case("in a staged list", &[plain().staged(&with(&condition))]);
        case("in an inherit-only entry of an effective list", &[Rule::of(&child(&condition))]);
        case("in an inherit-only entry of a staged list", &[plain().staged(&child(&condition))]);
        case("in a rule that does not apply", &[Rule::of(&with(&condition)).applies_to(&never())]);
        case(
            "in the staged list of a rule that does not apply",
            &[plain().staged(&with(&condition)).applies_to(&never())],
        );
        case(
            "in the second of two rules, where the first allows nothing",
            &[Rule::of(&acl(&[])), Rule::of(&with(&condition))],
        );
        case(
            "in the applies_to of a second rule, where the first does not apply",
            &[plain().applies_to(&never()), plain().applies_to(&condition)],
        );
        let list = with(&condition);
        all.push(ask(
            &format!("in the SACLs of a rule {what} is not judged"),
            with_rules(&[Rule { effective_sacl: list.clone(), staged_sacl: list, ..plain() }]),
            yes(0x0012_0089),
        ));
    }
    all.push(ask(
        "9: a callback entry without a condition in a staged list",
        with_rules(&[plain().staged(&acl(&[make::entry(10, 0, 1, &g())]))]),
        refused(9),
    ));
    all
}

fn order_in_policies() -> Vec<Case> {
    let with = |condition: &[u8]| acl(&[callback_allow(1, &g(), condition)]);
    let [bad, odd] = [with(&broken()), with(&other())];
    let pairs = [
        ("in an effective list, and a broken one in the staged", Rule::of(&odd).staged(&bad)),
        (
            "in an applies_to, and a broken condition in the list",
            Rule::of(&bad).applies_to(&other()),
        ),
        ("in a list, and a broken applies_to before it", Rule::of(&odd).applies_to(&broken())),
    ];
    let mut all = Vec::new();
    for (what, rule) in pairs {
        let reason = format!("9 before 10: another token {what}");
        all.push(ask(&reason, with_rules(&[rule]), refused(9)));
    }
    all.extend([
        ask(
            "9 before 10: another token in the first rule, a broken applies_to in the second",
            with_rules(&[Rule::of(&odd), plain().applies_to(&broken())]),
            refused(9),
        ),
        ask(
            "9 before 10: another token in an applies_to, and a byte behind the last rule",
            c1().policy(followed_by(policy(&[plain().applies_to(&other())]), &[0])),
            refused(9),
        ),
        ask(
            "10: another token in the first rule, and a second that is fine",
            with_rules(&[plain().applies_to(&other()), plain().applies_to(&whole())]),
            refused(10),
        ),
    ]);
    all
}

/// An empty section means everybody; any other is a condition, whole or not.
fn applies_to() -> Vec<Case> {
    let cut_at = |length: usize| in_applies_to(&cut(asks(MEMBER_OF, &literal(&g())), length));
    let mut all = vec![
        ask(
            "an applies_to of no bytes: the rule applies to everybody",
            with_rules(&[Rule::of(&acl(&[]))]),
            no(0).after(0x0012_0089, 0x0012_0089),
        ),
        ask("an applies_to that is a condition", in_applies_to(&whole()), yes(0x0012_0089)),
        ask("9: an applies_to of a zero byte", in_applies_to(&[0]), refused(9)),
    ];
    for length in [2, 3, 5, 8, 9, 24, 25] {
        all.push(ask(
            &format!("9: an applies_to that ends after {length} of its 26 bytes"),
            cut_at(length),
            refused(9),
        ));
    }
    all
}

//! Callback entries in the lists of rules: membership is by the normal identities there.

use super::{member, under};
use crate::case::*;
use pirasteh_cases::expressions::*;
use pirasteh_cases::make::{acl, allow, policy, Rule};

pub fn cases() -> Vec<Case> {
    let when = |condition: &[u8]| acl(&[allow(1, &u()), callback_allow(2, &u(), condition)]);
    let unless = |condition: &[u8]| acl(&[callback_deny(2, &u(), condition), allow(3, &u())]);
    let all = || Rule::of(&acl(&[allow(3, &u())]));
    let inside = |rule: Rule| {
        on_list(confined(), 3, &[allow(3, &u()), allow(3, &package())]).policy(policy(&[rule]))
    };
    let [holds, fails] = [member(&g()), member(&w())];
    vec![
        ask("rules: a true allow in the effective list", under(&[Rule::of(&when(&holds))]), yes(3)),
        ask(
            "rules: a false allow in the effective list",
            under(&[Rule::of(&when(&fails))]),
            no(1).after(3, 3),
        ),
        ask(
            "rules: a true deny in the effective list",
            under(&[Rule::of(&unless(&holds))]),
            no(1).after(3, 3),
        ),
        ask(
            "rules: a false deny in the effective list",
            under(&[Rule::of(&unless(&fails))]),
            yes(3),
        ),
        ask(
            "rules: a true allow in the staged list",
            under(&[all().staged(&when(&holds))]),
            yes(3),
        ),
        ask(
            "rules: a false allow in the staged list raises the flag",
            under(&[all().staged(&when(&fails))]),
            yes_staged(3),
        ),
        ask(
            "rules: a true deny in the staged list raises the flag",
            under(&[all().staged(&unless(&holds))]),
            yes_staged(3),
        ),
        ask(
            "rules: a false deny in the staged list",
            under(&[all().staged(&unless(&fails))]),
            yes(3),
        ),
        ask(
            "rules: conditions of the two lists that are both false raise no flag",
            under(&[Rule::of(&when(&fails)).staged(&when(&never()))]),
            no(1).after(3, 3),
        ),
        ask(
            "rules: conditions of the two lists that differ in truth raise the flag",
            under(&[Rule::of(&when(&fails)).staged(&when(&holds))]),
            no_staged(1).after(3, 3),
        ),
        ask(
            "rules: confined, and the user is a member",
            inside(Rule::of(&when(&member(&u())))),
            yes(3),
        ),
        ask(
            "rules: confined, and the package is no member",
            inside(Rule::of(&when(&member(&package())))),
            no(1).after(3, 3),
        ),
        ask(
            "rules: confined, and the package is no member in a staged list either",
            inside(all().staged(&unless(&member(&package())))),
            yes(3),
        ),
        ask(
            "rules: applies_to is true, and the condition of the list is false",
            under(&[Rule::of(&when(&fails)).applies_to(&holds)]),
            no(1).after(3, 3),
        ),
        ask(
            "rules: applies_to is false, and the condition of the list is true",
            under(&[Rule::of(&unless(&holds)).applies_to(&fails)]),
            yes(3),
        ),
    ]
}

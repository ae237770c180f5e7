//! Rules that apply to some callers, and callback entries in their lists. The DACL allows 3 to U,
//! who asks for it; a rule allows 1, unless said.

mod lists;

use crate::case::*;
use pirasteh_cases::expressions::*;
use pirasteh_cases::make::{acl, allow, policy, sid, Descriptor, Question, Rule, Token};

pub fn cases() -> Vec<Case> {
    let mut all = narrowing();
    all.extend(who());
    all.extend(lists::cases());
    all.extend(lengths());
    all
}

/// U with G enabled.
fn asker() -> Token {
    tu().group(&g(), 4)
}

fn member(sid: &[u8]) -> Vec<u8> {
    asks(MEMBER_OF, &literal(sid))
}

/// A rule that leaves 1.
fn one() -> Rule {
    Rule::of(&acl(&[allow(1, &u())]))
}

/// A rule that leaves all that is asked, and would leave 1 by its staged list.
fn staging() -> Rule {
    Rule::of(&acl(&[allow(3, &u())])).staged(&acl(&[allow(1, &u())]))
}

fn under(rules: &[Rule]) -> Question {
    on_list(asker(), 3, &[allow(3, &u())]).policy(policy(rules))
}

fn narrowing() -> Vec<Case> {
    let [holds, fails] = [member(&g()), member(&w())];
    vec![
        ask(
            "applies_to: true, and the rule narrows",
            under(&[one().applies_to(&holds)]),
            no(1).after(3, 3),
        ),
        ask("applies_to: false, and it does not", under(&[one().applies_to(&fails)]), yes(3)),
        ask(
            "applies_to: true, and the rule raises the flag",
            under(&[staging().applies_to(&holds)]),
            yes_staged(3),
        ),
        ask(
            "applies_to: false, and it raises none",
            under(&[staging().applies_to(&fails)]),
            yes(3),
        ),
        ask(
            "applies_to: a rule that does not apply neither narrows nor flags",
            under(&[one().staged(&acl(&[allow(3, &u())])).applies_to(&never())]),
            yes(3),
        ),
        ask(
            "applies_to: the first rule does not apply, the second has no applies_to",
            under(&[Rule::of(&acl(&[])).applies_to(&fails), one()]),
            no(1).after(3, 3),
        ),
        ask(
            "applies_to: the first rule applies, the second does not",
            under(&[one().applies_to(&holds), Rule::of(&acl(&[])).applies_to(&fails)]),
            no(1).after(3, 3),
        ),
        ask(
            "applies_to: the first flags and does not apply, the second applies and flags",
            under(&[staging().applies_to(&fails), staging().applies_to(&holds)]),
            yes_staged(3),
        ),
        ask(
            "applies_to: of three rules the second alone does not apply",
            under(&[
                Rule::of(&acl(&[allow(7, &u())])).applies_to(&holds),
                Rule::of(&acl(&[])).applies_to(&fails),
                Rule::of(&acl(&[allow(2, &u())])).applies_to(&holds),
            ]),
            no(2).after(3, 3),
        ),
        ask(
            "applies_to: a null DACL, and a rule that does not apply",
            on(asker(), 3, Descriptor::owned_by(&w())).policy(policy(&[one().applies_to(&fails)])),
            yes(3),
        ),
        ask(
            "applies_to: an empty list in a rule that does not apply",
            under(&[Rule::of(&acl(&[])).applies_to(&never())]),
            yes(3),
        ),
        ask(
            "applies_to: true for everybody",
            under(&[Rule::of(&acl(&[])).applies_to(&always())]),
            no(0).after(3, 3),
        ),
    ]
}

/// Whether a rule that leaves 1 applies to this token.
fn who() -> Vec<Case> {
    let by = |token: Token, owner: &[u8], self_id: &[u8], condition: &[u8]| {
        let list = acl(&[allow(3, &u()), allow(3, &package())]);
        on(token, 3, Descriptor::owned_by(owner).dacl(&list))
            .self_id(self_id)
            .policy(policy(&[one().applies_to(condition)]))
    };
    let case = |reason: &str, question: Question, applies: bool| {
        ask(
            &format!("applies_to: {reason}"),
            question,
            if applies { no(1).after(3, 3) } else { yes(3) },
        )
    };
    let plain = |token: Token, who: &[u8]| by(token, &w(), &[], &member(who));
    let (own, me) = (owner_rights(), principal_self());
    let with_g = |attributes: u32| tu().group(&g(), attributes);
    vec![
        case("the user", plain(tu(), &u()), true),
        case("a deny-only group is no member", plain(with_g(0x10), &g()), false),
        case("a disabled group is no member", plain(with_g(0), &g()), false),
        case("S-1-3-4, where the user owns", by(tu(), &u(), &[], &member(&own)), true),
        case("S-1-3-4, where somebody else owns", by(tu(), &w(), &u(), &member(&own)), false),
        case(
            "S-1-3-4, where a deny-only group owns",
            by(with_g(0x10), &g(), &[], &member(&own)),
            false,
        ),
        case("S-1-5-10 is the user", by(tu(), &w(), &u(), &member(&me)), true),
        case("S-1-5-10 without a self identity", by(tu(), &u(), &[], &member(&me)), false),
        case("confined: the user", plain(confined(), &u()), true),
        case("confined: the package is no member", plain(confined(), &package()), false),
        case("confined: a capability is no member", plain(confined(), &all_restricted()), false),
        case(
            "confined: S-1-3-4, where the package owns",
            by(confined(), &package(), &[], &member(&own)),
            false,
        ),
        case(
            "confined: S-1-3-4, where the user owns",
            by(confined(), &u(), &[], &member(&own)),
            true,
        ),
        case(
            "confined: S-1-5-10 is the package",
            by(confined(), &w(), &package(), &member(&me)),
            false,
        ),
        case("exempt: the package is no member", plain(confined().exempt(), &package()), false),
        case(
            "exempt: if the package is no member",
            by(confined().exempt(), &w(), &[], &asks(NOT_MEMBER_OF_ANY, &literal(&package()))),
            true,
        ),
        case(
            "all of U and G",
            by(with_g(4), &w(), &[], &asks(MEMBER_OF, &composite(&[u(), g()]))),
            true,
        ),
        case(
            "all of U and W",
            by(with_g(4), &w(), &[], &asks(MEMBER_OF, &composite(&[u(), w()]))),
            false,
        ),
        case(
            "one of W and G",
            by(with_g(4), &w(), &[], &asks(MEMBER_OF_ANY, &composite(&[w(), g()]))),
            true,
        ),
    ]
}

/// An applies_to of any length: its padding need not fill words.
fn lengths() -> Vec<Case> {
    let mut all = Vec::new();
    for zeros in [1, 2, 3, 7, 1000] {
        let condition = followed_by(member(&w()), &vec![0; zeros]);
        all.push(ask(
            &format!("applies_to: false, with {zeros} zeros behind it"),
            under(&[one().applies_to(&condition)]),
            yes(3),
        ));
    }
    // What c1's file has beside the section: 117 bytes.
    let room = 65_536 - 117;
    let mut condition = {
        let strangers: Vec<Vec<u8>> = (0..3_846).map(|i| sid(5, &[1_000_000 + i])).collect();
        asks(NOT_MEMBER_OF_ANY, &composite(&strangers))
    };
    condition.resize(room, 0);
    all.push(ask(
        "applies_to: 3,846 SIDs in a section as long as c1's file has room for",
        c1().policy(policy(&[Rule::of(&acl(&[])).applies_to(&condition)])),
        no(0).after(0x0012_0089, 0x0012_0089),
    ));
    all
}

#[cfg(test)]
mod tests {
    use super::*;

    #[test]
    fn the_longest_section_fills_a_question_file() {
        let Some(Case { body: Body::Ask { file, .. }, .. }) = lengths().pop() else {
            panic!("no question")
        };
        assert_eq!(file.len(), 65_536);
    }
}

//! Policies at each limit of their shape, and what rules do. The question is c1's unless said.

mod audits;
mod conditions;
mod events;

use crate::case::*;
use pirasteh_cases::hex;
use pirasteh_cases::make::{self, acl, allow, bare_entry, deny, policy, Descriptor, Rule};

const READ: u32 = 0x8000_0000;
const GRANTED: u32 = 0x0012_0089;

fn given(reason: &str, policy: Vec<u8>, line: Line) -> Case {
    ask(reason, c1().policy(policy), line)
}

fn bad(reason: &str, policy: Vec<u8>) -> Case {
    given(reason, policy, refused(9))
}

fn good(reason: &str, policy: Vec<u8>) -> Case {
    given(reason, policy, yes(GRANTED))
}

pub fn cases() -> Vec<Case> {
    let mut all = shapes();
    all.extend(sections());
    all.extend(rules());
    all.extend(long_entries());
    all.extend(owners());
    all.extend(conditions::cases());
    all.extend(audits::cases());
    all.extend(events::cases());
    all
}

fn reading() -> Rule {
    Rule::of(&acl(&[allow(READ, &u())]))
}

fn shapes() -> Vec<Case> {
    let one = policy(&[reading()]);
    vec![
        bad("two bytes", hex::bytes("01 00")),
        bad("four bytes", hex::bytes("01 00 00 00")),
        bad("version 0", hex::bytes("00 00 00 00 00")),
        bad("no rules, and a byte too many", hex::bytes("01 00 00 00 00 00")),
        bad("a count of 1 without a rule", hex::bytes("01 01 00 00 00")),
        bad("a count of 0xFFFFFFFF", hex::bytes("01 FF FF FF FF")),
        bad("a count of 0x01000000, with one rule", patched(one.clone(), 1, &[0, 0, 0, 1])),
        good("one rule", one.clone()),
        bad("one rule, and a byte too many", followed_by(one.clone(), &[0])),
        bad("one rule without its last byte", cut(one.clone(), one.len() - 1)),
        bad("two rules where one is said", patched(policy(&[reading(), reading()]), 1, &[1])),
        bad("one rule where two are said", patched(one, 1, &[2])),
    ]
}

fn sections() -> Vec<Case> {
    // With one rule, its applies_to length stands at 5, its effective DACL length at 9, the DACL
    // at 13, and its last three lengths behind that.
    let list = acl(&[allow(READ, &u())]);
    let rule = |effective: &[u8]| policy(&[Rule::of(effective)]);
    let longer = followed_by(list.clone(), &[0; 4]);
    let with_sacl = |sacl: &[u8]| policy(&[Rule { effective_sacl: sacl.to_vec(), ..reading() }]);
    let with_staged_sacl =
        |sacl: &[u8]| policy(&[Rule { staged_sacl: sacl.to_vec(), ..reading() }]);
    let staged = |staged: &[u8]| policy(&[reading().staged(staged)]);
    let header = bare_entry(0, 0, &[]);
    vec![
        bad(
            "an applies_to that leads past the end",
            patched(rule(&list), 5, &[0xFF, 0xFF, 0xFF, 0xFF]),
        ),
        bad("an effective DACL that leads past the end", patched(rule(&list), 9, &[0xFF])),
        bad("an effective DACL without bytes", policy(&[Rule::default()])),
        bad("an effective DACL of 7 bytes", rule(&cut(list.clone(), 7))),
        given(
            "an effective DACL of 8 bytes without entries allows nothing",
            rule(&acl(&[])),
            no(0).after(GRANTED, GRANTED),
        ),
        bad("a section 4 bytes longer than its list", rule(&longer)),
        bad(
            "a section 4 bytes shorter than its list",
            rule(&cut(patched(longer.clone(), 2, &[36]), 32)),
        ),
        good("spare bytes inside the list", rule(&patched(longer, 2, &[36]))),
        bad("effective DACL revision 3", rule(&patched(list.clone(), 0, &[3]))),
        good("effective DACL revision 4", rule(&patched(list.clone(), 0, &[4]))),
        bad("an entry of size 20 where 24 fits", rule(&patched(list.clone(), 10, &[20]))),
        bad("an allow entry that is a header alone", rule(&acl(&[header.clone()]))),
        bad("count 2 in a list of one entry", rule(&patched(list.clone(), 4, &[2]))),
        bad("a staged DACL of 7 bytes", staged(&cut(list.clone(), 7))),
        bad("a staged DACL of revision 1", staged(&patched(list.clone(), 0, &[1]))),
        bad("a staged DACL longer than its list", staged(&followed_by(list.clone(), &[0]))),
        bad("a staged DACL with a misshapen entry", staged(&acl(&[header.clone()]))),
        good("an effective SACL", with_sacl(&list)),
        good("an effective SACL whose bodies are not judged", with_sacl(&acl(&[header.clone()]))),
        bad("an effective SACL of 7 bytes", with_sacl(&cut(list.clone(), 7))),
        bad("an effective SACL of revision 0", with_sacl(&patched(list.clone(), 0, &[0]))),
        bad("an effective SACL longer than its list", with_sacl(&followed_by(list.clone(), &[0]))),
        bad(
            "an effective SACL with an entry of size 2",
            with_sacl(&patched(list.clone(), 10, &[2])),
        ),
        good("a staged SACL whose bodies are not judged", with_staged_sacl(&acl(&[header]))),
        bad("a staged SACL of one byte", with_staged_sacl(&[2])),
        bad("a staged SACL with an entry of size 0", with_staged_sacl(&patched(list, 10, &[0]))),
    ]
}

fn rules() -> Vec<Case> {
    let l = |entries: &[Vec<u8>]| acl(entries);
    let asks =
        |mask: u32, rules: &[Rule]| on_list(tu(), mask, &[allow(7, &u())]).policy(policy(rules));
    vec![
        ask("a rule narrows", asks(7, &[Rule::of(&l(&[allow(3, &u())]))]), no(3).after(7, 7)),
        ask(
            "every rule narrows, not the first alone",
            asks(
                7,
                &[
                    Rule::of(&l(&[allow(7, &u())])),
                    Rule::of(&l(&[allow(6, &u())])),
                    Rule::of(&l(&[allow(5, &u())])),
                ],
            ),
            no(4).after(7, 7),
        ),
        ask(
            "a rule never gives more than the DACL",
            asks(0x17, &[Rule::of(&l(&[allow(0x1F, &u())]))]),
            no(7),
        ),
        ask(
            "a rule that denies what it did not allow before",
            asks(7, &[Rule::of(&l(&[allow(4, &u()), deny(6, &u()), allow(7, &u())]))]),
            no(5).after(7, 7),
        ),
        ask(
            "a staged list may allow more and changes nothing but the flag",
            asks(7, &[Rule::of(&l(&[allow(3, &u())])).staged(&l(&[allow(7, &u())]))]),
            no_staged(3).after(7, 7),
        ),
        ask(
            "a staged list may allow less and changes nothing but the flag",
            asks(7, &[Rule::of(&l(&[allow(7, &u())])).staged(&l(&[]))]),
            yes_staged(7),
        ),
        ask(
            "a staged list that decides alike raises no flag, though it reads otherwise",
            asks(
                7,
                &[Rule::of(&l(&[allow(7, &u())])).staged(&l(&[
                    allow(3, &u()),
                    allow(4, &u()),
                    deny(7, &g()),
                ]))],
            ),
            yes(7),
        ),
        ask(
            "the flag of the second rule",
            asks(
                7,
                &[
                    Rule::of(&l(&[allow(7, &u())])),
                    Rule::of(&l(&[allow(7, &u())])).staged(&l(&[allow(1, &u())])),
                ],
            ),
            yes_staged(7),
        ),
        ask(
            "two rules that differ from each other raise no flag",
            asks(
                7,
                &[
                    Rule::of(&l(&[allow(7, &u())])).staged(&l(&[allow(7, &u())])),
                    Rule::of(&l(&[allow(3, &u())])).staged(&l(&[allow(3, &u())])),
                ],
            ),
            no(3).after(7, 7),
        ),
        ask(
            "a rule on a null DACL",
            on(tu(), 3, Descriptor::owned_by(&w()))
                .policy(policy(&[Rule::of(&l(&[allow(1, &u())]))])),
            no(1).after(3, 3),
        ),
        ask(
            "a rule is judged without confinement: it need not name the package",
            on_list(confined(), 3, &[allow(3, &u()), allow(3, &package())])
                .policy(policy(&[Rule::of(&l(&[allow(3, &u())]))])),
            yes(3),
        ),
        ask(
            "a rule is judged by the user, not by the package",
            on_list(confined(), 3, &[allow(3, &u()), allow(3, &package())])
                .policy(policy(&[Rule::of(&l(&[allow(3, &package())]))])),
            no(0).after(3, 3),
        ),
    ]
}

/// Spare bytes behind the SIDs of entries, and entries that are not long enough for theirs.
fn long_entries() -> Vec<Case> {
    let l = |entries: &[Vec<u8>]| acl(entries);
    let asks =
        |mask: u32, rules: &[Rule]| on_list(tu(), mask, &[allow(7, &u())]).policy(policy(rules));
    let all = || Rule::of(&l(&[allow(7, &u())]));
    // The SID is S-1-5-7 and the four bytes of the next entry's header.
    let short = || l(&[saying(allow(1, &w()), 2), allow(READ, &u())]);
    let long = || l(&[long_allow(READ, &u(), &[0; 4])]);
    let odd = l(&[saying(make::entry(5, 0, 1, &u()), 15), allow(READ, &u())]);
    let own = owner_rights();
    let owns = on(tu(), 0x6_0000, Descriptor::owned_by(&u()).dacl(&l(&[])));
    vec![
        good("spare bytes in an entry of an effective DACL", policy(&[Rule::of(&long())])),
        good("spare bytes in an entry of a staged DACL", policy(&[reading().staged(&long())])),
        ask(
            "an entry with spare bytes narrows as it does without",
            asks(7, &[Rule::of(&l(&[long_deny(4, &u(), &[0xFF; 8]), allow(7, &u())]))]),
            no(3).after(7, 7),
        ),
        ask(
            "a rule whose spare bytes hold a whole allow entry, which is not taken",
            asks(7, &[Rule::of(&l(&[long_allow(3, &u(), &allow(7, &u()))]))]),
            no(3).after(7, 7),
        ),
        ask(
            "a rule with an entry of 4,000 bytes, where the entry behind it is found by the size",
            asks(7, &[Rule::of(&l(&[long_deny(4, &g(), &[0; 3976]), allow(5, &u())]))]),
            no(5).after(7, 7),
        ),
        ask(
            "a staged list that differs by spare bytes alone raises no flag",
            asks(7, &[all().staged(&l(&[long_allow(7, &u(), &[0xFF; 8])]))]),
            yes(7),
        ),
        ask(
            "a staged list that would differ by an entry in its spare bytes raises no flag",
            asks(7, &[all().staged(&l(&[long_allow(0, &g(), &deny(7, &u())), allow(7, &u())]))]),
            yes(7),
        ),
        ask(
            "a staged list that differs by an entry with spare bytes raises the flag",
            asks(7, &[all().staged(&l(&[long_deny(4, &u(), &[0; 4]), allow(7, &u())]))]),
            yes_staged(7),
        ),
        ask(
            "S-1-3-4 in the spare bytes of a rule takes nothing from the rule's result",
            owns.clone().policy(policy(&[Rule::of(&l(&[
                long_allow(1, &g(), &allow(0, &own)),
                allow(1, &g()),
            ]))])),
            yes(0x6_0000),
        ),
        ask(
            "S-1-3-4 in an entry of a rule that has spare bytes takes the two rights",
            owns.policy(policy(&[Rule::of(&l(&[long_allow(0x2_0000, &own, &[0; 4])]))])),
            no(0x2_0000).after(0x6_0000, 0x6_0000),
        ),
        bad("an effective DACL: a SID goes on into the next entry", policy(&[Rule::of(&short())])),
        bad(
            "a staged DACL: a SID goes on into the next entry",
            policy(&[reading().staged(&short())]),
        ),
        bad(
            "an effective DACL: an entry of size 26 with two spare bytes",
            policy(&[Rule::of(&patched(long(), 10, &[26]))]),
        ),
        bad(
            "a staged DACL: an entry of size 32 where 28 fits",
            policy(&[reading().staged(&patched(long(), 10, &[32]))]),
        ),
        given(
            "an effective DACL with an entry of type 5, whose body is not judged",
            policy(&[Rule::of(&odd)]),
            refused(10),
        ),
        good(
            "SACLs of a rule with allow entries shorter than their SIDs",
            policy(&[Rule { effective_sacl: short(), staged_sacl: short(), ..reading() }]),
        ),
    ]
}

/// Entries for S-1-3-4 that are meant for children, and those that count. For a rule its own list
/// decides, and for each of its two results the list of that result. U owns the object and asks for
/// an owner's two rights.
fn owners() -> Vec<Case> {
    const BOTH: u32 = 0x6_0000;
    let own = owner_rights();
    let child = || make::entry(0, 0x08, BOTH, &own);
    let nothing = || deny(0, &own);
    let rule = |entries: &[Vec<u8>]| Rule::of(&acl(entries));
    let asks = |dacl: &[Vec<u8>], rules: &[Rule]| {
        on(tu(), BOTH, Descriptor::owned_by(&u()).dacl(&acl(dacl))).policy(policy(rules))
    };
    let staged = |effective: &[Vec<u8>], staged: &[Vec<u8>]| {
        asks(&[], &[rule(effective).staged(&acl(staged))])
    };
    vec![
        ask(
            "owner rights: an inherit-only S-1-3-4 takes nothing from a rule's result",
            asks(&[], &[rule(&[child()])]),
            yes(BOTH),
        ),
        ask(
            "owner rights: in a rule flags 0x1b do not count",
            asks(&[], &[rule(&[make::entry(1, 0x1B, u32::MAX, &own)])]),
            yes(BOTH),
        ),
        ask(
            "owner rights: in a rule flags 0x13 count",
            asks(&[], &[rule(&[make::entry(1, 0x13, 0, &own)])]),
            no(0).after(BOTH, BOTH),
        ),
        ask(
            "owner rights: inherit-only in the DACL, and one that counts in a rule",
            asks(&[child()], &[rule(&[nothing()])]),
            no(0).after(BOTH, BOTH),
        ),
        ask(
            "owner rights: one that counts in the DACL, and inherit-only in a rule",
            asks(&[nothing()], &[rule(&[child()])]),
            no(0),
        ),
        ask(
            "owner rights: inherit-only in a rule, and the DACL allows the owner both by S-1-3-4",
            asks(&[allow(BOTH, &own)], &[rule(&[child()])]),
            yes(BOTH),
        ),
        ask(
            "owner rights: inherit-only in the first rule, one that counts in the second",
            asks(&[], &[rule(&[child()]), rule(&[allow(0x2_0000, &own)])]),
            no(0x2_0000).after(BOTH, BOTH),
        ),
        ask(
            "owner rights: in a rule one counts behind an inherit-only one",
            asks(&[], &[rule(&[child(), allow(0x4_0000, &own)])]),
            no(0x4_0000).after(BOTH, BOTH),
        ),
        ask(
            "owner rights: a null DACL, and an inherit-only S-1-3-4 in a rule",
            on(tu(), 0x6_0001, Descriptor::owned_by(&u())).policy(policy(&[rule(&[child()])])),
            no(BOTH).after(0x6_0001, 0x6_0001),
        ),
        ask(
            "staging: an inherit-only S-1-3-4 in the staged list alone raises no flag",
            staged(&[], &[child()]),
            yes(BOTH),
        ),
        ask(
            "staging: an inherit-only S-1-3-4 in the effective list alone raises no flag",
            staged(&[child()], &[]),
            yes(BOTH),
        ),
        ask(
            "staging: inherit-only in the effective list, one that counts in the staged one",
            staged(&[child()], &[nothing()]),
            yes_staged(BOTH),
        ),
        ask(
            "staging: one that counts in the effective list, inherit-only in the staged one",
            staged(&[nothing()], &[child()]),
            no_staged(0).after(BOTH, BOTH),
        ),
        ask(
            "staging: an inherited S-1-3-4 in the staged list counts",
            staged(&[], &[make::entry(0, 0x10, 0x2_0000, &own)]),
            yes_staged(BOTH),
        ),
        ask(
            "staging: an inherit-only S-1-3-4 in the staged list undoes none that counts before it",
            staged(&[child()], &[nothing(), child()]),
            yes_staged(BOTH),
        ),
        ask(
            "staging: both lists have one that counts, before and behind an inherit-only one",
            staged(&[nothing(), child()], &[child(), nothing()]),
            no(0).after(BOTH, BOTH),
        ),
    ]
}

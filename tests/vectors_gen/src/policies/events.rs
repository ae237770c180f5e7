//! Events of rules: their sources, and when a staged SACL raises the flag. U asks for a file whose
//! DACL allows him 7, and every rule allows him as much, unless said.

use super::policy;
use crate::case::*;
use pirasteh_cases::expressions::{always, asks as asks_for, literal, never, MEMBER_OF};
use pirasteh_cases::make::{acl, allow, bare_entry, Descriptor, Question, Rule, Token};

fn ruled(token: Token, mask: u32, sacl: &[Vec<u8>], rules: &[Rule]) -> Question {
    let object = Descriptor::owned_by(&w()).sacl(&acl(sacl)).dacl(&acl(&[allow(7, &u())]));
    on(token, mask, object).policy(policy(rules))
}

fn seven() -> Rule {
    Rule::of(&acl(&[allow(7, &u())]))
}

/// A rule with these audit entries.
fn telling(entries: &[Vec<u8>]) -> Rule {
    Rule { effective_sacl: acl(entries), ..seven() }
}

/// The same with these in the staged SACL.
fn staging(entries: &[Vec<u8>], staged: &[Vec<u8>]) -> Rule {
    Rule { staged_sacl: acl(staged), ..telling(entries) }
}

fn success(mask: u32) -> Vec<u8> {
    audit(SUCCESS, mask, &u())
}

pub fn cases() -> Vec<Case> {
    let mut all = sources();
    all.extend(many());
    all.extend(flags());
    all.extend(no_flags());
    all.extend(whose_flags());
    all
}

fn sources() -> Vec<Case> {
    let mine = || asks_for(MEMBER_OF, &literal(&u()));
    vec![
        ask(
            "events: a rule's source is its number from 1",
            ruled(tu(), 1, &[], &[telling(&[success(1)])]),
            yes(1).raising(&[[1, 0, 1]]),
        ),
        ask(
            "events: the descriptor's come first, then each rule's in order",
            ruled(
                tu(),
                1,
                &[success(3)],
                &[telling(&[success(5), success(1)]), seven(), telling(&[success(7)])],
            ),
            yes(1).raising(&[[0, 0, 3], [1, 0, 5], [1, 1, 1], [3, 0, 7]]),
        ),
        ask(
            "events: entries are counted from 0 in each SACL",
            ruled(
                tu(),
                1,
                &[bare_entry(0x11, 0, &[]), success(1)],
                &[
                    telling(&[audit(SUCCESS, 1, &w()), bare_entry(0, 0, &[]), success(1)]),
                    telling(&[success(1)]),
                ],
            ),
            yes(1).raising(&[[0, 1, 1], [1, 2, 1], [2, 0, 1]]),
        ),
        ask(
            "events: a rule that does not apply raises none, and is counted",
            ruled(
                tu(),
                1,
                &[],
                &[telling(&[success(1)]).applies_to(&never()), telling(&[success(3)])],
            ),
            yes(1).raising(&[[2, 0, 3]]),
        ),
        ask(
            "events: rules that apply to U, and to everybody by a condition",
            ruled(
                tu(),
                1,
                &[],
                &[
                    telling(&[success(1)]).applies_to(&mine()),
                    telling(&[success(3)]).applies_to(&always()),
                ],
            ),
            yes(1).raising(&[[1, 0, 1], [2, 0, 3]]),
        ),
        ask(
            "events: a rule does not apply to a deny-only group's member, whom its SACL would name",
            ruled(
                tu().group(&g(), 0x10),
                1,
                &[],
                &[
                    telling(&[audit(SUCCESS, 1, &g())])
                        .applies_to(&asks_for(MEMBER_OF, &literal(&g()))),
                    telling(&[audit(SUCCESS, 1, &g())]),
                ],
            ),
            yes(1).raising(&[[2, 0, 1]]),
        ),
        ask(
            "events: a staged SACL raises none",
            ruled(tu(), 1, &[], &[Rule { staged_sacl: acl(&[success(1)]), ..seven() }]),
            yes_staged(1),
        ),
        ask(
            "events: a rule's own yes is not the answer: another rule takes the bit",
            ruled(
                tu(),
                3,
                &[],
                &[
                    telling(&[success(1), audit(FAILURE, 3, &u())]),
                    Rule {
                        effective_sacl: acl(&[audit(FAILURE, 2, &u())]),
                        ..Rule::of(&acl(&[allow(1, &u())]))
                    },
                ],
            ),
            no(1).after(3, 3).raising(&[[1, 1, 3], [2, 0, 2]]),
        ),
        ask(
            "events: a rule whose SACL has none",
            ruled(tu(), 1, &[success(1)], &[telling(&[]), telling(&[audit(SUCCESS, 1, &g())])]),
            yes(1).raising(&[[0, 0, 1]]),
        ),
        ask(
            "events: in a rule deny-only groups, S-1-3-4 and S-1-5-10 match as in the descriptor",
            ruled(
                tu().group(&w(), 0x10).group(&g(), 0x4),
                1,
                &[],
                &[telling(&[
                    audit(SUCCESS, 1, &owner_rights()),
                    audit(SUCCESS, 1, &principal_self()),
                    audit(SUCCESS, 1, &w()),
                    audit(SUCCESS, 1, &package()),
                ])],
            )
            .self_id(&g()),
            yes(1).raising(&[[1, 0, 1], [1, 1, 1], [1, 2, 1]]),
        ),
        ask(
            "events: in a rule the package raises none",
            ruled(
                confined(),
                1,
                &[],
                &[telling(&[audit(FAILURE, 1, &package()), audit(FAILURE, 1, &u())])],
            ),
            no(0).after(1, 0).raising(&[[1, 1, 1]]),
        ),
        ask(
            "events: the maximum alone has none in rules either",
            ruled(tu(), 0x0200_0000, &[success(7)], &[staging(&[success(7)], &[])]),
            yes(7),
        ),
        ask(
            "events: a mask in a rule is told as stored",
            ruled(tu(), 1, &[], &[telling(&[success(0x8F00_0001), success(0x8000_0000)])]),
            yes(1).raising(&[[1, 0, 0x8F00_0001], [1, 1, 0x8000_0000]]),
        ),
    ]
}

/// Rule numbers of two bytes, and a trail that is nearly as long as a question file allows.
fn many() -> Vec<Case> {
    let nothing = || Rule::of(&acl(&[]));
    let failing = || Rule { effective_sacl: acl(&[audit(BOTH, 1, &u())]), ..nothing() };
    let all: Vec<[u32; 3]> = (1..=256).map(|number| [number, 0, 1]).collect();
    let mut odd = vec![nothing(); 256];
    for number in [1, 127, 128, 129, 255, 256] {
        odd[number - 1] = failing();
    }
    // 127 rules, and as many entries in the SACL of the next as the file has room for. The user is
    // S-1-5, so that an entry has 16 bytes.
    let tiny = pirasteh_cases::make::sid(5, &[]);
    let mut long = vec![nothing(); 127];
    long.push(Rule {
        effective_sacl: acl(&vec![audit(FAILURE, u32::MAX, &tiny); LONG]),
        ..nothing()
    });
    let events: Vec<[u32; 3]> = (0..LONG as u32).map(|entry| [128, entry, u32::MAX]).collect();
    vec![
        ask(
            "events: 256 rules that all raise one",
            ruled(tu(), 1, &[], &vec![failing(); 256]),
            no(0).after(1, 1).raising(&all),
        ),
        ask(
            "events: 256 rules, of which the numbers 1, 127, 128, 129, 255 and 256 raise one",
            ruled(tu(), 1, &[], &odd),
            no(0).after(1, 1).raising(&[1, 127, 128, 129, 255, 256].map(|number| [number, 0, 1])),
        ),
        ask(
            "events: rule 128 has as many as a question file of 65,536 bytes has room for",
            Question {
                token: Token::of(&tiny).record(),
                descriptor: Descriptor::owned_by(&w()).bytes(),
                mask: 1,
                policy: policy(&long),
                ..c1()
            },
            no(0).after(1, 1).raising(&events),
        ),
    ]
}

/// The entries of the longest SACL here.
const LONG: usize = 3_868;

/// One rule, and U asks for 1.
fn one(rule: Rule) -> Question {
    ruled(tu(), 1, &[], &[rule])
}

fn flags() -> Vec<Case> {
    let read = 0x8000_0000;
    let told = |mask: u32| yes_staged(1).raising(&[[1, 0, mask]]);
    vec![
        ask("staging: another mask", one(staging(&[success(1)], &[success(3)])), told(1)),
        ask(
            "staging: a staged SACL without entries, and the effective one has an event",
            one(staging(&[success(1)], &[])),
            told(1),
        ),
        ask(
            "staging: a staged SACL of strangers, and the effective one has an event",
            one(staging(&[success(1)], &[audit(SUCCESS, 1, &g())])),
            told(1),
        ),
        ask(
            "staging: an event in the staged SACL, and an effective SACL without entries",
            one(staging(&[], &[success(1)])),
            yes_staged(1),
        ),
        ask(
            "staging: an event in the staged SACL, and a policy of keys",
            one(Rule { staged_sacl: acl(&[success(1)]), ..seven() }).kind(2),
            yes_staged(1),
        ),
        ask(
            "staging: one event more",
            one(staging(&[success(1)], &[success(1), success(1)])),
            told(1),
        ),
        ask(
            "staging: one event less",
            one(staging(&[success(1), success(1)], &[success(1)])),
            yes_staged(1).raising(&[[1, 0, 1], [1, 1, 1]]),
        ),
        ask(
            "staging: the same masks in another order",
            one(staging(&[success(1), success(3)], &[success(3), success(1)])),
            yes_staged(1).raising(&[[1, 0, 1], [1, 1, 3]]),
        ),
        ask(
            "staging: masks that are mapped alike and stored otherwise",
            one(staging(&[success(read)], &[success(0x0012_0089)])),
            told(read),
        ),
        ask(
            "staging: masks that differ in a bit that is cut",
            one(staging(&[success(1)], &[success(0x0100_0001)])),
            told(1),
        ),
        ask(
            "staging: the staged entry is for failure, and it is allowed",
            one(staging(&[success(1)], &[audit(FAILURE, 1, &u())])),
            told(1),
        ),
        ask(
            "staging: the staged entry is inherit-only",
            one(staging(&[success(1)], &[audit(SUCCESS | 0x08, 1, &u())])),
            told(1),
        ),
        ask(
            "staging: the staged entry covers no explicit bit",
            one(staging(&[success(1)], &[success(2)])),
            told(1),
        ),
        ask(
            "staging: a deny-only group in the staged SACL",
            ruled(tu().group(&g(), 0x10), 1, &[], &[staging(&[], &[audit(SUCCESS, 1, &g())])]),
            yes_staged(1),
        ),
        ask(
            "staging: by the final answer, which another rule makes a failure",
            ruled(
                tu(),
                3,
                &[],
                &[
                    staging(&[success(1)], &[audit(FAILURE, 1, &u())]),
                    Rule::of(&acl(&[allow(1, &u())])),
                ],
            ),
            no_staged(1).after(3, 3),
        ),
        ask(
            "staging: the effective DACL stages nothing, the staged SACL does",
            one(Rule {
                staged_dacl: acl(&[allow(7, &u())]),
                ..staging(&[success(1)], &[success(5)])
            }),
            told(1),
        ),
        ask(
            "staging: the staged DACL decides otherwise, the staged SACL tells the same",
            one(Rule { staged_dacl: acl(&[]), ..staging(&[success(1)], &[success(1)]) }),
            told(1),
        ),
    ]
}

fn no_flags() -> Vec<Case> {
    let told = |entry: u32, mask: u32| yes(1).raising(&[[1, entry, mask]]);
    let both = || tu().group(&g(), 0x4);
    vec![
        ask(
            "staging: no staged SACL raises no flag, though the effective one has an event",
            one(telling(&[success(3)])),
            told(0, 3),
        ),
        ask("staging: the same SACL", one(staging(&[success(1)], &[success(1)])), told(0, 1)),
        ask(
            "staging: the same event with another entry number",
            one(staging(
                &[success(1)],
                &[bare_entry(0x11, 0, &[]), audit(SUCCESS, 7, &g()), success(1)],
            )),
            told(0, 1),
        ),
        ask(
            "staging: the same event with a smaller entry number",
            one(staging(&[bare_entry(0x11, 0, &[]), success(1)], &[success(1)])),
            told(1, 1),
        ),
        ask(
            "staging: another identity of the asker with the same mask",
            ruled(both(), 1, &[], &[staging(&[success(1)], &[audit(SUCCESS, 1, &g())])]),
            told(0, 1),
        ),
        ask(
            "staging: two identities that change places, with the same mask",
            ruled(
                both(),
                1,
                &[],
                &[staging(
                    &[success(1), audit(SUCCESS, 1, &g())],
                    &[audit(SUCCESS, 1, &g()), success(1)],
                )],
            ),
            yes(1).raising(&[[1, 0, 1], [1, 1, 1]]),
        ),
        ask(
            "staging: other flags that come to the same for this answer",
            one(staging(&[success(1)], &[audit(0xF7, 1, &u()), audit(FAILURE, 7, &u())])),
            told(0, 1),
        ),
        ask(
            "staging: a staged SACL without entries, and no effective one",
            one(Rule { staged_sacl: acl(&[]), ..seven() }),
            yes(1),
        ),
        ask(
            "staging: a staged SACL of strangers, inherit-only entries, other bits and types",
            one(Rule {
                staged_sacl: acl(&[
                    audit(SUCCESS, 1, &g()),
                    audit(SUCCESS | 0x08, 1, &u()),
                    success(6),
                    audit(FAILURE, 1, &u()),
                    bare_entry(3, BOTH, &[]),
                ]),
                ..seven()
            }),
            yes(1),
        ),
        ask(
            "staging: SACLs that differ where no explicit bit is",
            one(staging(&[success(1), success(2)], &[success(4), success(1)])),
            told(0, 1),
        ),
        ask(
            "staging: the maximum alone has no events, staged or not",
            ruled(tu(), 0x0200_0000, &[], &[staging(&[success(7)], &[success(3)])]),
            yes(7),
        ),
        ask(
            "staging: the descriptor's SACL is compared with none",
            ruled(tu(), 1, &[success(5)], &[staging(&[success(1)], &[success(1)])]),
            yes(1).raising(&[[0, 0, 5], [1, 0, 1]]),
        ),
        ask(
            "staging: a rule that does not apply stages nothing",
            ruled(
                tu(),
                1,
                &[],
                &[staging(&[success(1)], &[success(3)]).applies_to(&never()), seven()],
            ),
            yes(1),
        ),
    ]
}

/// Each rule's two SACLs are compared with each other.
fn whose_flags() -> Vec<Case> {
    vec![
        ask(
            "staging: the second rule raises the flag",
            ruled(tu(), 1, &[], &[seven(), staging(&[success(1)], &[success(3)])]),
            yes_staged(1).raising(&[[2, 0, 1]]),
        ),
        ask(
            "staging: the first rule raises it, and the second does not lower it",
            ruled(
                tu(),
                1,
                &[],
                &[staging(&[success(1)], &[success(3)]), staging(&[success(1)], &[success(1)])],
            ),
            yes_staged(1).raising(&[[1, 0, 1], [2, 0, 1]]),
        ),
        ask(
            "staging: rules that differ from each other raise no flag",
            ruled(
                tu(),
                1,
                &[],
                &[staging(&[success(1)], &[success(1)]), staging(&[success(3)], &[success(3)])],
            ),
            yes(1).raising(&[[1, 0, 1], [2, 0, 3]]),
        ),
        ask(
            "staging: an event that would move from one rule to the next raises the flag",
            ruled(tu(), 1, &[], &[staging(&[success(1)], &[]), staging(&[], &[success(1)])]),
            yes_staged(1).raising(&[[1, 0, 1]]),
        ),
        ask(
            "staging: a staged SACL like the effective one of the rule before raises the flag",
            ruled(
                tu(),
                1,
                &[],
                &[telling(&[success(1)]), Rule { staged_sacl: acl(&[success(1)]), ..seven() }],
            ),
            yes_staged(1).raising(&[[1, 0, 1]]),
        ),
    ]
}

#[cfg(test)]
mod tests {
    use super::*;

    #[test]
    fn the_longest_trail_is_as_said() {
        let all = many();
        let Body::Ask { file, line } = &all[2].body else { panic!("a question") };
        // One entry more, of 16 bytes, would not fit.
        assert!((65_536 - 15..=65_536).contains(&file.len()), "{} bytes", file.len());
        assert_eq!(line.trail().len(), 9 * LONG - 128);
    }
}

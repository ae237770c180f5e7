//! Events: which audit entries of the descriptor's SACL raise one, and what it says. U asks for a
//! file owned by W, whose DACL allows him 7, unless said.

mod masks;
mod who;

use crate::case::*;
use pirasteh_cases::make::{acl, allow, bare_entry, deny, entry, long_entry};
use pirasteh_cases::make::{Descriptor, Question, Token};

/// This token asks, of an object with these entries in its SACL.
fn audited_as(token: Token, mask: u32, sacl: &[Vec<u8>]) -> Question {
    on(token, mask, Descriptor::owned_by(&w()).sacl(&acl(sacl)).dacl(&acl(&[allow(7, &u())])))
}

fn audited(mask: u32, sacl: &[Vec<u8>]) -> Question {
    audited_as(tu(), mask, sacl)
}

pub fn cases() -> Vec<Case> {
    let mut all = flags();
    all.extend(types_and_numbers());
    all.extend(lists());
    all.extend(who::cases());
    all.extend(masks::cases());
    all
}

/// The final answer chooses the flag.
fn flags() -> Vec<Case> {
    let one = |flags: u8, mask: u32| audited(mask, &[audit(flags, 1, &u())]);
    let several = |mask: u32| {
        audited(
            mask,
            &[
                audit(SUCCESS, 1, &u()),
                audit(FAILURE, 2, &u()),
                audit(SUCCESS, 4, &u()),
                audit(BOTH, 1, &u()),
                audit(0, 7, &u()),
            ],
        )
    };
    vec![
        ask("events: success, and it is allowed", one(SUCCESS, 1), yes(1).raising(&[[0, 0, 1]])),
        ask("events: failure, and it is allowed", one(FAILURE, 1), yes(1)),
        ask(
            "events: failure, and it is not allowed, though the bit of the entry is granted",
            one(FAILURE, 9),
            no(1).raising(&[[0, 0, 1]]),
        ),
        ask(
            "events: success, and it is not allowed, though the bit of the entry is granted",
            one(SUCCESS, 9),
            no(1),
        ),
        ask(
            "events: failure, and nothing is granted",
            audited(8, &[audit(FAILURE, 8, &u()), audit(SUCCESS, 8, &u())]),
            no(0).raising(&[[0, 0, 8]]),
        ),
        ask(
            "events: both flags are one event where it is allowed",
            one(BOTH, 1),
            yes(1).raising(&[[0, 0, 1]]),
        ),
        ask(
            "events: both flags are one event where it is not allowed",
            one(BOTH, 9),
            no(1).raising(&[[0, 0, 1]]),
        ),
        ask("events: neither flag, and it is allowed", one(0, 1), yes(1)),
        ask("events: neither flag, and it is not allowed, flags 0x37", one(0x37, 9), no(1)),
        ask("events: all flags but 0x08", one(0xF7, 1), yes(1).raising(&[[0, 0, 1]])),
        ask("events: an inherit-only entry raises none", one(BOTH | 0x08, 1), yes(1)),
        ask("events: an inherit-only entry with all other flags raises none", one(0xFF, 9), no(1)),
        ask(
            "events: in stored order, those for success",
            several(7),
            yes(7).raising(&[[0, 0, 1], [0, 2, 4], [0, 3, 1]]),
        ),
        ask(
            "events: in stored order, those for failure",
            several(0xF),
            no(7).raising(&[[0, 1, 2], [0, 3, 1]]),
        ),
        ask(
            "events: the flag goes by the final answer, after a rule has taken a bit",
            audited(3, &[audit(SUCCESS, 1, &u()), audit(FAILURE, 2, &u())])
                .policy(super::one_rule(&[allow(1, &u())])),
            no(1).after(3, 3).raising(&[[0, 1, 2]]),
        ),
        ask(
            "events: the flag goes by the final answer, after confinement has taken a bit",
            audited_as(confined(), 1, &[audit(SUCCESS, 1, &u()), audit(FAILURE, 1, &u())]),
            no(0).after(1, 0).raising(&[[0, 1, 1]]),
        ),
        ask(
            "events: an exempt token is not confined, and it is a success",
            audited_as(confined().exempt(), 1, &[audit(FAILURE, 1, &u()), audit(SUCCESS, 1, &u())]),
            yes(1).raising(&[[0, 1, 1]]),
        ),
    ]
}

/// Only type 2 raises events, and all entries are counted.
fn types_and_numbers() -> Vec<Case> {
    let mut all = Vec::new();
    for kind in [0u8, 1, 3, 5, 7, 9, 0x0D, 0x11, 0x12, 0x13, 0x82] {
        all.push(ask(
            &format!("events: an entry of type {kind:#04x} raises none"),
            audited(1, &[entry(kind, BOTH, 1, &u())]),
            yes(1),
        ));
    }
    // Headers alone, as far as the 128th, the 256th and the 300th entry.
    let mut long = vec![bare_entry(0x11, 0, &[]); 300];
    for number in [0, 1, 127, 128, 255, 256, 299] {
        long[number] = audit(SUCCESS, 1, &u());
    }
    all.extend([
        ask(
            "events: entries of other types are counted, headers alone too",
            audited(
                1,
                &[
                    bare_entry(0x11, BOTH, &[]),
                    deny(1, &u()),
                    audit(SUCCESS, 1, &u()),
                    bare_entry(0, BOTH, &[0; 4]),
                    audit(SUCCESS, 3, &u()),
                ],
            ),
            yes(1).raising(&[[0, 2, 1], [0, 4, 3]]),
        ),
        ask(
            "events: audit entries that raise none are counted",
            audited(
                1,
                &[
                    audit(SUCCESS, 1, &w()),
                    audit(SUCCESS | 0x08, 1, &u()),
                    audit(FAILURE, 1, &u()),
                    audit(SUCCESS, 2, &u()),
                    audit(SUCCESS, 1, &u()),
                ],
            ),
            yes(1).raising(&[[0, 4, 1]]),
        ),
        ask(
            "events: entry numbers of one byte and of two: 0, 1, 127, 128, 255, 256 and 299",
            audited(1, &long),
            yes(1).raising(&[0, 1, 127, 128, 255, 256, 299].map(|number| [0, number, 1])),
        ),
        ask(
            "events: the same entry twice is told twice",
            audited(1, &[audit(SUCCESS, 1, &u()), audit(SUCCESS, 1, &u())]),
            yes(1).raising(&[[0, 0, 1], [0, 1, 1]]),
        ),
    ]);
    all
}

/// Which list is read, and as far as what.
fn lists() -> Vec<Case> {
    let success = || audit(SUCCESS, 1, &u());
    let spare = |spare: &[u8]| long_entry(2, SUCCESS, 1, &u(), spare);
    let with =
        |sacl: &[u8], dacl: &[u8]| on(tu(), 1, Descriptor::owned_by(&w()).sacl(sacl).dacl(dacl));
    let some = acl(&[allow(7, &u())]);
    // The SACL stands at 32, behind the owner.
    let unfollowed = |question: Question| {
        let descriptor = patched(question.descriptor.clone(), 2, &[0x04]);
        question.descriptor(descriptor)
    };
    vec![
        ask("events: a SACL without entries", with(&acl(&[]), &some), yes(1)),
        ask(
            "events: bit 0x0010 clear: the offset of a SACL is not followed",
            unfollowed(with(&acl(&[success()]), &some)),
            yes(1),
        ),
        ask(
            "events: a null DACL, and a SACL",
            on(tu(), 1, Descriptor::owned_by(&w()).sacl(&acl(&[success()]))),
            yes(1).raising(&[[0, 0, 1]]),
        ),
        ask(
            "events: a DACL that denies is no reason to read the SACL otherwise",
            with(&acl(&[audit(FAILURE, 1, &u())]), &acl(&[deny(1, &u()), allow(1, &u())])),
            no(0).raising(&[[0, 0, 1]]),
        ),
        ask(
            "events: entries behind the count are spare bytes",
            with(&patched(acl(&[success(), success()]), 4, &[1]), &some),
            yes(1).raising(&[[0, 0, 1]]),
        ),
        ask(
            "events: spare bytes behind a SID, and the next entry is found by the size",
            audited(1, &[spare(&[0xFF; 8]), success()]),
            yes(1).raising(&[[0, 0, 1], [0, 1, 1]]),
        ),
        ask(
            "events: a whole audit entry in spare bytes raises none and is not counted",
            audited(1, &[spare(&audit(SUCCESS, 7, &u())), success()]),
            yes(1).raising(&[[0, 0, 1], [0, 1, 1]]),
        ),
        ask(
            "events: a whole audit entry in the body of another type raises none",
            audited(1, &[bare_entry(0x13, BOTH, &audit(BOTH, 7, &u())), success()]),
            yes(1).raising(&[[0, 1, 1]]),
        ),
        ask(
            "events: a SID that says fewer words names another, and the rest is spare",
            audited(1, &[saying(success(), 1), success()]),
            yes(1).raising(&[[0, 1, 1]]),
        ),
    ]
}

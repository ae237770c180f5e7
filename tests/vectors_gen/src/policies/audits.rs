//! The shape of audit entries, type 2, in the SACLs of rules. The question is c1's.

use super::{bad, given, good, reading, GRANTED, READ};
use crate::case::*;
use pirasteh_cases::expressions::never;
use pirasteh_cases::make::{acl, allow, bare_entry, entry, long_entry, policy, sid, Rule};

/// A rule with a list in one of its two SACLs.
type Place = fn(Vec<u8>) -> Rule;

fn effective(list: Vec<u8>) -> Rule {
    Rule { effective_sacl: list, ..reading() }
}

fn staged(list: Vec<u8>) -> Rule {
    Rule { staged_sacl: list, ..reading() }
}

pub fn cases() -> Vec<Case> {
    let mut all = Vec::new();
    for (name, place) in [("an effective SACL", effective as Place), ("a staged SACL", staged)] {
        let one = |entry: Vec<u8>| policy(&[place(acl(&[entry]))]);
        let plain = || audit(FAILURE, 1, &u());
        let short = |kind: u8, flags: u8| saying(entry(kind, flags, 1, &u()), 15);
        all.extend([
            good(&format!("{name}: an audit entry"), one(plain())),
            good(&format!("{name}: an audit entry with eight spare bytes"), {
                one(long_entry(2, FAILURE, 1, &u(), &[0xFF; 8]))
            }),
            good(&format!("{name}: an audit entry of the shortest SID"), {
                one(audit(0, 1, &sid(5, &[])))
            }),
            good(&format!("{name}: other types whose SIDs do not fit"), {
                policy(&[place(acl(&[short(0, 0), short(3, BOTH), bare_entry(0x13, 0, &[])]))])
            }),
            bad(&format!("{name}: an audit entry that is a header alone"), {
                one(bare_entry(2, 0, &[]))
            }),
            bad(&format!("{name}: an audit entry without a SID"), one(bare_entry(2, 0, &[0; 4]))),
            bad(&format!("{name}: an audit entry of 20 bytes where its SID needs 24"), {
                one(patched(cut(plain(), 20), 2, &[20]))
            }),
            bad(&format!("{name}: an audit entry of size 26 with four spare bytes"), {
                one(patched(long_entry(2, 0, 1, &u(), &[0; 4]), 2, &[26]))
            }),
            bad(&format!("{name}: an audit entry whose SID goes on into the next entry"), {
                policy(&[place(acl(&[saying(plain(), 3), plain()]))])
            }),
            bad(&format!("{name}: an audit entry with SID revision 2"), {
                one(patched(plain(), 8, &[2]))
            }),
            bad(&format!("{name}: an audit entry of a SID of 16 words"), {
                one(audit(0, 1, &sid(5, &[7; 16])))
            }),
            bad(&format!("{name}: an inherit-only audit entry whose SID does not fit"), {
                one(short(2, 0x08))
            }),
            bad(&format!("{name}: an audit entry whose SID does not fit, of mask 0"), {
                one(saying(audit(0, 0, &g()), 15))
            }),
            bad(&format!("{name}: a misshapen audit entry in a rule that does not apply"), {
                policy(&[place(acl(&[short(2, 0)])).applies_to(&never())])
            }),
            bad(&format!("{name}: a misshapen audit entry in the second rule"), {
                policy(&[reading(), place(acl(&[plain(), short(2, BOTH)]))])
            }),
            good(&format!("{name}: a misshapen audit entry behind the count is spare"), {
                let list = acl(&[plain(), bare_entry(2, 0, &[])]);
                policy(&[place(patched(list, 4, &[1]))])
            }),
        ]);
    }
    all.push(given(
        "an effective and a staged SACL with spare bytes of their own, and the same event",
        policy(&[Rule {
            effective_sacl: acl(&[long_entry(2, SUCCESS, READ, &u(), &[0xFF; 8])]),
            staged_sacl: acl(&[long_entry(2, SUCCESS, READ, &u(), &allow(1, &u()))]),
            ..reading()
        }]),
        yes(GRANTED).raising(&[[1, 0, READ]]),
    ));
    all
}

//! Entries for S-1-3-4 behind one that decides all bits of the kind. U owns the object and asks for
//! an owner's two rights.

use super::owned;
use crate::case::*;
use pirasteh_cases::make::{self, acl, allow, deny, entry, Descriptor, Rule};

const BOTH: u32 = 0x6_0000;

pub fn cases() -> Vec<Case> {
    let own = owner_rights();
    let denied = deny(0x1000_0000, &u());
    let rule = Rule::of(&acl(&[denied.clone(), allow(0, &own)]));
    vec![
        ask(
            "owner rights: all is denied, and behind that stands an entry for S-1-3-4",
            owned(&u(), BOTH, &[denied.clone(), allow(0, &own)]),
            no(0),
        ),
        ask(
            "owner rights: all is denied, and behind that stands an inherit-only one for S-1-3-4",
            owned(&u(), BOTH, &[denied.clone(), entry(0, 0x08, 0, &own)]),
            yes(BOTH),
        ),
        ask(
            "staging: all is denied in both lists, and behind that the effective one has S-1-3-4",
            on(tu(), BOTH, Descriptor::owned_by(&u()))
                .policy(make::policy(&[rule.staged(&acl(&[denied]))])),
            no_staged(0).after(BOTH, BOTH),
        ),
    ]
}

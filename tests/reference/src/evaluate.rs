//! From well-shaped parts to an answer: matching, the pass over a list, normal evaluation,
//! confinement, rules; and from an answer to the events that it raises.

#[cfg(test)]
mod tests;

use crate::acl::Acl;
use crate::masks::{self, Rights, MAXIMUM};
use crate::policy::Rule;
use crate::sid;
use crate::token::{Token, SECURITY_PRIVILEGE, TAKE_OWNERSHIP_PRIVILEGE};
use crate::{Answer, Event};

/// What stays the same through one question.
pub struct Setting<'a> {
    pub rights: Rights,
    pub token: &'a Token,
    pub owner: &'a [u8],
    pub self_id: &'a [u8],
}

/// One identity of the asker, and for which entries it counts.
struct Listed<'a> {
    sid: &'a [u8],
    for_allow: bool,
    for_deny: bool,
}

/// Whether an identity matches, for allow and deny apart.
#[derive(Clone, Copy)]
struct Match {
    allow: bool,
    deny: bool,
}

const ENABLED: u32 = 0x4;
const DENY_ONLY: u32 = 0x10;

/// The user, and the groups by their attributes.
fn normal_identities(token: &Token) -> Vec<Listed<'_>> {
    let mut all = vec![Listed { sid: &token.user, for_allow: true, for_deny: true }];
    for (group, attributes) in &token.groups {
        let enabled = attributes & ENABLED != 0;
        let deny_only = attributes & DENY_ONLY != 0;
        all.push(Listed {
            sid: group,
            for_allow: enabled && !deny_only,
            for_deny: enabled || deny_only,
        });
    }
    all
}

/// An identity that stands among those listed. A group listed twice matches if either does.
fn matches_directly(listed: &[Listed], sid: &[u8]) -> Match {
    let mut found = Match { allow: false, deny: false };
    for one in listed.iter().filter(|one| one.sid == sid) {
        found.allow |= one.for_allow;
        found.deny |= one.for_deny;
    }
    found
}

/// As above, with S-1-3-4 for the owner and S-1-5-10 for the self identity. Neither is followed
/// to an identity that is itself one of the two, nor to an empty self.
fn matches(setting: &Setting, listed: &[Listed], sid: &[u8]) -> Match {
    let meant = match sid {
        s if s == sid::OWNER_RIGHTS => setting.owner,
        s if s == sid::PRINCIPAL_SELF => setting.self_id,
        s => return matches_directly(listed, s),
    };
    if meant.is_empty() || sid::is_virtual(meant) {
        return Match { allow: false, deny: false };
    }
    matches_directly(listed, meant)
}

/// Membership, in a condition: matching for allow among those listed.
fn is_member(setting: &Setting, listed: &[Listed], sid: &[u8]) -> bool {
    matches(setting, listed, sid).allow
}

/// One pass over a list: each bit is decided by the first matching entry that has it. An entry
/// whose condition is false says nothing.
fn pass(setting: &Setting, listed: &[Listed], list: &Acl) -> u32 {
    let mut decided = 0;
    let mut allowed = 0;
    for entry in &list.entries {
        if entry.is_inherit_only() || !entry.speaks(|sid| is_member(setting, listed, sid)) {
            continue;
        }
        let found = matches(setting, listed, entry.sid());
        let mask = setting.rights.of_entry(entry.mask());
        if entry.is_deny() {
            if found.deny {
                decided |= mask;
            }
        } else if found.allow {
            allowed |= mask & !decided;
            decided |= mask;
        }
    }
    allowed
}

/// Whether some entry of a list names S-1-3-4, allow or deny and whatever its mask and its
/// condition. An inherit-only entry says nothing about the object itself, and does not count.
fn speaks_for_owner(list: &Acl) -> bool {
    list.entries.iter().any(|entry| !entry.is_inherit_only() && entry.sid() == sid::OWNER_RIGHTS)
}

/// Normal evaluation, for the descriptor's list and for each rule's.
fn normal(setting: &Setting, list: Option<&Acl>) -> u32 {
    let listed = normal_identities(setting.token);
    let mut result = match list {
        None => setting.rights.all,
        Some(list) => pass(setting, &listed, list),
    };
    let spoken_for = list.is_some_and(speaks_for_owner);
    // The owner's own bytes have to be listed. No accepted token lists a virtual identity, so an
    // owner that is one matches nothing.
    if !spoken_for && matches_directly(&listed, setting.owner).allow {
        result |= masks::READ_CONTROL | masks::WRITE_DAC;
    }
    if setting.token.privileges & TAKE_OWNERSHIP_PRIVILEGE != 0 {
        result |= masks::WRITE_OWNER;
    }
    if setting.token.privileges & SECURITY_PRIVILEGE != 0 {
        result |= masks::SYSTEM_SECURITY;
    }
    result
}

/// What confinement leaves. All bits if the token is not confined or is exempt.
fn confinement(setting: &Setting, list: Option<&Acl>) -> u32 {
    let Some(confinement) = setting.token.in_force() else {
        return u32::MAX;
    };
    let Some(list) = list else {
        return setting.rights.all;
    };
    let mut listed = vec![Listed { sid: &confinement.identity, for_allow: true, for_deny: true }];
    for capability in &confinement.capabilities {
        listed.push(Listed { sid: capability, for_allow: true, for_deny: true });
    }
    pass(setting, &listed, list)
}

/// Whether a rule applies. That goes by the normal identities.
fn applies(setting: &Setting, rule: &Rule) -> bool {
    let listed = normal_identities(setting.token);
    rule.applies(|sid| is_member(setting, &listed, sid))
}

/// What every rule that applies leaves, and whether one of these stages another result.
fn policy(setting: &Setting, asked: u32, rules: &[Rule]) -> (u32, bool) {
    let mut left = u32::MAX;
    let mut staged = false;
    for rule in rules.iter().filter(|rule| applies(setting, rule)) {
        let effective = normal(setting, Some(&rule.effective));
        left &= effective;
        if let Some(list) = &rule.staged {
            let proposed = normal(setting, Some(list));
            staged |= (effective ^ proposed) & asked != 0;
        }
    }
    (left, staged)
}

/// What an audit is about: the bits that were named, and whether the answer is yes.
#[derive(Clone, Copy)]
struct Outcome {
    explicit: u32,
    allowed: bool,
}

/// The events of one SACL, in stored order. Entries of all types are counted, from 0. An absent
/// list has none.
fn events(setting: &Setting, outcome: Outcome, source: u32, list: Option<&Acl>) -> Vec<Event> {
    let listed = normal_identities(setting.token);
    let mut all = Vec::new();
    for (number, entry) in list.map_or(&[][..], |list| &list.entries).iter().enumerate() {
        // Nothing else is asked of an entry of another type: it need not have a mask and a SID.
        if entry.is_audit()
            && !entry.is_inherit_only()
            && matches(setting, &listed, entry.sid()).deny
            && setting.rights.of_entry(entry.mask()) & outcome.explicit != 0
            && entry.audits(outcome.allowed)
        {
            all.push(Event { source, entry: number as u32, mask: entry.mask() });
        }
    }
    all
}

/// Whether a staged SACL would raise other events than the effective one, entry numbers aside. A
/// rule that has none stages nothing.
fn stages_events(setting: &Setting, outcome: Outcome, rule: &Rule) -> bool {
    let masks = |list| -> Vec<u32> {
        events(setting, outcome, 0, list).iter().map(|event| event.mask).collect()
    };
    rule.staged_sacl.is_some()
        && masks(rule.staged_sacl.as_ref()) != masks(rule.effective_sacl.as_ref())
}

/// What the descriptor has for an answer. None for a null DACL, and for a SACL that is not there.
pub struct Lists<'a> {
    pub dacl: Option<&'a Acl<'a>>,
    pub sacl: Option<&'a Acl<'a>>,
}

/// The answer to an accepted question: the asked bits, and what each step leaves of them; and the
/// events, of the descriptor's SACL and of each applying rule's effective one.
pub fn answer(
    setting: &Setting,
    mask: u32,
    descriptor: &Lists,
    rules: &[Rule],
) -> (Answer, Vec<Event>) {
    let asked = setting.rights.asked(mask);
    let explicit = setting.rights.explicit(mask);

    // Owner's rights and privileges are inside the first.
    let normal = asked & normal(setting, descriptor.dacl);
    let confined = normal & confinement(setting, descriptor.dacl);
    let (left, mut staged) = policy(setting, asked, rules);
    let ruled = confined & left;
    // Nothing comes after the policy.
    let granted = ruled;

    let wanted_something = mask & MAXIMUM != 0;
    let allowed = explicit & !granted == 0 && !(wanted_something && granted == 0);

    // Events go by the final answer.
    let outcome = Outcome { explicit, allowed };
    let mut trail = events(setting, outcome, 0, descriptor.sacl);
    for (number, rule) in (1..).zip(rules) {
        if applies(setting, rule) {
            trail.extend(events(setting, outcome, number, rule.effective_sacl.as_ref()));
            staged |= stages_events(setting, outcome, rule);
        }
    }
    (Answer { asked, normal, confined, ruled, granted, allowed, staged }, trail)
}

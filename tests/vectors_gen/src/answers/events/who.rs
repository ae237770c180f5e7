//! Whom an audit entry is about: those who match for deny, by the normal identities.

use super::audited_as;
use crate::case::*;
use pirasteh_cases::make::{acl, allow, sid, Descriptor, Question, Token};

/// U asks an object with this owner and self identity, and one audit entry.
fn virtually(token: Token, owner: &[u8], self_id: &[u8], named: &[u8]) -> Question {
    let sacl = acl(&[audit(SUCCESS, 1, named)]);
    let dacl = acl(&[allow(7, &u())]);
    on(token, 1, Descriptor::owned_by(owner).sacl(&sacl).dacl(&dacl)).self_id(self_id)
}

pub fn cases() -> Vec<Case> {
    let mut all = groups();
    all.extend(virtual_identities());
    all.extend(confinement());
    all
}

fn raised(granted: u32) -> Line {
    yes(granted).raising(&[[0, 0, 1]])
}

fn groups() -> Vec<Case> {
    let by = |token: Token, named: &[u8]| audited_as(token, 1, &[audit(SUCCESS, 1, named)]);
    let with = |attributes: u32| tu().group(&g(), attributes);
    vec![
        ask("events: a stranger's entry raises none", by(tu(), &g()), yes(1)),
        ask("events: the owner is a stranger here", by(tu(), &w()), yes(1)),
        ask("events: a group that is enabled", by(with(0x4), &g()), raised(1)),
        ask("events: a group that is deny-only", by(with(0x10), &g()), raised(1)),
        ask("events: a group that is enabled and deny-only", by(with(0x14), &g()), raised(1)),
        ask("events: a group that is disabled raises none", by(with(0x3), &g()), yes(1)),
        ask(
            "events: a group listed twice, disabled and then deny-only",
            by(with(0).group(&g(), 0x10), &g()),
            raised(1),
        ),
        ask(
            "events: the user, who is listed as a disabled group too",
            by(tu().group(&u(), 0), &u()),
            raised(1),
        ),
        ask(
            "events: a longer identity than the group's raises none",
            by(with(0x4), &sid(5, &[32, 544, 0])),
            yes(1),
        ),
        ask(
            "events: a shorter identity than the group's raises none",
            by(with(0x4), &sid(5, &[32])),
            yes(1),
        ),
        ask(
            "events: groups and the user, each by his own entry, in stored order",
            audited_as(
                with(0x10).group(&w(), 0x7),
                1,
                &[audit(SUCCESS, 1, &w()), audit(SUCCESS, 0x11, &u()), audit(SUCCESS, 0x21, &g())],
            ),
            yes(1).raising(&[[0, 0, 1], [0, 1, 0x11], [0, 2, 0x21]]),
        ),
    ]
}

fn virtual_identities() -> Vec<Case> {
    let (own, me) = (owner_rights(), principal_self());
    let deny_only = || tu().group(&g(), 0x10);
    vec![
        ask("events: S-1-3-4 where the user owns", virtually(tu(), &u(), &[], &own), raised(1)),
        ask(
            "events: S-1-3-4 where a deny-only group owns",
            virtually(deny_only(), &g(), &[], &own),
            raised(1),
        ),
        ask(
            "events: S-1-3-4 where a disabled group owns raises none",
            virtually(tu().group(&g(), 0), &g(), &[], &own),
            yes(1),
        ),
        ask(
            "events: S-1-3-4 where a stranger owns raises none",
            virtually(tu(), &w(), &u(), &own),
            yes(1),
        ),
        ask("events: S-1-5-10 for the user", virtually(tu(), &w(), &u(), &me), raised(1)),
        ask(
            "events: S-1-5-10 for a deny-only group",
            virtually(deny_only(), &w(), &g(), &me),
            raised(1),
        ),
        ask(
            "events: S-1-5-10 without a self identity raises none",
            virtually(tu(), &u(), &[], &me),
            yes(1),
        ),
        ask(
            "events: S-1-5-10 for a stranger raises none, though the user owns",
            virtually(tu(), &u(), &w(), &me),
            yes(1),
        ),
        ask(
            "events: S-1-3-4 where S-1-5-10 owns is not followed to the self identity",
            virtually(tu(), &me, &u(), &own),
            yes(1),
        ),
        ask(
            "events: S-1-5-10 for S-1-3-4 is not followed to the owner",
            virtually(tu(), &u(), &own, &me),
            yes(1),
        ),
        ask(
            "events: S-1-3-4 where S-1-3-4 owns raises none",
            virtually(tu(), &own, &[], &own),
            yes(1),
        ),
        ask("events: S-1-5-10 for S-1-5-10 raises none", virtually(tu(), &w(), &me, &me), yes(1)),
    ]
}

/// The package and its capabilities are nobody's, for an audit.
fn confinement() -> Vec<Case> {
    // Enough for the package too, so that it is allowed.
    let passes = |owner: &[u8], self_id: &[u8], named: &[u8]| {
        let dacl = acl(&[allow(7, &u()), allow(7, &package())]);
        let sacl = acl(&[audit(SUCCESS, 1, named)]);
        let object = Descriptor::owned_by(owner).sacl(&sacl).dacl(&dacl);
        on(confined(), 1, object).self_id(self_id)
    };
    let raised = || yes(1).raising(&[[0, 0, 1]]);
    vec![
        ask("events: confined, and the user is named", passes(&w(), &[], &u()), raised()),
        ask("events: the package raises none", passes(&w(), &[], &package()), yes(1)),
        ask("events: a capability raises none", passes(&w(), &[], &all_restricted()), yes(1)),
        ask(
            "events: S-1-3-4 where the package owns raises none",
            passes(&package(), &[], &owner_rights()),
            yes(1),
        ),
        ask(
            "events: S-1-5-10 for the package raises none",
            passes(&w(), &package(), &principal_self()),
            yes(1),
        ),
        ask(
            "events: confined, S-1-3-4 where the user owns",
            passes(&u(), &[], &owner_rights()),
            raised(),
        ),
        ask(
            "events: the package and the user fail at confinement, and the user alone is told",
            audited_as(confined(), 1, &[audit(FAILURE, 1, &package()), audit(FAILURE, 3, &u())]),
            no(0).after(1, 0).raising(&[[0, 1, 3]]),
        ),
    ]
}

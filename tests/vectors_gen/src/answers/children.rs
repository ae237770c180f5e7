//! Entries for S-1-3-4 that are meant for children, and those that count. U owns the object and
//! asks for an owner's two rights, unless said.

use super::{owned, TAKE_OWNERSHIP};
use crate::case::*;
use pirasteh_cases::make::{acl, allow, deny, entry, long_entry, sid, Descriptor, Question, Token};

const BOTH: u32 = 0x6_0000;

/// An entry for S-1-3-4 with these flags. It allows what an owner has.
fn flagged(flags: u8) -> Vec<u8> {
    entry(0, flags, BOTH, &owner_rights())
}

/// The same, inherit-only.
fn child() -> Vec<u8> {
    flagged(0x08)
}

fn owns(entries: &[Vec<u8>]) -> Question {
    owned(&u(), BOTH, entries)
}

pub fn cases() -> Vec<Case> {
    let mut all = flags();
    all.extend(contents());
    all.extend(places());
    all.extend(others());
    all.extend(askers());
    all
}

/// Flag 0x08 decides, whatever the other flags.
fn flags() -> Vec<Case> {
    let own = owner_rights();
    let mut all = Vec::new();
    for (flags, what) in [
        (0x0B, "for folders and files below"),
        (0x18, "inherited, and inherit-only"),
        (0xFF, "every flag"),
    ] {
        all.push(ask(
            &format!("owner rights: an entry with flags {flags:#04x} does not count: {what}"),
            owns(&[flagged(flags)]),
            yes(BOTH),
        ));
    }
    for (flags, what) in [
        (0x01, "for files below, and for the folder itself"),
        (0x02, "for folders below, and for the folder itself"),
        (0x04, "for children, not for theirs"),
        (0x10, "inherited"),
        (0xF7, "every flag but 0x08"),
    ] {
        all.push(ask(
            &format!("owner rights: an entry with flags {flags:#04x} counts: {what}"),
            owns(&[entry(1, flags, 0, &own)]),
            no(0),
        ));
    }
    all
}

/// What an inherit-only entry holds does not matter.
fn contents() -> Vec<Case> {
    let own = owner_rights();
    let counting = allow(0, &own);
    vec![
        ask(
            "owner rights: an inherit-only deny of everything",
            owns(&[entry(1, 0x08, u32::MAX, &own)]),
            yes(BOTH),
        ),
        ask(
            "owner rights: an inherit-only allow of nothing",
            owns(&[entry(0, 0x08, 0, &own)]),
            yes(BOTH),
        ),
        ask(
            "owner rights: an inherit-only allow of everything gives no more than the two rights",
            owns(&[entry(0, 0x08, 0x1000_0000, &own)]).mask(0x1F_01FF),
            no(BOTH),
        ),
        ask(
            "owner rights: an inherit-only entry with spare bytes that hold one that counts",
            owns(&[long_entry(0, 0x08, BOTH, &own, &counting)]),
            yes(BOTH),
        ),
        ask(
            "owner rights: an entry that counts, with spare bytes that hold an inherit-only one",
            owns(&[long_allow(0, &own, &child())]),
            no(0),
        ),
    ]
}

/// One entry that counts is enough, wherever it stands.
fn places() -> Vec<Case> {
    let own = owner_rights();
    let many = |last: Vec<u8>| {
        let mut entries = vec![entry(1, 0x0B, BOTH, &own); 300];
        entries.push(last);
        owns(&entries)
    };
    vec![
        ask(
            "owner rights: an inherit-only entry, and behind it one that counts",
            owns(&[child(), allow(0x2_0000, &own)]),
            no(0x2_0000),
        ),
        ask(
            "owner rights: an entry that counts, and behind it an inherit-only one",
            owns(&[deny(0, &own), entry(0, 0x08, 0, &own)]),
            no(0),
        ),
        ask(
            "owner rights: an inherit-only entry at the end of the list",
            owns(&[allow(1, &u()), deny(BOTH, &g()), child()]).mask(0x6_0001),
            yes(0x6_0001),
        ),
        ask("owner rights: 301 inherit-only entries", many(child()), yes(BOTH)),
        ask(
            "owner rights: 300 inherit-only entries, and behind them one that counts",
            many(deny(0, &own)),
            no(0),
        ),
        ask(
            "owner rights: an inherit-only entry, and one without the flag behind the list's last",
            on(
                tu(),
                BOTH,
                Descriptor::owned_by(&u()).dacl(&patched(acl(&[child(), deny(0, &own)]), 4, &[1])),
            ),
            yes(BOTH),
        ),
        ask(
            "owner rights: an inherit-only entry in the DACL, and one without the flag in the SACL",
            on(
                tu(),
                BOTH,
                Descriptor::owned_by(&u()).sacl(&acl(&[deny(0, &own)])).dacl(&acl(&[child()])),
            ),
            yes(BOTH),
        ),
    ]
}

/// Beside entries for others.
fn others() -> Vec<Case> {
    let creator = sid(3, &[0]);
    vec![
        ask(
            "owner rights: an inherit-only entry, and the owner is denied both by name",
            owns(&[deny(BOTH, &u()), child()]),
            yes(BOTH),
        ),
        ask(
            "owner rights: inherit-only ones for CREATOR OWNER, S-1-3-0, and for S-1-3-4",
            owns(&[entry(0, 0x0B, 0x1000_0000, &creator), flagged(0x1B)]),
            yes(BOTH),
        ),
        ask(
            "owner rights: CREATOR OWNER, S-1-3-0, does not count for an inherit-only S-1-3-4",
            owns(&[allow(0, &creator), child()]),
            yes(BOTH),
        ),
        ask(
            "owner rights: S-1-3-4-0 does not count for an inherit-only S-1-3-4",
            owns(&[child(), allow(0, &sid(3, &[4, 0]))]),
            yes(BOTH),
        ),
        ask(
            "owner rights: an inherit-only S-1-3-4-0 does not undo an S-1-3-4",
            owns(&[deny(0, &owner_rights()), entry(0, 0x08, BOTH, &sid(3, &[4, 0]))]),
            no(0),
        ),
    ]
}

/// Who asks, of what, for what. The list is an inherit-only entry for S-1-3-4.
fn askers() -> Vec<Case> {
    let by = |token: Token, owner: &[u8], more: &[Vec<u8>]| {
        let entries = [&[child()][..], more].concat();
        on(token, BOTH, Descriptor::owned_by(owner).dacl(&acl(&entries)))
    };
    vec![
        ask(
            "inherit-only S-1-3-4: an owner by an enabled group",
            by(tu().group(&g(), 4), &g(), &[]),
            yes(BOTH),
        ),
        ask(
            "inherit-only S-1-3-4: a deny-only group is no owner",
            by(tu().group(&g(), 0x10), &g(), &[]),
            no(0),
        ),
        ask("inherit-only S-1-3-4: somebody else has nothing by it", by(tu(), &w(), &[]), no(0)),
        ask("inherit-only S-1-3-4: a key", owns(&[child()]).kind(2), yes(BOTH)),
        ask(
            "inherit-only S-1-3-4: the maximum",
            owns(&[entry(0, 0x08, 0x1000_0000, &owner_rights())]).mask(0x0200_0000),
            yes(BOTH),
        ),
        ask(
            "inherit-only S-1-3-4: with SeTakeOwnership an owner has three rights",
            by(tu().privileges(TAKE_OWNERSHIP), &u(), &[]).mask(0xE_0000),
            yes(0xE_0000),
        ),
        ask(
            "inherit-only S-1-3-4: an owner's rights do not pass confinement",
            by(confined(), &u(), &[]),
            no(0).after(BOTH, 0),
        ),
        ask(
            "inherit-only S-1-3-4: confined, where the package is allowed both",
            by(confined(), &u(), &[allow(BOTH, &package())]),
            yes(BOTH),
        ),
        ask(
            "inherit-only S-1-3-4: confined, and the package owns the object; it is skipped",
            by(confined(), &package(), &[allow(BOTH, &u())]),
            no(0).after(BOTH, 0),
        ),
    ]
}

//! What owners and privileges have, and what masks mean.

use super::{one_rule, owned, SECURITY, TAKE_OWNERSHIP};
use crate::case::*;
use pirasteh_cases::make::{acl, allow, deny, entry, sid, Descriptor};

pub fn cases() -> Vec<Case> {
    let mut all = owners();
    all.extend(privileges());
    all.extend(mapping());
    all
}

fn owners() -> Vec<Case> {
    let own = owner_rights();
    vec![
        ask("an owner has two rights on an empty list", owned(&u(), 0x6_0000, &[]), yes(0x6_0000)),
        ask("an owner has two rights and not five (Wine)", owned(&u(), 0x1F_0000, &[]), no(0x6_0000)),
        ask("an owner has them though denied", owned(&u(), 0x6_0001, &[deny(0x6_0001, &u())]), no(0x6_0000)),
        ask(
            "an owner by an enabled group",
            on(tu().group(&g(), 4), 0x6_0000, Descriptor::owned_by(&g()).dacl(&acl(&[]))),
            yes(0x6_0000),
        ),
        ask(
            "a deny-only group is no owner",
            on(tu().group(&g(), 0x10), 0x6_0000, Descriptor::owned_by(&g()).dacl(&acl(&[]))),
            no(0),
        ),
        ask(
            "a group both enabled and deny-only is no owner",
            on(tu().group(&g(), 0x14), 0x6_0000, Descriptor::owned_by(&g()).dacl(&acl(&[]))),
            no(0),
        ),
        ask("the primary group is no owner", on(tu(), 0x6_0000, Descriptor::owned_by(&w()).group(&u()).dacl(&acl(&[]))), no(0)),
        ask("owner rights: an entry that names S-1-3-4 takes the two rights away, here a deny of nothing",
            owned(&u(), 0x6_0000, &[deny(0, &own)]), no(0)),
        ask("owner rights: an allow of nothing", owned(&u(), 0x6_0000, &[allow(0, &own)]), no(0)),
        ask("owner rights: an inherit-only entry takes nothing away", owned(&u(), 0x6_0000, &[entry(0, 0x08, 0x6_0000, &own)]), yes(0x6_0000)),
        ask("owner rights: an entry at the end of the list",
            owned(&u(), 0x6_0000, &[allow(1, &u()), allow(0x2_0000, &own)]), no(0x2_0000)),
        ask("owner rights: S-1-3-4-0 is another identity", owned(&u(), 0x6_0000, &[allow(0, &sid(3, &[4, 0]))]), yes(0x6_0000)),
        ask(
            "owner rights: a rule's own list counts for the rule; the DACL's S-1-3-4 does not",
            owned(&u(), 0x6_0000, &[allow(0x6_0000, &own)]).policy(one_rule(&[])),
            yes(0x6_0000),
        ),
        ask(
            "owner rights: S-1-3-4 in a rule takes the two rights from the rule's result",
            owned(&u(), 0x6_0000, &[]).policy(one_rule(&[allow(0x2_0000, &own)])),
            no(0x2_0000).after(0x6_0000, 0x6_0000),
        ),
        ask(
            "a rule's result: owner's rights are in a rule's result",
            owned(&u(), 0x6_0000, &[]).policy(one_rule(&[])),
            yes(0x6_0000),
        ),
        ask("an empty list is a list: an effective DACL without entries leaves a stranger nothing",
            owned(&w(), 1, &[allow(1, &u())]).policy(one_rule(&[])), no(0).after(1, 1)),
    ]
}

fn privileges() -> Vec<Case> {
    let empty = Descriptor::owned_by(&w()).dacl(&acl(&[]));
    let null = Descriptor::owned_by(&w());
    let with = |privileges| tu().privileges(privileges);
    vec![
        ask(
            "SeTakeOwnership adds 0x80000",
            on(with(TAKE_OWNERSHIP), 0xC_0000, empty.clone()),
            no(0x8_0000),
        ),
        ask(
            "SeSecurity adds 0x01000000",
            on(with(SECURITY), 0x0108_0000, empty.clone()),
            no(0x0100_0000),
        ),
        ask(
            "other privileges add nothing",
            on(with(!(SECURITY | TAKE_OWNERSHIP)), 0x0200_0000, empty.clone()),
            no(0),
        ),
        ask(
            "a deny does not take 0x80000 from SeTakeOwnership",
            on_list(with(TAKE_OWNERSHIP), 0x8_0000, &[deny(0x8_0000, &u())]),
            yes(0x8_0000),
        ),
        ask(
            "a rule's result: no rule takes 0x80000 from SeTakeOwnership",
            on(with(TAKE_OWNERSHIP), 0x8_0000, empty.clone()).policy(one_rule(&[])),
            yes(0x8_0000),
        ),
        ask(
            "a rule's result: no rule takes 0x01000000 from SeSecurity",
            on(with(SECURITY), 0x0100_0000, empty.clone()).policy(one_rule(&[])),
            yes(0x0100_0000),
        ),
        ask(
            "system security: no entry grants 0x01000000 (Samba)",
            on_list(tu(), 0x0100_0000, &[allow(0xFFFF_FFFF, &u())]),
            no(0),
        ),
        ask(
            "system security: no entry denies it",
            on_list(with(SECURITY), 0x0100_0000, &[deny(0xFFFF_FFFF, &u())]),
            yes(0x0100_0000),
        ),
        ask(
            "system security: an entry with 0x02000000 grants nothing",
            on_list(tu(), 0x0200_0000, &[allow(0x0200_0000, &u())]),
            no(0),
        ),
        ask(
            "system security: a null DACL does not give 0x01000000",
            on(tu(), 0x0100_0001, null.clone()),
            no(1),
        ),
        ask(
            "system security: with SeSecurity",
            on(with(SECURITY), 0x0100_0001, null.clone()),
            yes(0x0100_0001),
        ),
        ask(
            "the maximum does not ask for 0x01000000",
            on(with(SECURITY), 0x0200_0000, null.clone()),
            yes(0x001F_01FF),
        ),
        ask("the maximum and 0x01000000", on(with(SECURITY), 0x0300_0000, null), yes(0x011F_01FF)),
        ask(
            "the maximum on a key with SeTakeOwnership",
            on(with(TAKE_OWNERSHIP), 0x0200_0000, empty).kind(2),
            yes(0x8_0000),
        ),
    ]
}

fn mapping() -> Vec<Case> {
    let all_bits =
        |mask: u32, kind: u32| on_list(tu(), 0x0200_0000, &[allow(mask, &u())]).kind(kind);
    let mut all = Vec::new();
    for (name, bit, file, key) in [
        ("read", 0x8000_0000, 0x0012_0089, 0x0002_0019),
        ("write", 0x4000_0000, 0x0012_0116, 0x0002_0006),
        ("execute", 0x2000_0000, 0x0012_00A0, 0x0002_0019),
        ("all", 0x1000_0000, 0x001F_01FF, 0x000F_003F),
    ] {
        all.push(ask(
            &format!("generic {name} in an entry, for a file"),
            all_bits(bit, 1),
            yes(file),
        ));
        all.push(ask(
            &format!("generic {name} in an entry, for a key"),
            all_bits(bit, 2),
            yes(key),
        ));
        let null = on(tu(), bit, Descriptor::owned_by(&w()));
        all.push(ask(
            &format!("generic {name} in a question, for a file"),
            null.clone(),
            yes(file),
        ));
        all.push(ask(&format!("generic {name} in a question, for a key"), null.kind(2), yes(key)));
    }
    all.extend([
        ask("every bit in an entry, for a file", all_bits(u32::MAX, 1), yes(0x001F_01FF)),
        ask("every bit in an entry, for a key", all_bits(u32::MAX, 2), yes(0x000F_003F)),
        ask("bits of an entry that the kind does not have", all_bits(0x0FF0_FFC0, 2), no(0)),
        ask(
            "generic read and a bit of its own",
            on_list(tu(), 0x8000_0002, &[allow(0x8000_0002, &u())]),
            yes(0x0012_008B),
        ),
        ask(
            "generic write denied leaves the rest of all",
            on_list(tu(), 0x0200_0000, &[deny(0x4000_0000, &u()), allow(0x1000_0000, &u())]),
            yes(0x000D_00E9),
        ),
    ]);
    all
}

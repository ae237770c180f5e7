//! Confined and exempt tokens.

use super::{SECURITY, TAKE_OWNERSHIP};
use crate::case::*;
use pirasteh_cases::hex;
use pirasteh_cases::make::{acl, allow, deny, entry, sid, Descriptor};

pub fn cases() -> Vec<Case> {
    let one = sid(15, &[3, 1]);
    let token = || tu().confined(&package(), &[&one, &all_restricted()]);
    let both =
        |mask: u32, sid: &[u8]| on_list(token(), mask, &[allow(mask, &u()), allow(mask, sid)]);
    let everyone = sid(15, &[2, 1]);
    vec![
        ask("the confinement identity", both(3, &package()), yes(3)),
        ask("a capability", both(3, &one), yes(3)),
        ask("S-1-15-2-2, the capability that all have", both(3, &all_restricted()), yes(3)),
        ask("S-1-15-2-1 without that capability", both(3, &everyone), no(0).after(3, 0)),
        ask(
            "S-1-15-2-1 as a group matches as any group does",
            on_list(tu().group(&everyone, 4), 1, &[allow(1, &everyone)]),
            yes(1),
        ),
        ask(
            "S-1-15-2-1 with that capability",
            on_list(
                tu().confined(&package(), &[&everyone, &all_restricted()]),
                1,
                &[allow(1, &u()), allow(1, &everyone)],
            ),
            yes(1),
        ),
        ask(
            "confinement gives nothing that normal evaluation does not",
            on_list(token(), 3, &[allow(1, &u()), allow(3, &package())]),
            no(1),
        ),
        ask(
            "a user named alone is not enough",
            on_list(token(), 1, &[allow(1, &u())]),
            no(0).after(1, 0),
        ),
        ask(
            "groups do not count in confinement",
            on_list(token().group(&g(), 4), 1, &[allow(1, &g())]),
            no(0).after(1, 0),
        ),
        ask(
            "a deny to a capability",
            on_list(token(), 3, &[deny(1, &one), allow(3, &u()), allow(3, &package())]),
            no(2).after(3, 2),
        ),
        ask(
            "a deny to the user does not count in confinement, but in normal evaluation",
            on_list(token(), 3, &[deny(1, &u()), allow(3, &u()), allow(3, &package())]),
            no(2),
        ),
        ask(
            "no owner's rights under confinement, though the package owns the object",
            on(
                token(),
                0x6_0000,
                Descriptor::owned_by(&package()).dacl(&acl(&[allow(0x6_0000, &u())])),
            ),
            no(0).after(0x6_0000, 0),
        ),
        ask(
            "owner's rights of the user do not pass confinement",
            on(token(), 0x6_0000, Descriptor::owned_by(&u()).dacl(&acl(&[]))),
            no(0).after(0x6_0000, 0),
        ),
        ask(
            "owner's rights of the user, where the package is allowed them",
            on(
                token(),
                0x6_0000,
                Descriptor::owned_by(&u()).dacl(&acl(&[allow(0x6_0000, &package())])),
            ),
            yes(0x6_0000),
        ),
        ask(
            "S-1-3-4 follows the confinement set, for an object the package owns",
            on(
                token(),
                1,
                Descriptor::owned_by(&package())
                    .dacl(&acl(&[allow(1, &u()), allow(1, &owner_rights())])),
            ),
            yes(1),
        ),
        ask(
            "S-1-3-4 does not follow the user there",
            on(token(), 1, Descriptor::owned_by(&u()).dacl(&acl(&[allow(1, &owner_rights())]))),
            no(0).after(1, 0),
        ),
        ask(
            "S-1-5-10 follows the confinement set",
            on_list(token(), 1, &[allow(1, &u()), allow(1, &principal_self())]).self_id(&one),
            yes(1),
        ),
        ask(
            "S-1-5-10 does not follow the user there",
            on_list(token(), 1, &[allow(1, &principal_self())]).self_id(&u()),
            no(0).after(1, 0),
        ),
        ask(
            "privileges do not pass confinement",
            on_list(token().privileges(TAKE_OWNERSHIP | SECURITY), 0x0108_0000, &[]),
            no(0).after(0x0108_0000, 0),
        ),
        ask(
            "nor does SeTakeOwnership come back, where the package is allowed something else",
            on_list(
                token().privileges(TAKE_OWNERSHIP),
                0x8_0001,
                &[allow(1, &u()), allow(1, &package())],
            ),
            no(1).after(0x8_0001, 1),
        ),
        ask(
            "a null DACL under confinement gives the kind's all bits",
            on(token(), 0x0200_0000, Descriptor::owned_by(&w())),
            yes(0x001F_01FF),
        ),
        ask(
            "an empty list under confinement gives nothing",
            on(token(), 0x0200_0000, Descriptor::owned_by(&u()).dacl(&acl(&[]))),
            no(0).after(0x6_0000, 0),
        ),
        ask(
            "an inherit-only entry is skipped under confinement",
            on_list(token(), 1, &[allow(1, &u()), entry(0, 0x08, 1, &package())]),
            no(0).after(1, 0),
        ),
        ask(
            "an entry with spare bytes that names the package",
            on_list(
                token(),
                3,
                &[long_allow(3, &u(), &deny(3, &one)), long_allow(1, &package(), &allow(2, &one))],
            ),
            no(1).after(3, 1),
        ),
        ask(
            "an exempt token is not confined",
            on_list(token().exempt().privileges(SECURITY), 0x0100_0001, &[allow(1, &u())]),
            yes(0x0100_0001),
        ),
        ask(
            "an exempt token's package does not match in normal evaluation",
            on_list(token().exempt(), 1, &[allow(1, &package())]),
            no(0),
        ),
        ask(
            "the same token, from its bytes",
            c1().token(hex::bytes(
                "01 03 00 02 05 00 07 00 02 0F 02 09 02 02 0F 03 01 02 0F 02 02",
            )),
            yes(0x0012_0089),
        ),
    ]
}

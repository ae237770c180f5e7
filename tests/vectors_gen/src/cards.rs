//! The starred cards, in the page's order, with all their sub-cases.

use crate::case::*;
use pirasteh_cases::hex;
use pirasteh_cases::make::{self, acl, allow, deny, Descriptor, Rule};

pub fn cases() -> Vec<Case> {
    let d_by = |entries: &[Vec<u8>]| Descriptor::owned_by(&w()).dacl(&acl(entries));
    let c4 =
        |attributes| on(tu().group(&g(), attributes), 3, d_by(&[deny(2, &g()), allow(3, &u())]));
    let c7 = make::policy(&[Rule::of(&acl(&[allow(1, &u())])).staged(&acl(&[allow(3, &u())]))]);
    let c8 = hex::bytes("01 01 00 02 05 00 07 00 02 0F 02 09 01 02 0F 02 02");
    let c8_exempt = hex::bytes("01 03 00 02 05 00 07 00 02 0F 02 09 01 02 0F 02 02");
    let c9 = hex::bytes("01 01 80 02 02 05 00 07 00 02 0F 02 09 01 02 0F 02 02");
    let no_rule = Rule::of(&acl(&[]));
    vec![
        ask_file(
            "c1: TU on D asks for generic read",
            hex::bytes(
                "01 80 80 80 80 08 \
                 08 01 00 00 02 05 00 07 00 \
                 00 \
                 40 01 00 04 80 14 00 00 00 00 00 00 00 00 00 00 00 20 00 00 00 01 01 00 00 00 00 \
                 00 05 07 00 00 00 02 00 20 00 01 00 00 00 00 00 18 00 00 00 00 80 01 02 00 00 00 \
                 00 00 05 00 00 00 00 07 00 00 00 \
                 00",
            ),
            yes(0x0012_0089),
        ),
        ask(
            "c2: TW asks the same, and has an owner's rights only",
            c1().token(hex::bytes("01 00 00 01 05 07 00")),
            no(0x0002_0000),
        ),
        ask("c3: a key, and the maximum", c1().kind(2).mask(0x0200_0000), yes(0x0002_0019)),
        ask("c4: deny 2 to a group that is enabled, then allow 3 to U", c4(0x4), no(1)),
        ask("c4: the same with a group that is deny-only", c4(0x10), no(1)),
        ask("c5: the same with a group that is disabled", c4(0), yes(3)),
        ask(
            "c6: c4 with the entries swapped; stored order decides",
            on(tu().group(&g(), 0x4), 3, d_by(&[allow(3, &u()), deny(2, &g())])),
            yes(3),
        ),
        ask(
            "c7: a rule allows 1 and stages 3",
            on(tu(), 3, d_by(&[allow(3, &u())])).policy(c7.clone()),
            no_staged(1).after(3, 3),
        ),
        ask(
            "c7: asking 1, where effective and staged list agree",
            on(tu(), 1, d_by(&[allow(3, &u())])).policy(c7),
            yes(1),
        ),
        ask(
            "c8: a confined token, none of whose own identities is named",
            c1().token(c8),
            no(0).after(0x0012_0089, 0),
        ),
        ask("c8: the same token exempt (flags 03)", c1().token(c8_exempt), yes(0x0012_0089)),
        ask(
            "c9: confined with SeSecurity on a null DACL; 0x01000000 is lost",
            c1().token(c9).descriptor(Descriptor::owned_by(&w()).bytes()).mask(0x0100_0001),
            no(1).after(0x0100_0001, 1),
        ),
        ask("c10: asking nothing is allowed", c1().mask(0), yes(0)),
        ask(
            "c11: 80 00 for the flags of a token",
            c1().token(hex::bytes("01 80 00 00 02 05 00 07 00")),
            refused(3),
        ),
        ask(
            "c11: 80 00 for a word of an identity",
            c1().token(hex::bytes("01 00 00 02 05 80 00 07 00")),
            refused(3),
        ),
        ask(
            "c12: a policy without rules answers as none",
            c1().policy(hex::bytes("01 00 00 00 00")),
            yes(0x0012_0089),
        ),
        ask("c12: 257 rules", c1().policy(make::policy(&vec![no_rule.clone(); 257])), refused(9)),
        ask(
            "256 rules are taken; these allow nothing",
            c1().policy(make::policy(&vec![no_rule; 256])),
            no(0).after(0x0012_0089, 0x0012_0089),
        ),
    ]
}

//! Each refusal but 11, from both sides, and which of two is given. (A question is refused with 11
//! if its trail is longer than the buffer, so every case with events shows that too.)

mod audits;
mod conditions;
mod numbers;

use crate::case::*;
use pirasteh_cases::hex;
use pirasteh_cases::make::{self, acl, allow, bare_entry, sid, Descriptor, Rule};

pub fn cases() -> Vec<Case> {
    let mut all = kind_and_mask();
    all.extend(token_shape());
    all.extend(token_rules());
    all.extend(self_identity());
    all.extend(descriptor());
    all.extend(policy());
    all.extend(file());
    all.extend(numbers::cases());
    all.extend(conditions::cases());
    all.extend(audits::cases());
    all
}

/// Refused with 3, 5, 6 and 9.
fn bad_token() -> Vec<u8> {
    vec![]
}
fn bad_self() -> Vec<u8> {
    vec![1]
}
fn bad_descriptor() -> Vec<u8> {
    vec![]
}
fn bad_policy() -> Vec<u8> {
    vec![1]
}

fn kind_and_mask() -> Vec<Case> {
    vec![
        ask("1: kind 0", c1().kind(0), refused(1)),
        ask("1: kind 3", c1().kind(3), refused(1)),
        ask("1: kind 300, a number of two bytes", c1().kind(300), refused(1)),
        ask("1: kind 257 is not kind 1", c1().kind(257), refused(1)),
        ask("1: the largest kind", c1().kind(u32::MAX), refused(1)),
        ask(
            "1 before 2: kind 0 and a mask that no kind has",
            c1().kind(0).mask(u32::MAX),
            refused(1),
        ),
        ask(
            "1 before all others",
            c1().kind(3)
                .mask(u32::MAX)
                .token(bad_token())
                .self_id(&bad_self())
                .descriptor(bad_descriptor())
                .policy(bad_policy()),
            refused(1),
        ),
        ask("2: 0x200, the first bit above the rights of a file", c1().mask(0x200), refused(2)),
        ask("2: 0x8000", c1().mask(0x8000), refused(2)),
        ask("2: 0x00200000", c1().mask(0x0020_0000), refused(2)),
        ask("2: 0x04000000", c1().mask(0x0400_0000), refused(2)),
        ask("2: 0x08000000", c1().mask(0x0800_0000), refused(2)),
        ask("2: a wrong bit beside the maximum", c1().mask(0x0220_0000), refused(2)),
        ask("2: 0x40, a right of files and not of keys", c1().kind(2).mask(0x40), refused(2)),
        ask(
            "2: 0x00100000, a right of files and not of keys",
            c1().kind(2).mask(0x0010_0000),
            refused(2),
        ),
        ask("every bit that may be asked of a file", c1().mask(0xF31F_01FF), no(0x0012_0089)),
        ask(
            "every bit that may be asked of a key",
            c1().kind(2).mask(0xF30F_003F),
            no(0x0002_0019),
        ),
        ask("2 before 3", c1().mask(0x200).token(bad_token()), refused(2)),
    ]
}

fn token_shape() -> Vec<Case> {
    let token = |reason: &str, bytes: &str| ask(reason, c1().token(hex::bytes(bytes)), refused(3));
    let tiny = sid(0, &[]);
    let mut crowd = tu();
    crowd.groups = vec![(tiny.clone(), 4); 256];
    let mut crowd_and_one = tu();
    crowd_and_one.groups = vec![(tiny.clone(), 4); 257];
    let mut shelf = confined();
    let capabilities = &mut shelf.confinement.as_mut().unwrap().1;
    capabilities.resize(64, tiny.clone());
    let mut shelf_and_one = shelf.clone().exempt();
    shelf_and_one.confinement.as_mut().unwrap().1.push(tiny);
    vec![
        token("3: no token", ""),
        token("3: version 0", "00 00 00 02 05 00 07 00"),
        token("3: version 2", "02 00 00 02 05 00 07 00"),
        token("3: version 1 in two bytes", "81 00 00 00 02 05 00 07 00"),
        token("3: flags 4", "01 04 00 02 05 00 07 00"),
        token("3: flags 128", "01 80 01 00 02 05 00 07 00"),
        token("3: a byte too many", "01 00 00 02 05 00 07 00 00"),
        token("3: a byte too few", "01 00 00 02 05 00 07"),
        token("3: the last number does not end", "01 00 00 02 05 00 07 80"),
        token("3: privileges of 65 bits", "01 00 80 80 80 80 80 80 80 80 80 02 02 05 00 07 00"),
        token(
            "3: privileges in eleven bytes",
            "01 00 81 80 80 80 80 80 80 80 80 80 00 02 05 00 07 00",
        ),
        ask(
            "privileges of 64 bits; no more than SeSecurity and SeTakeOwnership is read",
            c1().token(hex::bytes("01 00 FF FF FF FF FF FF FF FF FF 01 02 05 00 07 00"))
                .mask(0x0108_0000),
            yes(0x0108_0000),
        ),
        token("3: an authority of 49 bits", "01 00 00 02 80 80 80 80 80 80 40 00 07 00"),
        token("3: a word of 33 bits", "01 00 00 02 05 00 80 80 80 80 10 00"),
        token("3: an attribute word of 33 bits", "01 00 00 02 05 00 07 01 01 05 07 80 80 80 80 10"),
        token(
            "3: an identity of 16 words",
            "01 00 00 10 05 00 00 00 00 00 00 00 00 00 00 00 00 00 00 00 00 00",
        ),
        ask(
            "an identity of 15 words",
            c1().token(hex::bytes(
                "01 00 00 0F 05 00 00 00 00 00 00 00 00 00 00 00 00 00 00 00 00",
            )),
            no(0),
        ),
        ask("3: 257 groups", c1().token(crowd_and_one.record()), refused(3)),
        ask("256 groups", c1().token(crowd.record()), yes(0x0012_0089)),
        ask("3: 65 capabilities", c1().token(shelf_and_one.record()), refused(3)),
        ask("64 capabilities", c1().token(shelf.record()), no(0).after(0x0012_0089, 0)),
        token("3: confined without confinement fields", "01 01 00 02 05 00 07 00"),
        token(
            "3: confinement fields without the flag",
            "01 00 00 02 05 00 07 00 02 0F 02 09 01 02 0F 02 02",
        ),
        token(
            "3: exempt alone has no confinement fields",
            "01 02 00 02 05 00 07 00 02 0F 02 09 01 02 0F 02 02",
        ),
        token(
            "3 before 4: S-1-3-4 as a group, and a byte too many",
            "01 00 00 02 05 00 07 01 01 03 04 04 00",
        ),
        token("3 before 4: exempt alone, and a byte too many", "01 02 00 02 05 00 07 00 00"),
        ask("3 before 5", c1().token(bad_token()).self_id(&bad_self()), refused(3)),
    ]
}

fn token_rules() -> Vec<Case> {
    let c8 = |confinement: &str| {
        c1().token(hex::bytes(&format!("01 01 00 02 05 00 07 00 {confinement}")))
    };
    vec![
        ask("4: exempt and not confined", c1().token(tu().exempt().record()), refused(4)),
        ask(
            "4: the user is S-1-3-4",
            c1().token(make::Token::of(&owner_rights()).record()),
            refused(4),
        ),
        ask(
            "4: the user is S-1-5-10",
            c1().token(make::Token::of(&principal_self()).record()),
            refused(4),
        ),
        ask(
            "4: a group is S-1-3-4",
            c1().token(tu().group(&owner_rights(), 4).record()),
            refused(4),
        ),
        ask(
            "4: a group is S-1-5-10, though disabled",
            c1().token(tu().group(&g(), 4).group(&principal_self(), 0).record()),
            refused(4),
        ),
        ask(
            "4: the confinement identity is S-1-3-4",
            c1().token(tu().confined(&owner_rights(), &[&all_restricted()]).record()),
            refused(4),
        ),
        ask(
            "4: a capability is S-1-5-10, though the token is exempt",
            c1().token(
                tu().confined(&package(), &[&all_restricted(), &principal_self()])
                    .exempt()
                    .record(),
            ),
            refused(4),
        ),
        ask(
            "S-1-3-4-0, S-1-3-0-4 and S-1-5-10-0 are ordinary groups",
            c1().token(
                tu().group(&sid(3, &[4, 0]), 4)
                    .group(&sid(3, &[0, 4]), 4)
                    .group(&sid(5, &[10, 0]), 4)
                    .record(),
            ),
            yes(0x0012_0089),
        ),
        ask("4: confined without capabilities", c8("02 0F 02 09 00"), refused(4)),
        ask("4: confined with S-1-15-2-1 alone", c8("02 0F 02 09 01 02 0F 02 01"), refused(4)),
        ask(
            "4: confined with S-1-15-2-2-0 for S-1-15-2-2",
            c8("02 0F 02 09 01 03 0F 02 02 00"),
            refused(4),
        ),
        ask(
            "4: S-1-15-2-2 as confinement identity does not count",
            c8("02 0F 02 02 01 02 0F 02 01"),
            refused(4),
        ),
        ask(
            "4: S-1-15-2-2 as a group does not count",
            c1().token(tu().group(&all_restricted(), 4).confined(&package(), &[]).record()),
            refused(4),
        ),
        ask(
            "4: an exempt token needs S-1-15-2-2 too",
            c1().token(tu().confined(&package(), &[]).exempt().record()),
            refused(4),
        ),
        ask(
            "S-1-15-2-2 as the last of three capabilities",
            c1().token(
                tu().confined(
                    &package(),
                    &[&sid(15, &[3, 1]), &sid(15, &[2, 1]), &all_restricted()],
                )
                .record(),
            ),
            no(0).after(0x0012_0089, 0),
        ),
        ask("4 before 5", c1().token(tu().exempt().record()).self_id(&bad_self()), refused(4)),
    ]
}

fn self_identity() -> Vec<Case> {
    let with_self =
        |reason: &str, bytes: &str| ask(reason, c1().self_id(&hex::bytes(bytes)), refused(5));
    vec![
        with_self("5: one byte", "01"),
        with_self("5: seven bytes", "01 00 00 00 00 00 05"),
        with_self("5: a SID without its last byte", "01 01 00 00 00 00 00 05 07 00 00"),
        with_self("5: a SID and a byte", "01 01 00 00 00 00 00 05 07 00 00 00 00"),
        with_self("5: two SIDs", "01 00 00 00 00 00 00 05 01 00 00 00 00 00 00 05"),
        with_self("5: SID revision 0", "00 01 00 00 00 00 00 05 07 00 00 00"),
        with_self("5: SID revision 2", "02 01 00 00 00 00 00 05 07 00 00 00"),
        ask(
            "5: a SID of 16 words",
            c1().self_id(&followed_by(hex::bytes("01 10 00 00 00 00 00 05"), &[0; 64])),
            refused(5),
        ),
        ask("a SID of 15 words", c1().self_id(&sid(5, &[0; 15])), yes(0x0012_0089)),
        ask("a SID of no words", c1().self_id(&sid(5, &[])), yes(0x0012_0089)),
        ask(
            "S-1-5-10 as self identity is accepted",
            c1().self_id(&principal_self()),
            yes(0x0012_0089),
        ),
        ask("5 before 6", c1().self_id(&bad_self()).descriptor(bad_descriptor()), refused(5)),
    ]
}

fn descriptor() -> Vec<Case> {
    let nobody =
        |list: &[u8]| Descriptor { dacl: Some(list.to_vec()), ..Descriptor::default() }.bytes();
    let odd = bare_entry(5, 0, &[]);
    let broken = patched(allow(1, &u()), 2, &[20]);
    let owned = |list: Vec<u8>| Descriptor::owned_by(&w()).dacl(&list).bytes();
    vec![
        ask("6: no descriptor", c1().descriptor(vec![]), refused(6)),
        ask(
            "6 before 7: no owner, and an entry of the wrong size",
            c1().descriptor(nobody(&acl(&[broken.clone()]))),
            refused(6),
        ),
        ask(
            "6 before 8: an entry of type 5, and one of the wrong size behind it",
            c1().descriptor(owned(acl(&[odd.clone(), broken]))),
            refused(6),
        ),
        ask("6 before 9", c1().descriptor(bad_descriptor()).policy(bad_policy()), refused(6)),
        ask("7: no owner", c1().descriptor(nobody(&acl(&[allow(1, &u())]))), refused(7)),
        ask(
            "7: no owner, though a group",
            c1().descriptor(Descriptor { group: Some(w()), ..Descriptor::default() }.bytes()),
            refused(7),
        ),
        ask(
            "7 before 8: no owner, and an entry of type 5",
            c1().descriptor(nobody(&acl(&[odd.clone()]))),
            refused(7),
        ),
        ask("7 before 9", c1().descriptor(nobody(&acl(&[]))).policy(bad_policy()), refused(7)),
        ask(
            "8: an entry of type 5 that is a header alone",
            c1().descriptor(owned(acl(&[allow(0x8000_0000, &u()), odd.clone()]))),
            refused(8),
        ),
        ask(
            "8: an entry of type 2 with a mask and a SID",
            c1().descriptor(owned(acl(&[make::entry(2, 0, 1, &u())]))),
            refused(8),
        ),
        ask(
            "6: an inherit-only entry of type 9 without a condition",
            c1().descriptor(owned(acl(&[make::entry(9, 0x08, 1, &u())]))),
            refused(6),
        ),
        ask(
            "8: an inherit-only entry of type 11",
            c1().descriptor(owned(acl(&[make::entry(11, 0x08, 1, &u())]))),
            refused(8),
        ),
        ask(
            "8: an entry of type 255 for a stranger, behind all that decides",
            c1().descriptor(owned(acl(&[allow(0x8000_0000, &u()), make::entry(255, 0, 1, &g())]))),
            refused(8),
        ),
        ask(
            "any type may stand in a SACL",
            c1().descriptor(
                Descriptor::owned_by(&w())
                    .sacl(&acl(&[odd.clone(), audit(SUCCESS, 1, &u())]))
                    .dacl(&acl(&[allow(0x8000_0000, &u())]))
                    .bytes(),
            ),
            yes(0x0012_0089).raising(&[[0, 1, 1]]),
        ),
        ask("8 before 9", c1().descriptor(owned(acl(&[odd]))).policy(bad_policy()), refused(8)),
    ]
}

fn policy() -> Vec<Case> {
    let odd = acl(&[bare_entry(5, 0, &[])]);
    let plain = acl(&[allow(0x8000_0000, &u())]);
    let rules = |rules: &[Rule]| c1().policy(make::policy(rules));
    let for_some = |applies_to: &[u8]| Rule::of(&plain).applies_to(applies_to);
    let empty = Rule::default();
    vec![
        ask("9: one byte", c1().policy(vec![1]), refused(9)),
        ask("9: version 2", c1().policy(hex::bytes("02 00 00 00 00")), refused(9)),
        ask(
            "9 before 10: an applies_to with another token, and a rule without effective DACL",
            rules(&[for_some(b"artx\xF8"), empty.clone()]),
            refused(9),
        ),
        ask(
            "9 before 10: an entry of type 5, and a byte too many",
            c1().policy(followed_by(make::policy(&[Rule::of(&odd)]), &[0])),
            refused(9),
        ),
        ask(
            "9: an applies_to of one byte, which is no condition",
            rules(&[for_some(b"a")]),
            refused(9),
        ),
        ask("10: an entry of type 5 in the effective DACL", rules(&[Rule::of(&odd)]), refused(10)),
        ask(
            "10: an entry of type 5 in the staged DACL",
            rules(&[Rule::of(&plain).staged(&odd)]),
            refused(10),
        ),
        ask(
            "10: in the second rule, where the first allows nothing",
            rules(&[Rule::of(&acl(&[])), Rule::of(&plain).staged(&odd)]),
            refused(10),
        ),
        ask(
            "9: an inherit-only entry of type 9 without a condition",
            rules(&[Rule::of(&acl(&[make::entry(9, 0x08, 1, &u())]))]),
            refused(9),
        ),
        ask(
            "10: an inherit-only entry of type 11",
            rules(&[Rule::of(&acl(&[make::entry(11, 0x08, 1, &u())]))]),
            refused(10),
        ),
        ask(
            "any type may stand in a rule's SACLs",
            rules(&[Rule { effective_sacl: odd.clone(), staged_sacl: odd, ..Rule::of(&plain) }]),
            yes(0x0012_0089),
        ),
    ]
}

fn file() -> Vec<Case> {
    // The six numbers of c1's file stand at 0, 1, 6, 15, 16 and 81.
    let c1 = c1().file();
    let spliced = |at: usize, old: usize, new: &[u8]| [&c1[..at], new, &c1[at + old..]].concat();
    let mut all = vec![
        ask_file("12: an empty file", vec![], refused(12)),
        ask_file("12: a byte too many", followed_by(c1.clone(), &[0]), refused(12)),
        ask_file("12: a byte too few", cut(c1.clone(), 81), refused(12)),
        ask_file("12: cut inside the descriptor", cut(c1.clone(), 50), refused(12)),
        ask_file(
            "12: a kind of 33 bits",
            spliced(0, 1, &hex::bytes("80 80 80 80 10")),
            refused(12),
        ),
        ask_file(
            "12: a mask of 33 bits",
            spliced(1, 5, &hex::bytes("80 80 80 80 10")),
            refused(12),
        ),
        ask_file(
            "12: a mask in six bytes",
            spliced(1, 5, &hex::bytes("80 80 80 80 88 00")),
            refused(12),
        ),
        ask_file(
            "12: a token length of 33 bits",
            spliced(6, 1, &hex::bytes("88 80 80 80 10")),
            refused(12),
        ),
        ask_file("12: a token length that leads past the end", spliced(6, 1, &[0x7F]), refused(12)),
        ask_file(
            "12: the largest length",
            spliced(81, 1, &hex::bytes("FF FF FF FF 0F")),
            refused(12),
        ),
        ask_file(
            "12: a descriptor length that is one too large",
            spliced(16, 1, &[0x42]),
            refused(12),
        ),
        ask_file("12: a policy length without a policy", spliced(81, 1, &[1]), refused(12)),
        ask_file("12: the last length does not end", spliced(81, 1, &[0x80]), refused(12)),
        ask_file(
            "12 before 1: kind 3, and a byte too many",
            followed_by(spliced(0, 1, &[3]), &[0]),
            refused(12),
        ),
        ask_file(
            "12 before 3: a bad token, and a byte too many",
            followed_by(spliced(7, 1, &[0]), &[0]),
            refused(12),
        ),
    ];
    for (name, at) in [
        ("kind", 0),
        ("token length", 6),
        ("self length", 15),
        ("descriptor length", 16),
        ("policy length", 81),
    ] {
        let long = [c1[at] | 0x80, 0];
        all.push(ask_file(
            &format!("12: the {name} in two bytes"),
            spliced(at, 1, &long),
            refused(12),
        ));
    }
    all
}

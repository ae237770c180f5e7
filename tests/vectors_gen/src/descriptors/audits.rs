//! The shape of audit entries, type 2, in the descriptor's SACL: a mask and one SID, and perhaps
//! spare bytes. Other types there have none. TU asks for generic read, as in c1; no entry here
//! has flag 0x40, unless said, so that none raises an event.

use super::{bad, given, good, GRANTED, READ};
use crate::case::*;
use pirasteh_cases::make::{acl, allow, bare_entry, entry, long_entry, sid, Descriptor};

/// The SACL stands at 32, its first entry at 40, and that entry's SID at 48.
fn with(sacl: &[u8]) -> Vec<u8> {
    Descriptor::owned_by(&w()).sacl(sacl).dacl(&acl(&[allow(READ, &u())])).bytes()
}

fn of(entries: &[Vec<u8>]) -> Vec<u8> {
    with(&acl(entries))
}

fn plain() -> Vec<u8> {
    audit(FAILURE, 1, &u())
}

pub fn cases() -> Vec<Case> {
    let mut all = good_ones();
    all.extend(bad_ones());
    all.extend(wherever());
    all
}

fn good_ones() -> Vec<Case> {
    let spare = |spare: &[u8]| long_entry(2, FAILURE, 1, &u(), spare);
    vec![
        good("an audit entry of exactly its SID's size", of(&[plain()])),
        good("an audit entry with four spare bytes", of(&[spare(&[0; 4])])),
        good("an audit entry with eight spare bytes, and another behind it", {
            of(&[spare(&[0xFF; 8]), plain()])
        }),
        good("an audit entry with 4,000 spare bytes", of(&[spare(&[0; 4000]), plain()])),
        good("an audit entry whose spare bytes hold a misshapen one", {
            of(&[spare(&bare_entry(2, 0, &[]))])
        }),
        good("an audit entry of the shortest SID, 16 bytes", of(&[audit(0, 1, &sid(5, &[]))])),
        good("an audit entry of the longest SID, 76 bytes", {
            of(&[audit(0, 1, &sid(5, &[7; 15]))])
        }),
        given(
            "an audit entry whose SID says one word less, and names a group of nobody",
            of(&[saying(audit(BOTH, 1, &u()), 1)]),
            yes(GRANTED),
        ),
        given(
            "an audit entry with spare bytes raises its event",
            of(&[long_entry(2, SUCCESS, READ, &u(), &[0xFF; 12])]),
            yes(GRANTED).raising(&[[0, 0, READ]]),
        ),
        good("a misshapen audit entry behind the count is spare", {
            with(&patched(acl(&[plain(), bare_entry(2, 0, &[])]), 4, &[1]))
        }),
        good("bit 0x0010 clear: a misshapen audit entry is not looked at", {
            patched(of(&[bare_entry(2, 0, &[])]), 2, &[0x04])
        }),
    ]
}

fn bad_ones() -> Vec<Case> {
    let mut all = Vec::new();
    // The SID needs 24.
    for size in [4u8, 8, 12, 16, 20] {
        let short = cut(plain(), usize::from(size));
        let short = patched(short, 2, &[size]);
        all.push(bad(&format!("an audit entry of {size} bytes where its SID needs 24"), {
            of(&[short])
        }));
    }
    for (size, spare) in [(22u8, 0), (25, 4), (26, 4), (27, 4), (30, 8)] {
        let long = long_entry(2, FAILURE, 1, &u(), &vec![0; spare]);
        all.push(bad(&format!("an audit entry of size {size}, no multiple of 4"), {
            of(&[patched(long, 2, &[size])])
        }));
    }
    all.extend([
        bad("an audit entry of size 0", of(&[patched(plain(), 2, &[0])])),
        bad("an audit entry of size 28 in a list that ends after 24", {
            of(&[patched(plain(), 2, &[28])])
        }),
        bad("an audit entry whose SID says one word more", of(&[saying(plain(), 3)])),
        bad("an audit entry whose SID goes on into the next entry", {
            of(&[saying(plain(), 3), plain()])
        }),
        bad("an audit entry whose SID goes on into the spare bytes of the list", {
            with(&followed_by(patched(acl(&[saying(plain(), 3)]), 2, &[36]), &[0; 4]))
        }),
        bad("an audit entry with spare bytes whose SID says one word more than fits", {
            of(&[saying(long_entry(2, 0, 1, &u(), &[0; 8]), 5)])
        }),
        bad("an audit entry whose SID says 15 words, with room for 14", {
            of(&[saying(audit(0, 1, &sid(5, &[7; 14])), 15)])
        }),
        bad("an audit entry of a SID of 16 words", of(&[audit(0, 1, &sid(5, &[7; 16]))])),
        bad("an audit entry with SID revision 0", patched(of(&[plain()]), 48, &[0])),
        bad("an audit entry with SID revision 2", patched(of(&[plain()]), 48, &[2])),
    ]);
    all
}

/// Every audit entry is judged, whether it says something or not; no other type is.
fn wherever() -> Vec<Case> {
    let short = |kind: u8, flags: u8| saying(entry(kind, flags, 1, &u()), 15);
    let mut all = vec![
        bad("an inherit-only audit entry that is a header alone", {
            of(&[bare_entry(2, 0x08, &[])])
        }),
        bad("an inherit-only audit entry whose SID does not fit", of(&[short(2, 0x0B)])),
        bad("an audit entry without flags whose SID does not fit", of(&[short(2, 0)])),
        bad("an audit entry for failure whose SID does not fit, and it is allowed", {
            of(&[short(2, FAILURE)])
        }),
        bad("an audit entry of mask 0 whose SID does not fit", {
            of(&[saying(audit(SUCCESS, 0, &g()), 15)])
        }),
        bad("a second audit entry whose SID does not fit", of(&[plain(), short(2, 0)])),
        bad("an audit entry whose SID does not fit, behind other types", {
            of(&[bare_entry(0x11, 0, &[]), short(3, 0), short(2, 0)])
        }),
        bad("an audit entry whose SID does not fit, in a SACL that is the last part", {
            let object = Descriptor::owned_by(&w()).sacl(&acl(&[short(2, 0)]));
            object.bytes()
        }),
    ];
    for kind in [0u8, 1, 3, 5, 9, 0x0D, 0x11, 0x13, 0x82, 0xFF] {
        all.push(good(&format!("in a SACL a body of type {kind:#04x} is not judged"), {
            of(&[short(kind, BOTH), bare_entry(kind, BOTH, &[])])
        }));
    }
    all
}

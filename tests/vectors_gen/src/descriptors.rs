//! Descriptors at each limit of their shape. The question is c1's, so that a well-shaped
//! descriptor shows by what it grants.

mod audits;

use crate::case::*;
use pirasteh_cases::make::{
    acl, allow, bare_entry, deny, entry, long_entry, sid, Descriptor, Token,
};

const READ: u32 = 0x8000_0000;
const GRANTED: u32 = 0x0012_0089;

/// D, with these bytes at this place. Its owner stands at 20, its DACL at 32 and its only entry
/// at 40; its length is 64.
fn d_with(at: usize, new: &[u8]) -> Vec<u8> {
    patched(d(), at, new)
}

fn given(reason: &str, descriptor: Vec<u8>, line: Line) -> Case {
    ask(reason, c1().descriptor(descriptor), line)
}

fn bad(reason: &str, descriptor: Vec<u8>) -> Case {
    given(reason, descriptor, refused(6))
}

fn good(reason: &str, descriptor: Vec<u8>) -> Case {
    given(reason, descriptor, yes(GRANTED))
}

pub fn cases() -> Vec<Case> {
    let mut all = header();
    all.extend(in_header());
    all.extend(identities());
    all.extend(lists());
    all.extend(entries());
    all.extend(long_entries());
    all.extend(short_entries());
    all.extend(sacls());
    all.extend(audits::cases());
    all.extend(overlaps());
    all
}

fn header() -> Vec<Case> {
    let header_only = |owner: u8| {
        let mut bytes = vec![1, 0, 0, 0x80, owner];
        bytes.resize(20, 0);
        bytes
    };
    vec![
        bad("length 1", cut(d(), 1)),
        bad("length 19", cut(header_only(0), 19)),
        given("length 20: a whole header, with no owner", header_only(0), refused(7)),
        bad("length 20, with an owner at 20", header_only(20)),
        bad("D without its last byte", cut(d(), 63)),
        good("D with a spare byte", followed_by(d(), &[0xFF])),
        bad("revision 0", d_with(0, &[0])),
        bad("revision 2", d_with(0, &[2])),
        good("the second byte may hold anything", d_with(1, &[0xFF])),
        bad("control without 0x8000", d_with(3, &[0x00])),
        bad("control with all bits but 0x8000 and 0x0010", d_with(2, &[0xEF, 0x7F])),
        good("control with all bits but 0x0010", d_with(2, &[0xEF, 0xFF])),
    ]
}

/// A whole part where the header is, so that only its offset is wrong. D's list is not followed,
/// so that the offsets of lists may hold anything.
fn in_header() -> Vec<Case> {
    let null = || d_with(2, &[0]);
    let with = |at: usize, part: &[u8], field: usize| {
        patched(patched(null(), at, part), field, &[at as u8, 0, 0, 0])
    };
    vec![
        good("D with its bit 0x0004 clear", null()),
        bad("owner offset 12, where a SID stands", with(12, &sid(5, &[]), 4)),
        bad("owner offset 19, where a SID stands", with(19, &sid(5, &[7]), 4)),
        bad("group offset 12, where a SID stands", with(12, &sid(5, &[]), 8)),
        // The owner is the SID inside the entry, out of the list's way.
        bad("SACL offset 16, where a list stands", {
            let bytes = patched(with(16, &acl(&[]), 12), 4, &[48]);
            patched(bytes, 2, &[0x10])
        }),
        // The list's size is the offset itself.
        bad("DACL offset 14, where a list stands", {
            patched(with(14, &[2, 0, 14, 0, 0, 0], 16), 2, &[0x04])
        }),
    ]
}

fn identities() -> Vec<Case> {
    let at_end = |owner: &[u8]| {
        // The owner as the last part, behind D's list.
        let bytes = followed_by(d(), owner);
        patched(bytes, 4, &[64])
    };
    let mut all = vec![
        bad("owner offset 1", d_with(4, &[1])),
        bad("owner offset 19", d_with(4, &[19])),
        good("owner offset 20, and the group there too", d_with(8, &[20])),
        bad("owner offset 63, the last byte", d_with(4, &[63])),
        bad("owner offset 64, the end", d_with(4, &[64])),
        bad("owner offset 0xFFFFFFFF", d_with(4, &[0xFF; 4])),
        bad("owner offset 0xFFFFFFF8", d_with(4, &[0xF8, 0xFF, 0xFF, 0xFF])),
        bad("owner offset 0x00010014, 20 in its low half", d_with(4, &[0x14, 0, 1, 0])),
        bad("group offset 1", d_with(8, &[1])),
        bad("group offset 19", d_with(8, &[19])),
        bad("group offset 63", d_with(8, &[63])),
        bad("group offset 64", d_with(8, &[64])),
        bad("group offset 0xFFFFFFFF", d_with(8, &[0xFF; 4])),
        good("an owner behind the list, that ends with the descriptor", at_end(&sid(5, &[7]))),
        bad("an owner that ends one byte past it", at_end(&cut(sid(5, &[7]), 11))),
        good("an owner of no words at the end", at_end(&sid(5, &[]))),
        bad("seven bytes for an owner", at_end(&cut(sid(5, &[]), 7))),
        good("an owner of 15 words", at_end(&sid(5, &[7; 15]))),
        bad("an owner of 16 words", at_end(&sid(5, &[7; 16]))),
        bad("owner revision 0", d_with(20, &[0])),
        bad("owner revision 2", d_with(20, &[2])),
    ];
    for count in [0u8, 2] {
        all.push(good(&format!("an owner of {count} words where D has 1"), d_with(21, &[count])));
    }
    all
}

fn lists() -> Vec<Case> {
    let first = |list: &[u8]| {
        // The list at 20, the owner behind it.
        let mut bytes = vec![1, 0, 4, 0x80, 0, 0, 0, 0, 0, 0, 0, 0, 0, 0, 0, 0, 20, 0, 0, 0];
        bytes.extend(list);
        let owner = bytes.len() as u8;
        bytes[4] = owner;
        bytes.extend(w());
        bytes
    };
    let mut all = vec![
        bad("DACL bit set with offset 0; others read a null DACL here", d_with(16, &[0])),
        bad("DACL offset 19", d_with(16, &[19])),
        good("DACL offset 20", first(&acl(&[allow(READ, &u())]))),
        bad("DACL offset 20, where D has its owner", d_with(16, &[20])),
        bad("DACL offset 57, seven bytes before the end", d_with(16, &[57])),
        bad("DACL offset 63, the last byte", d_with(16, &[63])),
        bad("DACL offset 64, the end", d_with(16, &[64])),
        bad("DACL offset 0xFFFFFFFF", d_with(16, &[0xFF; 4])),
        bad("DACL offset 0x00010020, 32 in its low half", d_with(16, &[0x20, 0, 1, 0])),
        given(
            "DACL bit clear: a null DACL, and the offset is not followed",
            patched(d_with(2, &[0]), 16, &[0xFF; 4]),
            yes(GRANTED),
        ),
        good("DACL revision 4", d_with(32, &[4])),
        good(
            "reserved bytes of the list may hold anything",
            patched(d_with(33, &[0xFF]), 38, &[0xFF, 0xFF]),
        ),
        bad("list size 0", d_with(34, &[0])),
        bad("list size 7", d_with(34, &[7])),
        bad("list size 8, with one entry", d_with(34, &[8])),
        given("list size 8, without entries", patched(d_with(34, &[8]), 36, &[0]), no(0)),
        bad("list size 31, one less than its entry needs", d_with(34, &[31])),
        bad("list size 33, one past the end", d_with(34, &[33])),
        good(
            "list size 33, with a byte for it; not a multiple of 4",
            followed_by(d_with(34, &[33]), &[0]),
        ),
        bad("list size 0xFFFF", d_with(34, &[0xFF, 0xFF])),
        bad("count 2 in a list of one entry", d_with(36, &[2])),
        bad("count 0xFFFF", d_with(36, &[0xFF, 0xFF])),
        given("count 0: the entry is spare bytes", d_with(36, &[0]), no(0)),
        bad("count 2, with three bytes for the second entry", {
            followed_by(patched(d_with(34, &[35]), 36, &[2]), &[0; 3])
        }),
        good("count 1 of two entries: the second is spare", {
            let list = patched(acl(&[allow(READ, &u()), bare_entry(5, 0, &[])]), 4, &[1]);
            Descriptor::owned_by(&w()).dacl(&list).bytes()
        }),
    ];
    for revision in [0u8, 1, 3, 5] {
        all.push(bad(&format!("DACL revision {revision}"), d_with(32, &[revision])));
    }
    all
}

fn entries() -> Vec<Case> {
    let mut all = Vec::new();
    for size in [0u8, 1, 2, 3, 4, 6, 8, 12, 16, 20, 22, 23, 25, 26, 28] {
        all.push(bad(&format!("entry size {size} where 24 fits"), d_with(42, &[size])));
    }
    let two =
        |first: Vec<u8>| Descriptor::owned_by(&w()).dacl(&acl(&[first, allow(READ, &u())])).bytes();
    all.extend([
        bad("entry size 0xFFFC", d_with(42, &[0xFC, 0xFF])),
        good(
            "entry size 28 with four spare bytes behind the SID",
            two(long_allow(1, &u(), &[0; 4])),
        ),
        good("an entry of the shortest SID, 16 bytes", two(allow(1, &sid(5, &[])))),
        good("an entry of the longest SID, 76 bytes", two(allow(1, &sid(5, &[7; 15])))),
        bad("an entry of a SID of 16 words", two(allow(1, &sid(5, &[7; 16])))),
        bad("an entry with SID revision 0", d_with(48, &[0])),
        bad("an entry with SID revision 2", d_with(48, &[2])),
        given(
            "an entry whose SID says one word less: it names S-1-5-0, and the last word is spare",
            d_with(49, &[1]),
            no(0),
        ),
        bad("an entry whose SID says one word more", d_with(49, &[3])),
        bad("an allow entry that is a header alone", two(bare_entry(0, 0, &[]))),
        bad("a deny entry that is a header alone", two(bare_entry(1, 0, &[]))),
        bad("a deny entry without a SID", two(bare_entry(1, 0, &[0; 4]))),
        bad("an inherit-only entry is judged too", two(bare_entry(0, 0x08, &[0; 4]))),
        given("an entry of type 5 that is a header alone", two(bare_entry(5, 0, &[])), refused(8)),
        bad("an entry of type 5 of size 0", patched(two(bare_entry(5, 0, &[])), 42, &[0])),
        bad("an entry of type 5 of size 6", patched(two(bare_entry(5, 0, &[0; 4])), 42, &[6])),
    ]);
    all
}

/// Entries with spare bytes behind their SIDs. These are never read.
fn long_entries() -> Vec<Case> {
    let with = |entries: &[Vec<u8>]| Descriptor::owned_by(&w()).dacl(&acl(entries)).bytes();
    let reading = allow(READ, &u());
    // In c1's file a descriptor may be 65,516 bytes long; its list begins at 32.
    let room = 65_516 - 32 - 8;
    vec![
        good("four spare bytes in an allow entry", with(&[long_allow(READ, &u(), &[0; 4])])),
        good("eight spare bytes in an allow entry", with(&[long_allow(READ, &u(), &[0xFF; 8])])),
        given(
            "four spare bytes in a deny entry",
            with(&[long_deny(READ, &u(), &[0; 4]), reading.clone()]),
            no(0),
        ),
        given(
            "eight spare bytes in a deny entry",
            with(&[long_deny(1, &u(), &[0xFF; 8]), reading.clone()]),
            no(0x0012_0088),
        ),
        good(
            "an allow entry with as many spare bytes as c1's question file has room for",
            with(&[long_allow(READ, &u(), &vec![0xFF; room - 24])]),
        ),
        given(
            "a deny entry with as many, where the entry behind it is found by the size",
            with(&[long_deny(1, &u(), &vec![0; room - 24 - 24]), reading.clone()]),
            no(0x0012_0088),
        ),
        given(
            "spare bytes that hold a whole allow entry: it is not taken",
            with(&[long_allow(READ, &g(), &reading)]),
            no(0),
        ),
        good(
            "spare bytes that hold a whole deny entry: the next one stands behind them",
            with(&[long_allow(1, &g(), &deny(READ, &u())), reading.clone()]),
        ),
        good(
            "spare bytes that hold an entry of type 5",
            with(&[long_allow(READ, &u(), &bare_entry(5, 0, &[]))]),
        ),
        good(
            "spare bytes that hold a list",
            with(&[long_allow(READ, &u(), &acl(&[deny(READ, &u())])), deny(READ, &u())]),
        ),
        given(
            "the owner stands in the spare bytes of an entry",
            patched(with(&[long_allow(READ, &g(), &u())]), 4, &[64]),
            no(0x0002_0000),
        ),
        good("spare bytes that hold a SID", with(&[long_deny(READ, &g(), &u()), reading.clone()])),
        good("the shortest SID with four spare bytes, 20 bytes", {
            with(&[long_allow(1, &sid(5, &[]), &[0; 4]), reading.clone()])
        }),
        good("the longest SID with four spare bytes, 80 bytes", {
            with(&[long_allow(1, &sid(5, &[7; 15]), &[0; 4]), reading.clone()])
        }),
        given(
            "an entry whose SID says no words: it names S-1-5, and both words are spare",
            d_with(49, &[0]),
            no(0),
        ),
        ask(
            "the same entry, where S-1-5 asks",
            c1().descriptor(d_with(49, &[0])).token(Token::of(&sid(5, &[])).record()),
            yes(GRANTED),
        ),
        good(
            "an inherit-only entry with spare bytes",
            with(&[long_entry(1, 0x08, READ, &u(), &[0; 8]), reading.clone()]),
        ),
        good("spare bytes in the entry, and a whole entry behind the last", {
            let list = acl(&[long_allow(READ, &u(), &[0; 8]), deny(READ, &u())]);
            Descriptor::owned_by(&w()).dacl(&patched(list, 4, &[1])).bytes()
        }),
    ]
}

/// Entries that are not long enough for their SIDs, or of a wrong size though there are spare
/// bytes.
fn short_entries() -> Vec<Case> {
    let with = |entries: &[Vec<u8>]| Descriptor::owned_by(&w()).dacl(&acl(entries)).bytes();
    let reading = allow(READ, &u());
    let long = || with(&[long_allow(READ, &u(), &[0; 4])]);
    vec![
        // The SID is S-1-5-7 and the four bytes of the next entry's header.
        bad("an entry that ends four bytes before its SID, which goes on into the next entry", {
            with(&[saying(allow(1, &sid(5, &[7])), 2), reading.clone()])
        }),
        bad("an entry whose SID reaches to the end of the next entry", {
            with(&[saying(allow(1, &sid(5, &[])), 6), reading.clone()])
        }),
        bad("a deny entry whose SID says 15 words, with room for 14", {
            with(&[saying(deny(1, &sid(5, &[7; 14])), 15), reading.clone()])
        }),
        bad("an entry with spare bytes whose SID says one word more than fits", {
            with(&[saying(long_allow(1, &sid(5, &[7]), &[0; 8]), 4), reading.clone()])
        }),
        bad("an inherit-only entry whose SID goes on into the next entry", {
            with(&[saying(entry(0, 0x08, 1, &sid(5, &[7])), 2), reading.clone()])
        }),
        bad("a last entry whose SID goes on into the spare bytes of the list", {
            followed_by(patched(d_with(34, &[36]), 49, &[3]), &[0; 4])
        }),
        bad("a last entry whose SID goes on behind the list", {
            followed_by(d_with(49, &[3]), &[0; 4])
        }),
        bad("entry size 26 with two spare bytes", patched(long(), 42, &[26])),
        bad("entry size 32 with four spare bytes, and four more behind the list", {
            followed_by(patched(long(), 42, &[32]), &[0; 4])
        }),
        bad("count 2, where the second entry is the spare bytes of the first", {
            let list = acl(&[long_allow(1, &u(), &reading)]);
            Descriptor::owned_by(&w()).dacl(&patched(list, 4, &[2])).bytes()
        }),
        given(
            "an entry of type 5 with room for a SID that says more: its body is not judged",
            with(&[saying(entry(5, 0, 1, &u()), 15), reading.clone()]),
            refused(8),
        ),
    ]
}

fn sacls() -> Vec<Case> {
    let with = |list: &[u8]| {
        Descriptor::owned_by(&w()).sacl(list).dacl(&acl(&[allow(READ, &u())])).bytes()
    };
    let some = acl(&[bare_entry(3, 0, &[0; 8])]);
    // With these the SACL stands at 32.
    let mut all = vec![
        good("a SACL", with(&some)),
        good("SACL bit clear: the offset is not followed", d_with(12, &[0xFF; 4])),
        bad("SACL bit set with offset 0", d_with(2, &[0x14])),
        bad("SACL offset 19", patched(d_with(2, &[0x14]), 12, &[19])),
        bad("SACL offset 20, where D has its owner", patched(d_with(2, &[0x14]), 12, &[20])),
        bad("SACL offset 63", patched(d_with(2, &[0x14]), 12, &[63])),
        bad("SACL offset 64", patched(d_with(2, &[0x14]), 12, &[64])),
        bad("SACL offset 0xFFFFFFFF", patched(d_with(2, &[0x14]), 12, &[0xFF; 4])),
        good(
            "bodies are not judged: an allow entry that is a header alone",
            with(&acl(&[bare_entry(0, 0, &[])])),
        ),
        good("bodies are not judged: a SID of revision 9", with(&acl(&[entry(3, 0, 1, &[9; 12])]))),
        good(
            "bodies are not judged: allow and deny entries too short for any SID",
            with(&acl(&[bare_entry(0, 0, &[0; 8]), bare_entry(1, 0, &[0; 4])])),
        ),
        good(
            "bodies are not judged: an entry longer than any SID, one shorter than its own",
            with(&acl(&[bare_entry(0, 0, &[0; 96]), saying(deny(1, &u()), 15)])),
        ),
        bad("SACL size 7", patched(with(&some), 34, &[7])),
        bad("SACL size past the end", patched(with(&some), 34, &[0xFF])),
        bad("SACL entry size 0", patched(with(&some), 42, &[0])),
        bad("SACL entry size 3", patched(with(&some), 42, &[3])),
        bad("SACL entry size 6", patched(with(&some), 42, &[6])),
        good("SACL entry size 4, the rest spare", patched(with(&some), 42, &[4])),
        bad("SACL entry size past the list", patched(with(&some), 42, &[16])),
        bad("SACL count past the list", patched(with(&some), 36, &[2])),
    ];
    for revision in [0u8, 1, 3, 5] {
        all.push(bad(&format!("SACL revision {revision}"), patched(with(&some), 32, &[revision])));
    }
    all.push(good("SACL revision 4", patched(with(&some), 32, &[4])));
    all
}

fn overlaps() -> Vec<Case> {
    vec![
        ask(
            "the owner is the SID inside the entry",
            c1().descriptor(d_with(4, &[48])).mask(0x0006_0000),
            yes(0x0006_0000),
        ),
        good("the SACL is the DACL", patched(d_with(2, &[0x14]), 12, &[32])),
    ]
}

#[cfg(test)]
mod tests {
    use super::*;

    #[test]
    fn the_longest_entries_fill_a_question_file() {
        let longest = |case: &Case| match &case.body {
            Body::Ask { file, .. } => file.len() == 65_536,
            _ => false,
        };
        assert_eq!(long_entries().iter().filter(|case| longest(case)).count(), 2);
    }
}

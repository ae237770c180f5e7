//! Conversions, both ways.

mod numbers;
mod rooms;

use crate::case::*;
use pirasteh_cases::hex;
use pirasteh_cases::make::{sid, Token};

fn both(reason: &str, record: &str, listing: &str) -> Case {
    let body = Body::Convert { record: hex::bytes(record), listing: hex::bytes(listing) };
    Case { reason: reason.into(), body }
}

pub fn made(reason: &str, token: Token) -> Case {
    let body = Body::Convert { record: token.record(), listing: token.listing() };
    Case { reason: reason.into(), body }
}

pub fn bad_record(number: u32, reason: &str, record: Vec<u8>) -> Case {
    Case {
        reason: format!("{number}, record: {reason}"),
        body: Body::RefusedRecord { record, number },
    }
}

pub fn bad_listing(number: u32, reason: &str, listing: Vec<u8>) -> Case {
    Case {
        reason: format!("{number}, listing: {reason}"),
        body: Body::RefusedListing { listing, number },
    }
}

pub fn cases() -> Vec<Case> {
    let mut all = by_bytes();
    all.extend(accepted());
    all.extend(records());
    all.extend(listings());
    all.extend(numbers::cases());
    all.extend(rooms::cases());
    all
}

/// Written out in full, so that nothing here depends on a builder.
fn by_bytes() -> Vec<Case> {
    vec![
        both(
            "TU",
            "01 00 00 02 05 00 07 00",
            "00 00 00 00 00 00 00 00 00 00 00 00 01 02 00 00 00 00 00 05 00 00 00 00 07 00 00 00 00 00 00 00",
        ),
        both(
            "TW",
            "01 00 00 01 05 07 00",
            "00 00 00 00 00 00 00 00 00 00 00 00 01 01 00 00 00 00 00 05 07 00 00 00 00 00 00 00",
        ),
        both(
            "the token of card c8: confined, one capability",
            "01 01 00 02 05 00 07 00 02 0F 02 09 01 02 0F 02 02",
            "01 00 00 00 00 00 00 00 00 00 00 00 01 02 00 00 00 00 00 05 00 00 00 00 07 00 00 00 00 00 00 00 \
             01 02 00 00 00 00 00 0F 02 00 00 00 09 00 00 00 01 00 00 00 \
             01 02 00 00 00 00 00 0F 02 00 00 00 02 00 00 00",
        ),
        both(
            "all privileges, the largest authority, word and attributes",
            "01 00 FF FF FF FF FF FF FF FF FF 01 \
             01 FF FF FF FF FF FF 3F FF FF FF FF 0F 01 00 00 FF FF FF FF 0F",
            "00 00 00 00 FF FF FF FF FF FF FF FF 01 01 FF FF FF FF FF FF FF FF FF FF 01 00 00 00 \
             01 00 00 00 00 00 00 00 FF FF FF FF",
        ),
        both(
            "an authority is big-endian, all other numbers little-endian",
            "01 00 80 06 01 85 84 8C A0 80 20 84 86 88 08 01 01 05 A0 04 07",
            "00 00 00 00 00 03 00 00 00 00 00 00 01 01 01 00 04 03 02 05 04 03 02 01 01 00 00 00 \
             01 01 00 00 00 00 00 05 20 02 00 00 07 00 00 00",
        ),
    ]
}

fn accepted() -> Vec<Case> {
    let tiny = sid(0, &[]);
    let many = |count: usize| {
        let mut token = tu();
        token.groups = vec![(tiny.clone(), 7); count];
        token
    };
    let mut capable = confined();
    capable.confinement.as_mut().unwrap().1.resize(64, tiny.clone());
    vec![
        made("an exempt token", confined().exempt()),
        made("127 groups, a count of one byte", many(127)),
        made("128 groups, a count of two bytes", many(128)),
        made("256 groups", many(256)),
        made("64 capabilities", capable),
        made(
            "a group listed twice, in its order",
            tu().group(&g(), 0x10).group(&w(), 4).group(&g(), 4),
        ),
        made("a user of 15 words", Token::of(&sid(5, &[0x80; 15]))),
        made(
            "words of one to five bytes",
            Token::of(&sid(
                0,
                &[0x7F, 0x80, 0x3FFF, 0x4000, 0x1F_FFFF, 0x20_0000, 0xFFF_FFFF, 0x1000_0000],
            )),
        ),
    ]
}

fn records() -> Vec<Case> {
    let bad = |reason: &str, record: &str| bad_record(3, reason, hex::bytes(record));
    let tiny = sid(0, &[]);
    let mut crowd = tu();
    crowd.groups = vec![(tiny.clone(), 7); 257];
    let mut shelf = confined();
    shelf.confinement.as_mut().unwrap().1.resize(65, tiny);
    vec![
        bad("no bytes", ""),
        bad("version 2", "02 00 00 02 05 00 07 00"),
        bad("flags 4", "01 04 00 02 05 00 07 00"),
        bad("80 00 for the privileges", "01 00 80 00 02 05 00 07 00"),
        bad("80 00 for a count", "01 00 00 02 05 00 07 80 00"),
        bad("80 00 for an authority", "01 00 00 02 80 00 00 07 00"),
        bad("80 00 for an attribute word", "01 00 00 02 05 00 07 01 01 05 07 80 00"),
        bad("privileges of 65 bits", "01 00 80 80 80 80 80 80 80 80 80 02 02 05 00 07 00"),
        bad("an authority of 49 bits", "01 00 00 02 80 80 80 80 80 80 40 00 07 00"),
        bad("a word of 33 bits", "01 00 00 02 05 00 80 80 80 80 10 00"),
        bad("16 words", "01 00 00 10 05 00 00 00 00 00 00 00 00 00 00 00 00 00 00 00 00 00"),
        bad("a byte too many", "01 00 00 02 05 00 07 00 00"),
        bad("a byte too few", "01 00 00 02 05 00 07"),
        bad_record(3, "257 groups", crowd.record()),
        bad_record(3, "65 capabilities", shelf.record()),
        bad_record(
            3,
            "S-1-3-4 as a group, and a byte too many",
            followed_by(tu().group(&owner_rights(), 4).record(), &[0]),
        ),
        bad_record(4, "S-1-3-4 as a group", tu().group(&owner_rights(), 4).record()),
        bad_record(4, "S-1-5-10 as the user", Token::of(&principal_self()).record()),
        bad_record(4, "exempt and not confined", tu().exempt().record()),
        bad_record(
            4,
            "confined without S-1-15-2-2",
            tu().confined(&package(), &[&sid(15, &[2, 1])]).record(),
        ),
    ]
}

fn listings() -> Vec<Case> {
    let bad = |reason: &str, listing: Vec<u8>| bad_listing(3, reason, listing);
    // TU's listing: flags at 0, privileges at 4, user at 12, group count at 28; 32 bytes.
    let tu_with = |at: usize, new: &[u8]| patched(tu().listing(), at, new);
    let tiny = sid(0, &[]);
    let mut crowd = tu();
    crowd.groups = vec![(tiny.clone(), 7); 257];
    let mut shelf = confined();
    shelf.confinement.as_mut().unwrap().1.resize(65, tiny);
    vec![
        bad("no bytes", vec![]),
        bad("eleven bytes", cut(tu().listing(), 11)),
        bad("flags 4", tu_with(0, &[4])),
        bad("flags 0x01000000", tu_with(3, &[1])),
        bad("confined without confinement fields", tu_with(0, &[1])),
        bad("SID revision 0", tu_with(12, &[0])),
        bad("SID revision 2", tu_with(12, &[2])),
        bad("16 words", Token::of(&sid(5, &[0; 16])).listing()),
        bad("a group count of 1 without a group", tu_with(28, &[1])),
        bad("a group count of 0xFFFFFFFF", tu_with(28, &[0xFF; 4])),
        bad("257 groups", crowd.listing()),
        bad("65 capabilities", shelf.listing()),
        bad("a byte too many", followed_by(tu().listing(), &[0])),
        bad("a byte too few", cut(tu().listing(), 31)),
        bad("confinement fields without the flag", patched(confined().listing(), 0, &[0])),
        bad(
            "S-1-5-10 as a capability, and a byte too many",
            followed_by(
                tu().confined(&package(), &[&all_restricted(), &principal_self()]).listing(),
                &[0],
            ),
        ),
        bad_listing(
            4,
            "S-1-5-10 as a capability, exempt or not",
            tu().confined(&package(), &[&all_restricted(), &principal_self()]).exempt().listing(),
        ),
        bad_listing(
            4,
            "S-1-3-4 as the confinement identity",
            tu().confined(&owner_rights(), &[&all_restricted()]).listing(),
        ),
        bad_listing(4, "flags 2: exempt and not confined", tu_with(0, &[2])),
        bad_listing(4, "confined without capabilities", tu().confined(&package(), &[]).listing()),
    ]
}

//! Bytes that the tests share: document 01's card c1, and a few small parts.

#![allow(dead_code, reason = "each test file uses some of these")]

use pirasteh::{mask, pack_vec, Descriptor, Kind, Listing, Policy, Question, SelfId, Token};

/// The user S-1-5-0-7, without groups.
pub const USER: [u8; 8] = [0x01, 0x00, 0x00, 0x02, 0x05, 0x00, 0x07, 0x00];
/// S-1-5-7, who owns the descriptors.
pub const OWNER: [u8; 7] = [0x01, 0x00, 0x00, 0x01, 0x05, 0x07, 0x00];
/// S-1-5-32-544, by its bytes.
pub const GROUP: [u8; 16] = [1, 2, 0, 0, 0, 0, 0, 5, 32, 0, 0, 0, 0x20, 2, 0, 0];

/// Owned by S-1-5-7; its list allows S-1-5-0-7 generic read.
#[rustfmt::skip]
pub const DESCRIPTOR: [u8; 64] = [
    0x01, 0x00, 0x04, 0x80, 0x14, 0x00, 0x00, 0x00, 0x00, 0x00, 0x00, 0x00, 0x00, 0x00, 0x00, 0x00,
    0x20, 0x00, 0x00, 0x00, 0x01, 0x01, 0x00, 0x00, 0x00, 0x00, 0x00, 0x05, 0x07, 0x00, 0x00, 0x00,
    0x02, 0x00, 0x20, 0x00, 0x01, 0x00, 0x00, 0x00, 0x00, 0x00, 0x18, 0x00, 0x00, 0x00, 0x00, 0x80,
    0x01, 0x02, 0x00, 0x00, 0x00, 0x00, 0x00, 0x05, 0x00, 0x00, 0x00, 0x00, 0x07, 0x00, 0x00, 0x00,
];

/// Card c1: may the user read the file?
pub const C1: Question = Question {
    kind: Kind::File,
    mask: mask::GENERIC_READ,
    token: Token(&USER),
    self_id: SelfId::NONE,
    descriptor: Descriptor(&DESCRIPTOR),
    policy: Policy::NONE,
};

/// Owned by S-1-5-7, with no list at all: everybody has every right of the kind.
pub fn open_to_all() -> Vec<u8> {
    let mut bytes = DESCRIPTOR[..32].to_vec();
    bytes[2] = 0;
    bytes
}

/// Owned by S-1-5-7, with one entry that allows S-1-5-32-544 everything.
pub fn open_to_group() -> Vec<u8> {
    let mut bytes = DESCRIPTOR.to_vec();
    bytes[44..48].copy_from_slice(&mask::GENERIC_ALL.to_le_bytes());
    bytes[48..].copy_from_slice(&GROUP);
    bytes
}

/// The user with these privileges and one group.
pub fn user_with(privileges: u64, group_attributes: u32) -> Vec<u8> {
    let user = [1, 2, 0, 0, 0, 0, 0, 5, 0, 0, 0, 0, 7, 0, 0, 0];
    let mut listing = 0_u32.to_le_bytes().to_vec();
    listing.extend(privileges.to_le_bytes());
    listing.extend(user);
    listing.extend(1_u32.to_le_bytes());
    listing.extend(GROUP);
    listing.extend(group_attributes.to_le_bytes());
    pack_vec(Listing(&listing)).expect("a token")
}

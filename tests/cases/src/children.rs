//! Entries for S-1-3-4 that are meant for children, and others that count: questions in which an
//! owner asks for the two rights that hang on the difference.

use crate::random::Draft;
use crate::rng::Rng;

/// All flags but 0x08, one by one.
const OTHERS: [u8; 7] = [0x01, 0x02, 0x04, 0x10, 0x20, 0x40, 0x80];

/// What an owner asks for.
const MASKS: [u32; 7] =
    [0x2_0000, 0x4_0000, 0x6_0000, 0x6_0001, 0xE_0000, 0x8000_0000, 0x0200_0000];

/// Flags of an entry: inherit-only or not, with and without others.
pub fn flags(rng: &mut Rng) -> u8 {
    match rng.below(10) {
        0 | 1 => 0x08,
        2 => 0x08 | rng.of(&[0x03, 0x10, 0x13, 0xF7]),
        3 => 0x08 | rng.byte(),
        4..=7 => rng.of(&OTHERS),
        8 => rng.byte() & !0x08,
        _ => rng.of(&[0, 0xF7]),
    }
}

/// An entry's mask: mostly without the two rights, so that it is not the entry that decides them.
pub fn mask(rng: &mut Rng) -> u32 {
    match rng.below(6) {
        0 | 1 => 0,
        2 => rng.of(&[0x2_0000, 0x4_0000, 0x6_0000, 0x1000_0000, u32::MAX]),
        _ => rng.u32() & 0x7,
    }
}

/// The owner asks, as user or by a group, and mostly for an owner's rights.
pub fn owner_asks(rng: &mut Rng, draft: &mut Draft, owner: &[u8]) {
    if rng.one_in(3) {
        let attributes = rng.of(&[0x4, 0x7, 0x7, 0x10, 0x14]);
        let place = rng.below(draft.token.groups.len() + 1);
        draft.token.groups.insert(place, (owner.to_vec(), attributes));
    } else {
        draft.token.user = owner.to_vec();
    }
    if !rng.one_in(6) {
        draft.mask = rng.of(&MASKS);
    }
}

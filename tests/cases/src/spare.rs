//! Spare bytes behind the SIDs of allow and deny entries: how many, and what they hold. No answer
//! depends on them, so mostly they are made of what would matter if it were read.

use crate::make;
use crate::people::People;
use crate::rng::Rng;

/// An entry that goes on behind its SID, mostly not far.
pub fn entry(rng: &mut Rng, people: &People, kind: u8, flags: u8, mask: u32) -> Vec<u8> {
    let mut sid = people.named(rng);
    if sid[1] > 0 && rng.one_in(6) {
        // Another identity, of fewer words. Those that it does not count are spare.
        sid[1] = rng.below(usize::from(sid[1])) as u8;
        return make::entry(kind, flags, mask, &sid);
    }
    make::long_entry(kind, flags, mask, &sid, &few(rng, people))
}

/// A few spare bytes, four at least.
fn few(rng: &mut Rng, people: &People) -> Vec<u8> {
    let stuff = stuff(rng, people);
    match rng.below(10) {
        0..=3 => many(&stuff, 4 * (1 + rng.below(4))),
        4..=8 => stuff,
        _ => many(&stuff, 4 * (1 + rng.below(100))),
    }
}

/// So many bytes of this stuff, repeated and cut.
pub fn many(stuff: &[u8], length: usize) -> Vec<u8> {
    let mut out = stuff.repeat(length.div_ceil(stuff.len()));
    out.truncate(length);
    out
}

/// What spare bytes are made of, whole words of it: a look-alike of something, or nothing much.
pub fn stuff(rng: &mut Rng, people: &People) -> Vec<u8> {
    match rng.below(12) {
        0 => vec![0; 4],
        1 => vec![0xFF; 4],
        2 => {
            let length = 4 * (1 + rng.below(8));
            rng.bytes(length)
        }
        3 => people.one_or_virtual(rng),
        // The head of a list, perhaps with an entry behind it.
        4 => make::acl(&[]),
        5 => make::acl(&[look_alike(rng, people)]),
        _ => look_alike(rng, people),
    }
}

/// A whole entry that decides much about somebody who matters.
fn look_alike(rng: &mut Rng, people: &People) -> Vec<u8> {
    let kind = rng.of(&[0, 0, 0, 1, 1, 1, 5]);
    let mask = rng.of(&[0x1000_0000, u32::MAX, 0x1F_01FF, 0xF000_0007, 0x6_0000]);
    make::entry(kind, 0, mask, &people.one_or_virtual(rng))
}

/// The number of bytes that one entry of a list is stretched by, where there is room for `left`:
/// of every size, and often all that there is room for.
pub fn stretch(rng: &mut Rng, left: usize) -> usize {
    let order = rng.below(14);
    let more = match rng.below(5) {
        0 | 1 => left,
        2 => left.saturating_sub(rng.below(100)),
        3 => rng.below(left + 1),
        _ => rng.below(8 << order),
    };
    more.min(left) & !3
}

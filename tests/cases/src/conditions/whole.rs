//! Conditions at random: whole ones of every shape, and some that are spoiled in a byte or two.

use crate::expressions::*;
use crate::rng::Rng;

/// Somebody for a condition to name.
pub type Someone<'a> = &'a dyn Fn(&mut Rng) -> Vec<u8>;

/// A whole condition, mostly a short one, with padding of any length.
pub fn whole(rng: &mut Rng, someone: Someone) -> Vec<u8> {
    let mut out = PREFIX.to_vec();
    match rng.below(12) {
        0 => {
            let count = rng.of(&[2, 5, 30, 31, 32, 32]);
            out.extend(deep(rng, someone, count));
        }
        1 => {
            let size = rng.below(20);
            out.extend(truth(rng, someone, size));
        }
        _ => {
            let size = rng.of(&[0, 0, 0, 1, 1, 2, 3]);
            out.extend(truth(rng, someone, size));
        }
    }
    let zeros = rng.of(&[0, 0, 0, 0, 1, 2, 3, 4, 7, 12, 40]);
    out.resize(out.len() + zeros, 0);
    out
}

/// Tokens that leave one truth, with so many logical operators or fewer.
pub fn truth(rng: &mut Rng, someone: Someone, size: usize) -> Vec<u8> {
    if size == 0 {
        return leaf(rng, someone);
    }
    if rng.one_in(3) {
        let mut tokens = truth(rng, someone, size - 1);
        tokens.push(NOT);
        return tokens;
    }
    let left = rng.below(size);
    let mut tokens = truth(rng, someone, left);
    tokens.extend(truth(rng, someone, size - 1 - left));
    tokens.push(rng.of(&[AND, OR]));
    tokens
}

/// So many truths, all on the stack at once, and what makes one of them.
pub fn deep(rng: &mut Rng, someone: Someone, count: usize) -> Vec<u8> {
    let mut tokens = Vec::new();
    for _ in 0..count {
        tokens.extend(leaf(rng, someone));
        if rng.one_in(8) {
            tokens.push(NOT);
        }
    }
    for _ in 1..count {
        tokens.push(rng.of(&[AND, OR]));
        if rng.one_in(8) {
            tokens.push(NOT);
        }
    }
    tokens
}

/// One list with a member operator.
pub fn leaf(rng: &mut Rng, someone: Someone) -> Vec<u8> {
    let mut tokens = list(rng, someone);
    tokens.push(rng.of(&MEMBERS));
    tokens
}

/// A literal, or a composite of none, one or several.
pub fn list(rng: &mut Rng, someone: Someone) -> Vec<u8> {
    let count = match rng.below(8) {
        0..=3 => return literal(&someone(rng)),
        4 => 0,
        5 => 1,
        6 => 2 + rng.below(3),
        _ => rng.of(&[2, 3, 10]),
    };
    let sids: Vec<Vec<u8>> = (0..count).map(|_| someone(rng)).collect();
    composite(&sids)
}

/// A byte outside the profile, often beside one of it.
pub fn other_token(rng: &mut Rng) -> u8 {
    loop {
        let token = match rng.below(4) {
            0 => rng.of(&[0x01, 0x04, 0x10, 0x18, 0x80, 0x86, 0x87, 0xF8, 0xF9, 0xFA, 0xFB]),
            1 => rng.of(&[0x8A, 0x8C, 0x91, 0x93, 0x88, 0x8E, 0x8F]),
            2 => rng.of(&PROFILE).wrapping_add(rng.of(&[1, 0xFF])),
            _ => rng.byte(),
        };
        if token != 0 && !PROFILE.contains(&token) {
            return token;
        }
    }
}

/// A condition with one to three bytes changed, left out or put in, or cut off.
pub fn spoiled(rng: &mut Rng, mut condition: Vec<u8>) -> Vec<u8> {
    for _ in 0..rng.of(&[1, 1, 1, 2, 3]) {
        if condition.is_empty() {
            return condition;
        }
        let at = rng.below(condition.len());
        let strange = rng.byte();
        let other = other_token(rng);
        match rng.below(8) {
            0 => condition.truncate(at),
            1 => {
                condition.remove(at);
            }
            2 => condition.insert(at, rng.of(&PROFILE)),
            3 => condition.insert(at, rng.of(&[0, other, strange])),
            4 => condition[at] = rng.of(&PROFILE),
            5 => condition[at] = rng.of(&[0, 1, 2, 15, 16, 0xFF, other]),
            6 => condition[at] = condition[at].wrapping_add(rng.of(&[1, 0xFF, 4, 0xFC])),
            _ => condition[at] ^= 1 << rng.below(8),
        }
    }
    condition
}

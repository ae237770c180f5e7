//! Conditions: judged in one walk, and evaluated in another where somebody asks what they say.

use super::walk::Party;
use super::{sid_length, u32_at};

const COMPOSITE: u8 = 0x50;
const LITERAL: u8 = 0x51;
const MEMBER_OF: u8 = 0x89;
const MEMBER_OF_ANY: u8 = 0x8B;
const NOT_MEMBER_OF: u8 = 0x90;
const NOT_MEMBER_OF_ANY: u8 = 0x92;
const AND: u8 = 0xA0;
const OR: u8 = 0xA1;
const NOT: u8 = 0xA2;

#[derive(Clone, Copy, Debug, PartialEq, Eq)]
pub enum Fault {
    Broken,
    OtherToken,
}

use Fault::{Broken, OtherToken};

/// The bytes of a literal's SID, or those that a composite encloses, from its length at `at` on.
#[inline]
fn enclosed(bytes: &[u8], at: usize) -> Option<&[u8]> {
    if bytes.len() - at < 4 {
        return None;
    }
    let length = u32_at(bytes, at) as usize;
    (length <= bytes.len() - at - 4).then(|| &bytes[at + 4..at + 4 + length])
}

/// How far a literal goes whose length is at `at`.
#[inline]
fn literal(bytes: &[u8], at: usize) -> Result<usize, Fault> {
    let sid = enclosed(bytes, at).ok_or(Broken)?;
    if sid_length(sid) == Some(sid.len()) {
        Ok(at + 4 + sid.len())
    } else {
        Err(Broken)
    }
}

fn composite(bytes: &[u8], at: usize) -> Result<usize, Fault> {
    let inside = enclosed(bytes, at).ok_or(Broken)?;
    let mut next = 0;
    while next < inside.len() {
        next = match inside[next] {
            LITERAL => literal(inside, next + 1)?,
            0 | COMPOSITE | MEMBER_OF | MEMBER_OF_ANY | NOT_MEMBER_OF | NOT_MEMBER_OF_ANY => {
                return Err(Broken);
            }
            AND | OR | NOT => return Err(Broken),
            _ => return Err(OtherToken),
        };
    }
    Ok(at + 4 + inside.len())
}

/// Judges a condition. Of the stack there is a bit for each operand, the latest lowest: whether it is
/// a truth.
pub fn judge(bytes: &[u8]) -> Result<(), Fault> {
    if bytes.first_chunk() != Some(b"artx") {
        return Err(Broken);
    }
    let mut depth = 0;
    let mut truths = 0u64;
    let mut at = 4;
    while at < bytes.len() {
        let token = bytes[at];
        at += 1;
        match token {
            0 => {
                if bytes[at..].iter().fold(0, |all, byte| all | byte) != 0 {
                    return Err(Broken);
                }
                break;
            }
            LITERAL | COMPOSITE => {
                at = if token == LITERAL { literal(bytes, at)? } else { composite(bytes, at)? };
                if depth == 32 {
                    return Err(Broken);
                }
                depth += 1;
                truths <<= 1;
            }
            MEMBER_OF | MEMBER_OF_ANY | NOT_MEMBER_OF | NOT_MEMBER_OF_ANY => {
                if depth == 0 || truths & 1 != 0 {
                    return Err(Broken);
                }
                truths |= 1;
            }
            AND | OR => {
                if truths & 3 != 3 {
                    return Err(Broken);
                }
                depth -= 1;
                truths >>= 1;
            }
            NOT => {
                if truths & 1 == 0 {
                    return Err(Broken);
                }
            }
            _ => return Err(OtherToken),
        }
    }
    if depth == 1 && truths == 1 {
        Ok(())
    } else {
        Err(Broken)
    }
}

/// Whether a condition that was judged is true for a party. Of a list that is not the latest
/// operand nothing is asked any more, so one is enough.
pub fn holds(bytes: &[u8], party: &Party) -> bool {
    let mut list: &[u8] = &[];
    let mut truths = 0u64;
    let mut at = 4;
    while at < bytes.len() {
        let token = bytes[at];
        at += 1;
        match token {
            0 => break,
            LITERAL => {
                let length = u32_at(bytes, at) as usize;
                list = &bytes[at - 1..at + 4 + length];
                at += 4 + length;
            }
            COMPOSITE => {
                let length = u32_at(bytes, at) as usize;
                list = &bytes[at + 4..at + 4 + length];
                at += 4 + length;
            }
            AND => truths = (truths >> 1) & (truths | !1),
            OR => truths = (truths >> 1) | (truths & 1),
            NOT => truths ^= 1,
            member => {
                let any = matches!(member, MEMBER_OF_ANY | NOT_MEMBER_OF_ANY);
                let negated = matches!(member, NOT_MEMBER_OF | NOT_MEMBER_OF_ANY);
                let found = has_other(list, party, any) == any;
                truths = truths << 1 | u64::from(found != negated);
            }
        }
    }
    truths & 1 != 0
}

/// Whether one of the SIDs is a member or is none, as wanted.
#[inline]
fn has_other(list: &[u8], party: &Party, wanted: bool) -> bool {
    let mut at = 0;
    while at < list.len() {
        let length = u32_at(list, at + 1) as usize;
        if party.matches(&list[at + 5..at + 5 + length], false) == wanted {
            return true;
        }
        at += 5 + length;
    }
    false
}

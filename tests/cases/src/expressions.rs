//! Builds conditions from their tokens. It builds what it is told, also where that is misshapen.

use crate::make;

pub const PREFIX: [u8; 4] = *b"artx";
pub const COMPOSITE: u8 = 0x50;
pub const LITERAL: u8 = 0x51;
pub const MEMBER_OF: u8 = 0x89;
pub const MEMBER_OF_ANY: u8 = 0x8B;
pub const NOT_MEMBER_OF: u8 = 0x90;
pub const NOT_MEMBER_OF_ANY: u8 = 0x92;
pub const AND: u8 = 0xA0;
pub const OR: u8 = 0xA1;
pub const NOT: u8 = 0xA2;

/// The operators that ask about a list.
pub const MEMBERS: [u8; 4] = [MEMBER_OF, MEMBER_OF_ANY, NOT_MEMBER_OF, NOT_MEMBER_OF_ANY];
/// All tokens of the profile.
pub const PROFILE: [u8; 9] =
    [COMPOSITE, LITERAL, MEMBER_OF, MEMBER_OF_ANY, NOT_MEMBER_OF, NOT_MEMBER_OF_ANY, AND, OR, NOT];

/// The types of entries that have a condition.
pub const ALLOW: u8 = 9;
pub const DENY: u8 = 10;

/// So many operands may be on the stack at once.
pub const DEEPEST: usize = 32;

/// An operand's token, a length, and some bytes, whether or not they go together.
pub fn operand(token: u8, length: u32, bytes: &[u8]) -> Vec<u8> {
    [&[token], &length.to_le_bytes()[..], bytes].concat()
}

/// An operand's token, and these bytes with the length that fits.
pub fn enclosing(token: u8, bytes: &[u8]) -> Vec<u8> {
    operand(token, bytes.len() as u32, bytes)
}

/// One SID.
pub fn literal(sid: &[u8]) -> Vec<u8> {
    enclosing(LITERAL, sid)
}

/// A list of SIDs.
pub fn composite<S: AsRef<[u8]>>(sids: &[S]) -> Vec<u8> {
    let literals: Vec<Vec<u8>> = sids.iter().map(|sid| literal(sid.as_ref())).collect();
    enclosing(COMPOSITE, &literals.concat())
}

/// The prefix and these tokens, without padding.
pub fn expression<T: AsRef<[u8]>>(tokens: &[T]) -> Vec<u8> {
    let mut out = PREFIX.to_vec();
    tokens.iter().for_each(|token| out.extend(token.as_ref()));
    out
}

/// With zeros up to a whole number of words, as an entry needs them.
pub fn padded(mut bytes: Vec<u8>) -> Vec<u8> {
    bytes.resize(bytes.len().next_multiple_of(4), 0);
    bytes
}

/// A condition that asks one thing about a list.
pub fn asks(operator: u8, list: &[u8]) -> Vec<u8> {
    expression(&[list, &[operator]])
}

/// A condition that is true whoever asks, and one that is false.
pub fn always() -> Vec<u8> {
    asks(MEMBER_OF, &composite::<&[u8]>(&[]))
}

pub fn never() -> Vec<u8> {
    asks(MEMBER_OF_ANY, &composite::<&[u8]>(&[]))
}

/// A callback entry, with padding if its condition needs some.
pub fn callback(kind: u8, flags: u8, mask: u32, sid: &[u8], condition: &[u8]) -> Vec<u8> {
    make::long_entry(kind, flags, mask, sid, &padded(condition.to_vec()))
}

pub fn callback_allow(mask: u32, sid: &[u8], condition: &[u8]) -> Vec<u8> {
    callback(ALLOW, 0, mask, sid, condition)
}

pub fn callback_deny(mask: u32, sid: &[u8], condition: &[u8]) -> Vec<u8> {
    callback(DENY, 0, mask, sid, condition)
}

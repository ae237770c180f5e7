//! The packed token record: every field a number in sevens.

use crate::sevens;
use crate::token::{Confinement, Token, CONFINED, HIGHEST_FLAGS, MOST_CAPABILITIES, MOST_GROUPS};

/// An identity: its count, 48-bit authority and 32-bit words. Given back in MS-DTYP bytes.
fn take_identity(rest: &mut &[u8]) -> Option<Vec<u8>> {
    let count = sevens::take(rest, 32)?;
    if count > 15 {
        return None;
    }
    let authority = sevens::take(rest, 48)?;
    let mut sid = vec![1, count as u8];
    sid.extend(&authority.to_be_bytes()[2..]);
    for _ in 0..count {
        let word = sevens::take(rest, 32)? as u32;
        sid.extend(word.to_le_bytes());
    }
    Some(sid)
}

/// A count of identities that follow.
fn take_count(rest: &mut &[u8], most: u64) -> Option<u64> {
    sevens::take(rest, 32).filter(|&count| count <= most)
}

/// Reads a whole record. None if it is misshapen; the token's rules are judged later.
pub fn read(bytes: &[u8]) -> Option<Token> {
    let rest = &mut &bytes[..];
    if sevens::take(rest, 32)? != 1 {
        return None;
    }
    let flags = sevens::take(rest, 32)? as u32;
    if flags > HIGHEST_FLAGS {
        return None;
    }
    let privileges = sevens::take(rest, 64)?;
    let user = take_identity(rest)?;
    let mut groups = Vec::new();
    for _ in 0..take_count(rest, MOST_GROUPS)? {
        let group = take_identity(rest)?;
        let attributes = sevens::take(rest, 32)? as u32;
        groups.push((group, attributes));
    }
    let confinement = if flags & CONFINED != 0 {
        let identity = take_identity(rest)?;
        let mut capabilities = Vec::new();
        for _ in 0..take_count(rest, MOST_CAPABILITIES)? {
            capabilities.push(take_identity(rest)?);
        }
        Some(Confinement { identity, capabilities })
    } else {
        None
    };
    if !rest.is_empty() {
        return None;
    }
    Some(Token { flags, privileges, user, groups, confinement })
}

fn put_identity(out: &mut Vec<u8>, sid: &[u8]) {
    let mut authority = [0; 8];
    authority[2..].copy_from_slice(&sid[2..8]);
    sevens::put(out, u64::from(sid[1]));
    sevens::put(out, u64::from_be_bytes(authority));
    for word in sid[8..].chunks(4) {
        sevens::put(out, u64::from(u32::from_le_bytes([word[0], word[1], word[2], word[3]])));
    }
}

/// The record of a token.
pub fn write(token: &Token) -> Vec<u8> {
    let mut out = Vec::new();
    sevens::put(&mut out, 1);
    sevens::put(&mut out, u64::from(token.flags));
    sevens::put(&mut out, token.privileges);
    put_identity(&mut out, &token.user);
    sevens::put(&mut out, token.groups.len() as u64);
    for (group, attributes) in &token.groups {
        put_identity(&mut out, group);
        sevens::put(&mut out, u64::from(*attributes));
    }
    if let Some(confinement) = &token.confinement {
        put_identity(&mut out, &confinement.identity);
        sevens::put(&mut out, confinement.capabilities.len() as u64);
        for capability in &confinement.capabilities {
            put_identity(&mut out, capability);
        }
    }
    out
}

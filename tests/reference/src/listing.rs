//! The flat listing: the record's fields without its version, little-endian, identities in
//! MS-DTYP bytes.

use crate::sid;
use crate::token::{Confinement, Token, CONFINED, HIGHEST_FLAGS, MOST_CAPABILITIES, MOST_GROUPS};

fn take<'a>(rest: &mut &'a [u8], length: usize) -> Option<&'a [u8]> {
    let front = rest.get(..length)?;
    *rest = &rest[length..];
    Some(front)
}

fn take_u32(rest: &mut &[u8]) -> Option<u32> {
    Some(u32::from_le_bytes(take(rest, 4)?.try_into().ok()?))
}

fn take_u64(rest: &mut &[u8]) -> Option<u64> {
    Some(u64::from_le_bytes(take(rest, 8)?.try_into().ok()?))
}

fn take_sid(rest: &mut &[u8]) -> Option<Vec<u8>> {
    let length = sid::at_front(rest)?.len();
    Some(take(rest, length)?.to_vec())
}

fn take_count(rest: &mut &[u8], most: u64) -> Option<u32> {
    take_u32(rest).filter(|&count| u64::from(count) <= most)
}

/// Reads a whole listing. None if it is misshapen; the token's rules are judged later.
pub fn read(bytes: &[u8]) -> Option<Token> {
    let rest = &mut &bytes[..];
    let flags = take_u32(rest)?;
    if flags > HIGHEST_FLAGS {
        return None;
    }
    let privileges = take_u64(rest)?;
    let user = take_sid(rest)?;
    let mut groups = Vec::new();
    for _ in 0..take_count(rest, MOST_GROUPS)? {
        let group = take_sid(rest)?;
        let attributes = take_u32(rest)?;
        groups.push((group, attributes));
    }
    let confinement = if flags & CONFINED != 0 {
        let identity = take_sid(rest)?;
        let mut capabilities = Vec::new();
        for _ in 0..take_count(rest, MOST_CAPABILITIES)? {
            capabilities.push(take_sid(rest)?);
        }
        Some(Confinement { identity, capabilities })
    } else {
        None
    };
    if !rest.is_empty() {
        return None;
    }
    Some(Token { flags, privileges, user, groups, confinement })
}

/// The listing of a token.
pub fn write(token: &Token) -> Vec<u8> {
    let mut out = Vec::new();
    out.extend(token.flags.to_le_bytes());
    out.extend(token.privileges.to_le_bytes());
    out.extend(&token.user);
    out.extend((token.groups.len() as u32).to_le_bytes());
    for (group, attributes) in &token.groups {
        out.extend(group);
        out.extend(attributes.to_le_bytes());
    }
    if let Some(confinement) = &token.confinement {
        out.extend(&confinement.identity);
        out.extend((confinement.capabilities.len() as u32).to_le_bytes());
        for capability in &confinement.capabilities {
            out.extend(capability);
        }
    }
    out
}

//! One walk over a list: its shape is judged and its entries are taken.

use super::condition::{self, Fault};
use super::{is_virtual, map, u16_at, u32_at, OWNER_RIGHTS, PRINCIPAL_SELF};

/// Whether an identity is one of these. Lengths are compared first, then the last words, since
/// identities of one house differ there, and only then all bytes, which calls memcmp.
#[inline]
fn among(identities: &[&[u8]], sid: &[u8]) -> bool {
    let last = sid.last_chunk::<4>();
    identities.iter().any(|identity| {
        identity.len() == sid.len() && identity.last_chunk::<4>() == last && *identity == sid
    })
}

/// One set of identities that a list is walked with, and how owner and self match in it.
pub struct Party<'a> {
    allow: &'a [&'a [u8]],
    deny: &'a [&'a [u8]],
    pub owner: [bool; 2],
    own_self: [bool; 2],
}

impl<'a> Party<'a> {
    pub fn new(
        allow: &'a [&'a [u8]],
        deny: &'a [&'a [u8]],
        owner: &[u8],
        self_id: &[u8],
    ) -> Party<'a> {
        let both = |sid: &[u8]| {
            if sid.is_empty() || is_virtual(sid) {
                [false; 2]
            } else {
                [among(allow, sid), among(deny, sid)]
            }
        };
        Party { allow, deny, owner: both(owner), own_self: both(self_id) }
    }

    #[inline]
    pub fn matches(&self, sid: &[u8], deny: bool) -> bool {
        if sid.len() == 12 {
            if sid == OWNER_RIGHTS {
                return self.owner[usize::from(deny)];
            }
            if sid == PRINCIPAL_SELF {
                return self.own_self[usize::from(deny)];
            }
        }
        among(if deny { self.deny } else { self.allow }, sid)
    }
}

#[derive(Clone, Copy, Default)]
struct Tally {
    decided: u32,
    allowed: u32,
}

/// What a walk over a list found.
#[derive(Default)]
pub struct Walked {
    /// It has an entry of another type, or another token.
    pub unread: bool,
    names_owner: bool,
    normal: u32,
    pub confined: u32,
}

/// What stays the same through one question.
pub struct Setting<'a> {
    pub rights: &'a [u32; 4],
    pub asked: u32,
    /// The explicit bits that an entry may cover.
    pub audited: u32,
    pub normal: Party<'a>,
    pub confined: Option<Party<'a>>,
    pub owner_rights: u32,
    pub privileges: u32,
}

#[inline]
pub fn acl_header(bytes: &[u8]) -> Option<(usize, usize)> {
    if bytes.len() < 8 || (bytes[0] != 2 && bytes[0] != 4) {
        return None;
    }
    let size = u16_at(bytes, 2);
    (size >= 8 && size <= bytes.len()).then_some((size, u16_at(bytes, 4)))
}

/// The size of the entry at `at`, if its header is well shaped and it is inside the list.
#[inline]
pub fn entry_size(list: &[u8], at: usize) -> Option<usize> {
    if list.len() - at < 4 {
        return None;
    }
    let size = u16_at(list, at + 2);
    (size >= 4 && size % 4 == 0 && size <= list.len() - at).then_some(size)
}

/// Judges a DACL's shape and takes what its entries say of the bits asked. Gives its size too.
pub fn dacl(setting: &Setting, asked: u32, confine: bool, bytes: &[u8]) -> Option<(usize, Walked)> {
    let (size, count) = acl_header(bytes)?;
    let list = &bytes[..size];
    let mut walked = Walked::default();
    let mut normal = Tally::default();
    let mut confined = Tally::default();
    let party = if confine { setting.confined.as_ref() } else { None };
    let mut at = 8;
    for _ in 0..count {
        let size = entry_size(list, at)?;
        let entry = &list[at..at + size];
        at += size;
        let (deny, callback) = match entry[0] {
            0 => (false, false),
            1 => (true, false),
            9 => (false, true),
            10 => (true, true),
            _ => {
                walked.unread = true;
                continue;
            }
        };
        if size < 16 || entry[8] != 1 || entry[9] > 15 {
            return None;
        }
        // What the entry has behind its SID is spare, or its condition.
        let sid = entry.get(8..16 + 4 * usize::from(entry[9]))?;
        let condition = &entry[8 + sid.len()..];
        if callback {
            match condition::judge(condition) {
                Ok(()) => {}
                Err(Fault::Broken) => return None,
                Err(Fault::OtherToken) => {
                    walked.unread = true;
                    continue;
                }
            }
        }
        // An inherit-only entry says nothing about the object itself.
        let inherit_only = entry[1] & 0x08 != 0;
        if sid.len() == 12 && sid == OWNER_RIGHTS {
            walked.names_owner |= !inherit_only;
        }
        if inherit_only {
            continue;
        }
        let mask = map(setting.rights, u32_at(entry, 4)) & asked;
        let speaks = |party: &Party| {
            party.matches(sid, deny) && (!callback || condition::holds(condition, party))
        };
        let new = mask & !normal.decided;
        if new != 0 && speaks(&setting.normal) {
            normal.decided |= new;
            normal.allowed |= if deny { 0 } else { new };
        }
        if let Some(party) = party {
            let new = mask & !confined.decided;
            if new != 0 && speaks(party) {
                confined.decided |= new;
                confined.allowed |= if deny { 0 } else { new };
            }
        }
    }
    // 0x01000000 may be asked, and no entry decides it.
    walked.normal = normal.allowed & setting.rights[3];
    walked.confined = confined.allowed & setting.rights[3];
    Some((size, walked))
}

/// Normal evaluation, from what a walk allowed.
#[inline]
pub fn evaluated(setting: &Setting, walked: &Walked) -> u32 {
    let owner = if walked.names_owner { 0 } else { setting.owner_rights };
    walked.normal | owner | setting.privileges
}

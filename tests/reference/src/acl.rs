//! Lists of entries. A list knows nothing of tokens.

use crate::condition::{self, Condition, Fault};
use crate::sid;

/// Entry types that this edition reads.
const ALLOW: u8 = 0;
const DENY: u8 = 1;
const AUDIT: u8 = 2;
const CALLBACK_ALLOW: u8 = 9;
const CALLBACK_DENY: u8 = 10;

/// One entry: its header, and its bytes as they stand, header included.
pub struct Entry<'a> {
    kind: u8,
    flags: u8,
    bytes: &'a [u8],
    /// Of a callback entry of a DACL, if it has no other token.
    condition: Option<Condition<'a>>,
}

pub struct Acl<'a> {
    /// The list's size as its header has it.
    pub size: usize,
    pub entries: Vec<Entry<'a>>,
    /// A DACL has something that this edition does not read: an entry of another type, or another
    /// token in a condition.
    pub has_unread_parts: bool,
}

fn u16_at(bytes: &[u8], at: usize) -> Option<usize> {
    let two = bytes.get(at..at + 2)?;
    Some(usize::from(u16::from_le_bytes([two[0], two[1]])))
}

/// A list at the front of `bytes`, judged as far as every list is: its own header, and of each
/// entry the header and the size.
fn at_front(bytes: &[u8]) -> Option<Acl<'_>> {
    let revision = *bytes.first()?;
    if revision != 2 && revision != 4 {
        return None;
    }
    let size = u16_at(bytes, 2)?;
    let count = u16_at(bytes, 4)?;
    if size < 8 {
        return None;
    }
    let list = bytes.get(..size)?;

    let mut entries = Vec::new();
    let mut rest = &list[8..];
    for _ in 0..count {
        // The header itself is inside the list.
        let header = rest.get(..4)?;
        let entry_size = usize::from(u16::from_le_bytes([header[2], header[3]]));
        if entry_size < 4 || entry_size % 4 != 0 {
            return None;
        }
        let entry = rest.get(..entry_size)?;
        entries.push(Entry { kind: header[0], flags: header[1], bytes: entry, condition: None });
        rest = &rest[entry_size..];
    }
    Some(Acl { size, entries, has_unread_parts: false })
}

/// A list at the front of `bytes`, judged as a SACL is: an audit entry has a mask and a SID, whole
/// inside the entry, and what stands behind the SID is spare. Other types are well shaped by their
/// header and size, allow and deny entries too.
pub fn sacl_at_front(bytes: &[u8]) -> Option<Acl<'_>> {
    let list = at_front(bytes)?;
    for entry in list.entries.iter().filter(|entry| entry.is_audit()) {
        sid::at_front(entry.bytes.get(8..)?)?;
    }
    Some(list)
}

/// A list at the front of `bytes`, judged as a DACL is: an entry that is read has a mask and a SID,
/// whole inside the entry. What an allow or deny entry has behind the SID is spare; what a callback
/// entry has there is its condition. Other types are well shaped by their header and size, audit
/// entries too.
pub fn dacl_at_front(bytes: &[u8]) -> Option<Acl<'_>> {
    let mut list = at_front(bytes)?;
    for entry in &mut list.entries {
        if !entry.is_read() {
            list.has_unread_parts = true;
            continue;
        }
        let behind_mask = entry.bytes.get(8..)?;
        let sid = sid::at_front(behind_mask)?;
        if entry.is_callback() {
            match condition::read(&behind_mask[sid.len()..]) {
                Ok(condition) => entry.condition = Some(condition),
                Err(Fault::Broken) => return None,
                Err(Fault::OtherToken) => list.has_unread_parts = true,
            }
        }
    }
    Some(list)
}

/// What is said of an entry's mask and SID holds of one that is read: of allow and deny entries in
/// a well-shaped DACL without unread parts, and of audit entries in a well-shaped SACL.
impl<'a> Entry<'a> {
    /// Of a DACL allow and deny entries are read, with a condition or without; others are not.
    fn is_read(&self) -> bool {
        matches!(self.kind, ALLOW | DENY) || self.is_callback()
    }

    fn is_callback(&self) -> bool {
        matches!(self.kind, CALLBACK_ALLOW | CALLBACK_DENY)
    }

    pub fn is_deny(&self) -> bool {
        matches!(self.kind, DENY | CALLBACK_DENY)
    }

    /// Of a SACL audit entries are read; others are not.
    pub fn is_audit(&self) -> bool {
        self.kind == AUDIT
    }

    /// Whether an audit entry is about questions that are answered so: about those that are
    /// allowed, about those that are not, about both or about none.
    pub fn audits(&self, allowed: bool) -> bool {
        self.flags & if allowed { 0x40 } else { 0x80 } != 0
    }

    pub fn is_inherit_only(&self) -> bool {
        self.flags & 0x08 != 0
    }

    /// The mask as stored.
    pub fn mask(&self) -> u32 {
        u32::from_le_bytes([self.bytes[4], self.bytes[5], self.bytes[6], self.bytes[7]])
    }

    /// The identity, without what stands behind it.
    pub fn sid(&self) -> &'a [u8] {
        sid::at_front(&self.bytes[8..]).expect("an entry that is read has a SID here")
    }

    /// Whether its condition is true, or it has none.
    pub fn speaks(&self, is_member: impl Fn(&[u8]) -> bool) -> bool {
        self.condition.as_ref().is_none_or(|condition| condition.holds(is_member))
    }
}

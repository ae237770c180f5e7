//! Identities in MS-DTYP bytes. Two are equal when their bytes are equal, so a slice does.

/// S-1-3-4, owner rights.
pub const OWNER_RIGHTS: [u8; 12] = [1, 1, 0, 0, 0, 0, 0, 3, 4, 0, 0, 0];
/// S-1-5-10, the object's own identity.
pub const PRINCIPAL_SELF: [u8; 12] = [1, 1, 0, 0, 0, 0, 0, 5, 10, 0, 0, 0];
/// S-1-15-2-2, all restricted application packages.
pub const ALL_RESTRICTED: [u8; 16] = [1, 2, 0, 0, 0, 0, 0, 15, 2, 0, 0, 0, 2, 0, 0, 0];

/// The SID at the front of `bytes`: byte 1, a count of 0 to 15, six bytes, four for each word.
pub fn at_front(bytes: &[u8]) -> Option<&[u8]> {
    let revision = *bytes.first()?;
    let count = usize::from(*bytes.get(1)?);
    if revision != 1 || count > 15 {
        return None;
    }
    bytes.get(..8 + 4 * count)
}

/// The bytes are one SID and nothing else.
pub fn is_exactly_one(bytes: &[u8]) -> bool {
    at_front(bytes).is_some_and(|sid| sid.len() == bytes.len())
}

/// One of the two identities that stand for another.
pub fn is_virtual(sid: &[u8]) -> bool {
    sid == OWNER_RIGHTS || sid == PRINCIPAL_SELF
}

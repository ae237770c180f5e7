//! The self-relative descriptor.

use crate::acl::{self, Acl};
use crate::sid;

/// What the check uses of a well-shaped descriptor.
pub struct Descriptor<'a> {
    /// None if the owner's offset is 0.
    pub owner: Option<&'a [u8]>,
    /// None if there is none.
    pub sacl: Option<Acl<'a>>,
    /// None for a null DACL.
    pub dacl: Option<Acl<'a>>,
}

const SELF_RELATIVE: u16 = 0x8000;
const DACL_PRESENT: u16 = 0x0004;
const SACL_PRESENT: u16 = 0x0010;

/// The bytes from an offset of the header on. An offset below 20 leads into the header.
fn part(bytes: &[u8], offset: u32) -> Option<&[u8]> {
    if offset < 20 {
        return None;
    }
    bytes.get(usize::try_from(offset).ok()?..)
}

/// Reads a descriptor's whole shape. None if any of it is wrong.
pub fn read(bytes: &[u8]) -> Option<Descriptor<'_>> {
    if bytes.len() < 20 || bytes.len() > 65_535 {
        return None;
    }
    let offset =
        |at: usize| u32::from_le_bytes([bytes[at], bytes[at + 1], bytes[at + 2], bytes[at + 3]]);
    let (owner_at, group_at, sacl_at, dacl_at) = (offset(4), offset(8), offset(12), offset(16));
    let control = u16::from_le_bytes([bytes[2], bytes[3]]);
    if bytes[0] != 1 || control & SELF_RELATIVE == 0 {
        return None;
    }

    let owner = match owner_at {
        0 => None,
        at => Some(sid::at_front(part(bytes, at)?)?),
    };
    if group_at != 0 {
        sid::at_front(part(bytes, group_at)?)?;
    }
    // With a bit clear its offset is not followed, whatever it holds.
    let sacl = if control & SACL_PRESENT != 0 {
        Some(acl::sacl_at_front(part(bytes, sacl_at)?)?)
    } else {
        None
    };
    let dacl = if control & DACL_PRESENT != 0 {
        Some(acl::dacl_at_front(part(bytes, dacl_at)?)?)
    } else {
        None
    };
    Some(Descriptor { owner, sacl, dacl })
}

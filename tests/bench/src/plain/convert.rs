//! The two converters.

use super::token::{Stack, Token, RECORD_MAX};
use super::{is_virtual, sid_length, u32_at, ALL_RESTRICTED};

/// Packed record to flat listing.
pub fn list(record: &[u8], out: &mut [u8]) -> Result<usize, u32> {
    let mut token = Token::new();
    token.read(record).ok_or(3u32)?;
    if !token.keeps_the_rules() {
        return Err(4);
    }
    lend(token.listing.items(), out)
}

fn lend(result: &[u8], out: &mut [u8]) -> Result<usize, u32> {
    out.get_mut(..result.len()).ok_or(11u32)?.copy_from_slice(result);
    Ok(result.len())
}

/// Reads a listing and writes the record beside it.
struct Packer<'a> {
    rest: &'a [u8],
    record: Stack<u8, RECORD_MAX>,
    breaks_rule: bool,
}

impl<'a> Packer<'a> {
    #[inline]
    fn take<const N: usize>(&mut self) -> Option<[u8; N]> {
        let (front, after) = self.rest.split_first_chunk::<N>()?;
        self.rest = after;
        Some(*front)
    }

    #[inline]
    fn put(&mut self, mut value: u64) {
        while value >= 0x80 {
            self.record.push(value as u8 | 0x80);
            value >>= 7;
        }
        self.record.push(value as u8);
    }

    fn identity(&mut self) -> Option<&'a [u8]> {
        let length = sid_length(self.rest)?;
        let (sid, after) = self.rest.split_at(length);
        self.rest = after;
        self.breaks_rule |= length == 12 && is_virtual(sid);
        let mut authority = [0; 8];
        authority[2..].copy_from_slice(&sid[2..8]);
        self.put(u64::from(sid[1]));
        self.put(u64::from_be_bytes(authority));
        for word in sid[8..].chunks_exact(4) {
            self.put(u64::from(u32_at(word, 0)));
        }
        Some(sid)
    }

    fn count(&mut self, most: u32) -> Option<u32> {
        let count = u32::from_le_bytes(self.take()?);
        self.put(u64::from(count));
        (count <= most).then_some(count)
    }

    /// True if the token keeps the rules.
    fn run(&mut self) -> Option<bool> {
        let flags = u32::from_le_bytes(self.take()?);
        let privileges = u64::from_le_bytes(self.take()?);
        if flags > 3 {
            return None;
        }
        self.put(1);
        self.put(u64::from(flags));
        self.put(privileges);
        self.identity()?;
        for _ in 0..self.count(256)? {
            self.identity()?;
            let attributes = u32::from_le_bytes(self.take()?);
            self.put(u64::from(attributes));
        }
        let mut has_all_restricted = flags & 1 == 0;
        if flags & 1 != 0 {
            self.identity()?;
            for _ in 0..self.count(64)? {
                has_all_restricted |= self.identity()? == ALL_RESTRICTED;
            }
        }
        if !self.rest.is_empty() {
            return None;
        }
        Some(!self.breaks_rule && flags != 2 && has_all_restricted)
    }
}

/// Flat listing to packed record.
pub fn pack(listing: &[u8], out: &mut [u8]) -> Result<usize, u32> {
    let mut packer = Packer { rest: listing, record: Stack::new(), breaks_rule: false };
    if !packer.run().ok_or(3u32)? {
        return Err(4);
    }
    lend(packer.record.items(), out)
}

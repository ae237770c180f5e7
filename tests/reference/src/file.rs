//! The question file: kind, mask and four parts with a length before each, all numbers 32 bits
//! in sevens.

use crate::sevens;

pub struct File<'a> {
    pub kind: u32,
    pub mask: u32,
    pub token: &'a [u8],
    pub self_id: &'a [u8],
    pub descriptor: &'a [u8],
    pub policy: &'a [u8],
}

const LONGEST: usize = 65_536;

fn take_number(rest: &mut &[u8]) -> Option<u32> {
    Some(sevens::take(rest, 32)? as u32)
}

fn take_part<'a>(rest: &mut &'a [u8]) -> Option<&'a [u8]> {
    let length = take_number(rest)? as usize;
    let part = rest.get(..length)?;
    *rest = &rest[length..];
    Some(part)
}

/// Splits a file into the parts of its question. What the parts hold is not looked at.
pub fn read(bytes: &[u8]) -> Option<File<'_>> {
    if bytes.len() > LONGEST {
        return None;
    }
    let rest = &mut &bytes[..];
    let file = File {
        kind: take_number(rest)?,
        mask: take_number(rest)?,
        token: take_part(rest)?,
        self_id: take_part(rest)?,
        descriptor: take_part(rest)?,
        policy: take_part(rest)?,
    };
    if !rest.is_empty() {
        return None;
    }
    Some(file)
}

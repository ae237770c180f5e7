//! The policy: rules of five sections each.

use crate::acl::{self, Acl};
use crate::condition::{self, Condition, Fault};

pub struct Rule<'a> {
    applies_to: AppliesTo<'a>,
    pub effective: Acl<'a>,
    /// Of these, None if the section is empty.
    pub effective_sacl: Option<Acl<'a>>,
    pub staged: Option<Acl<'a>>,
    pub staged_sacl: Option<Acl<'a>>,
}

/// To whom a rule applies.
enum AppliesTo<'a> {
    /// The section is empty.
    Everybody,
    Those(Condition<'a>),
    /// It has another token.
    Unread,
}

impl Rule<'_> {
    /// It has something that this edition does not read.
    pub fn has_unread_parts(&self) -> bool {
        matches!(self.applies_to, AppliesTo::Unread)
            || self.effective.has_unread_parts
            || self.staged.as_ref().is_some_and(|list| list.has_unread_parts)
    }

    /// Whether it applies. Only for a rule without unread parts.
    pub fn applies(&self, is_member: impl Fn(&[u8]) -> bool) -> bool {
        match &self.applies_to {
            AppliesTo::Everybody => true,
            AppliesTo::Those(condition) => condition.holds(is_member),
            AppliesTo::Unread => unreachable!("a policy with unread parts is refused"),
        }
    }
}

const LONGEST: usize = 262_144;
const LONGEST_APPLIES_TO: usize = 65_536;
const MOST_RULES: u32 = 256;

fn take<'a>(rest: &mut &'a [u8], length: usize) -> Option<&'a [u8]> {
    let front = rest.get(..length)?;
    *rest = &rest[length..];
    Some(front)
}

fn take_u32(rest: &mut &[u8]) -> Option<u32> {
    Some(u32::from_le_bytes(take(rest, 4)?.try_into().ok()?))
}

/// A u32 length, then that many bytes.
fn take_section<'a>(rest: &mut &'a [u8]) -> Option<&'a [u8]> {
    let length = usize::try_from(take_u32(rest)?).ok()?;
    take(rest, length)
}

/// Reads the list at the front of some bytes.
type Reader = for<'a> fn(&'a [u8]) -> Option<Acl<'a>>;

/// A list that fills its section.
fn whole(section: &[u8], read: Reader) -> Option<Acl<'_>> {
    read(section).filter(|list| list.size == section.len())
}

/// A section that may be empty, which is then no list: `Some(None)`.
fn whole_or_none(section: &[u8], read: Reader) -> Option<Option<Acl<'_>>> {
    if section.is_empty() {
        Some(None)
    } else {
        Some(Some(whole(section, read)?))
    }
}

/// The first section of a rule. None if it is too long, or broken.
fn read_applies_to(section: &[u8]) -> Option<AppliesTo<'_>> {
    if section.len() > LONGEST_APPLIES_TO {
        return None;
    }
    if section.is_empty() {
        return Some(AppliesTo::Everybody);
    }
    match condition::read(section) {
        Ok(condition) => Some(AppliesTo::Those(condition)),
        Err(Fault::Broken) => None,
        Err(Fault::OtherToken) => Some(AppliesTo::Unread),
    }
}

/// Reads a whole policy. No bytes are a policy without rules. None if it is misshapen.
pub fn read(bytes: &[u8]) -> Option<Vec<Rule<'_>>> {
    let mut rules = Vec::new();
    if bytes.is_empty() {
        return Some(rules);
    }
    if bytes.len() > LONGEST {
        return None;
    }
    let rest = &mut &bytes[..];
    if take(rest, 1)? != [1] {
        return None;
    }
    let count = take_u32(rest)?;
    if count > MOST_RULES {
        return None;
    }
    for _ in 0..count {
        let applies_to = read_applies_to(take_section(rest)?)?;
        let effective = whole(take_section(rest)?, acl::dacl_at_front)?;
        let effective_sacl = whole_or_none(take_section(rest)?, acl::sacl_at_front)?;
        let staged = whole_or_none(take_section(rest)?, acl::dacl_at_front)?;
        let staged_sacl = whole_or_none(take_section(rest)?, acl::sacl_at_front)?;
        rules.push(Rule { applies_to, effective, effective_sacl, staged, staged_sacl });
    }
    if !rest.is_empty() {
        return None;
    }
    Some(rules)
}

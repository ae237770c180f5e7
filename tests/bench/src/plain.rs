//! The access check in plain Rust, written for speed: what the library's times are measured
//! against. The same rules from the same bytes, refusals included.
//!
//! The token is decoded once, into a buffer on the stack. Each list is walked once: its shape is
//! judged and its entries are taken in the same walk. An entry is matched only if it has a bit
//! that is asked and not decided, and its condition evaluated only if it matches. A SACL is walked
//! once more where it has an audit entry that may raise an event, and the trail is measured before
//! it is written only where the buffer might be too short. Nothing is allocated.

mod audit;
mod condition;
mod convert;
mod token;
mod walk;

pub use convert::{list, pack};

use audit::{differ, events, sacl, Speaking, Trail};
use condition::Fault;
use token::{Stack, Token, MOST_CONFINED, MOST_NORMAL};
use walk::{dacl, evaluated, Party, Setting};

#[derive(Clone, Copy, Debug, PartialEq, Eq)]
pub struct Answer {
    pub granted: u32,
    pub allowed: bool,
    pub staged: bool,
}

/// An answer with the bits asked and what each step leaves of them.
#[derive(Clone, Copy, Debug, PartialEq, Eq)]
pub struct Why {
    pub asked: u32,
    pub normal: u32,
    pub confined: u32,
    pub ruled: u32,
    pub granted: u32,
    pub allowed: bool,
    pub staged: bool,
}

impl From<pirasteh_reference::Answer> for Why {
    fn from(answer: pirasteh_reference::Answer) -> Why {
        Why {
            asked: answer.asked,
            normal: answer.normal,
            confined: answer.confined,
            ruled: answer.ruled,
            granted: answer.granted,
            allowed: answer.allowed,
            staged: answer.staged,
        }
    }
}

const OWNER_RIGHTS: [u8; 12] = [1, 1, 0, 0, 0, 0, 0, 3, 4, 0, 0, 0];
const PRINCIPAL_SELF: [u8; 12] = [1, 1, 0, 0, 0, 0, 0, 5, 10, 0, 0, 0];
const ALL_RESTRICTED: [u8; 16] = [1, 2, 0, 0, 0, 0, 0, 15, 2, 0, 0, 0, 2, 0, 0, 0];

/// read, write, execute, all
const RIGHTS: [[u32; 4]; 2] =
    [[0x12_0089, 0x12_0116, 0x12_00A0, 0x1F_01FF], [0x2_0019, 0x2_0006, 0x2_0019, 0xF_003F]];
const MAXIMUM: u32 = 0x0200_0000;
const SYSTEM_SECURITY: u32 = 0x0100_0000;

#[inline]
fn map(rights: &[u32; 4], mask: u32) -> u32 {
    let mut out = mask & 0x0FFF_FFFF;
    if mask & 0xF000_0000 != 0 {
        for (i, meaning) in rights.iter().enumerate() {
            if mask & (0x8000_0000 >> i) != 0 {
                out |= meaning;
            }
        }
    }
    out
}

#[inline]
fn u16_at(bytes: &[u8], at: usize) -> usize {
    usize::from(u16::from_le_bytes([bytes[at], bytes[at + 1]]))
}

#[inline]
fn u32_at(bytes: &[u8], at: usize) -> u32 {
    u32::from_le_bytes([bytes[at], bytes[at + 1], bytes[at + 2], bytes[at + 3]])
}

/// The length of the SID at the front, if there is one.
#[inline]
fn sid_length(bytes: &[u8]) -> Option<usize> {
    if bytes.len() < 8 || bytes[0] != 1 || bytes[1] > 15 {
        return None;
    }
    let length = 8 + 4 * usize::from(bytes[1]);
    (length <= bytes.len()).then_some(length)
}

#[inline]
fn is_virtual(sid: &[u8]) -> bool {
    sid == OWNER_RIGHTS || sid == PRINCIPAL_SELF
}

pub fn check(
    kind: u32,
    mask: u32,
    token: &[u8],
    self_id: &[u8],
    descriptor: &[u8],
    policy: &[u8],
) -> Result<Answer, u32> {
    let Why { granted, allowed, staged, .. } =
        answered(kind, mask, token, self_id, descriptor, policy, None)?;
    Ok(Answer { granted, allowed, staged })
}

/// The same with all masks.
pub fn why(
    kind: u32,
    mask: u32,
    token: &[u8],
    self_id: &[u8],
    descriptor: &[u8],
    policy: &[u8],
) -> Result<Why, u32> {
    answered(kind, mask, token, self_id, descriptor, policy, None)
}

/// An answer without its way there, and the length of its trail.
pub fn trail(
    kind: u32,
    mask: u32,
    token: &[u8],
    self_id: &[u8],
    descriptor: &[u8],
    policy: &[u8],
    out: &mut [u8],
) -> Result<(Answer, usize), u32> {
    let mut trail = Trail { out, length: 0 };
    let Why { granted, allowed, staged, .. } =
        answered(kind, mask, token, self_id, descriptor, policy, Some(&mut trail))?;
    Ok((Answer { granted, allowed, staged }, trail.length))
}

/// Inlined into all, so that none pays for what it does not tell.
#[inline(always)]
fn answered(
    kind: u32,
    mask: u32,
    token: &[u8],
    self_id: &[u8],
    descriptor: &[u8],
    policy: &[u8],
    trail: Option<&mut Trail>,
) -> Result<Why, u32> {
    if kind != 1 && kind != 2 {
        return Err(1);
    }
    let rights = &RIGHTS[kind as usize - 1];
    let all = rights[3];
    if mask & !(0xF000_0000 | SYSTEM_SECURITY | MAXIMUM | all) != 0 {
        return Err(2);
    }
    let mut decoded = Token::new();
    decoded.read(token).ok_or(3u32)?;
    if !decoded.keeps_the_rules() {
        return Err(4);
    }
    if !self_id.is_empty() && sid_length(self_id) != Some(self_id.len()) {
        return Err(5);
    }

    let explicit = map(rights, mask) & !MAXIMUM;
    let asked = if mask & MAXIMUM != 0 { explicit | all } else { explicit };

    let d = descriptor;
    if d.len() < 20 || d.len() > 65_535 || d[0] != 1 || d[3] & 0x80 == 0 {
        return Err(6);
    }
    let part = |at: u32| {
        if at < 20 {
            return None;
        }
        d.get(at as usize..)
    };
    let owner_at = u32_at(d, 4);
    let group_at = u32_at(d, 8);
    let owner = if owner_at == 0 {
        None
    } else {
        let from = part(owner_at).ok_or(6u32)?;
        Some(&from[..sid_length(from).ok_or(6u32)?])
    };
    if group_at != 0 {
        part(group_at).and_then(sid_length).ok_or(6u32)?;
    }
    // The list's shape is judged before the missing owner is told, so without one there is an
    // empty owner, which matches nothing.
    let owner_sid = owner.unwrap_or(&[]);
    let mut for_allow = Stack::<&[u8], MOST_NORMAL>::new();
    let mut for_deny = Stack::<&[u8], MOST_NORMAL>::new();
    for (sid, allow, deny) in decoded.normal() {
        if allow {
            for_allow.push(sid);
        }
        if deny {
            for_deny.push(sid);
        }
    }
    let mut confined = Stack::<&[u8], MOST_CONFINED>::new();
    decoded.confined().for_each(|(sid, ..)| confined.push(sid));
    let confined = confined.items();
    let normal = Party::new(for_allow.items(), for_deny.items(), owner_sid, self_id);
    let owner_rights = if normal.owner[0] { 0x6_0000 } else { 0 };
    let mut privileges = 0;
    if decoded.privileges & 0x100 != 0 {
        privileges |= SYSTEM_SECURITY;
    }
    if decoded.privileges & 0x200 != 0 {
        privileges |= 0x8_0000;
    }
    let confined = (decoded.flags == 1).then(|| Party::new(confined, confined, owner_sid, self_id));
    let audited = explicit & all;
    let setting = Setting { rights, asked, audited, normal, confined, owner_rights, privileges };

    let mut heard = (0, &[][..]);
    if d[2] & 0x10 != 0 {
        let list = part(u32_at(d, 12)).ok_or(6u32)?;
        heard = (sacl(&setting, list).ok_or(6u32)?.flags, list);
    }
    let (normal, left) = if d[2] & 0x04 != 0 {
        let (_, walked) =
            part(u32_at(d, 16)).and_then(|list| dacl(&setting, asked, true, list)).ok_or(6u32)?;
        if owner.is_none() {
            return Err(7);
        }
        if walked.unread {
            return Err(8);
        }
        let left = if setting.confined.is_some() { walked.confined } else { u32::MAX };
        (evaluated(&setting, &walked) & asked, left)
    } else {
        if owner.is_none() {
            return Err(7);
        }
        let left = if setting.confined.is_some() { all } else { u32::MAX };
        ((all | setting.privileges) & asked, left)
    };

    let confined = normal & left;
    let mut granted = confined;
    let (mut staged, speaking) = rules(&setting, policy, &mut granted)?;
    let allowed = explicit & !granted == 0 && (mask & MAXIMUM == 0 || granted != 0);

    let flag = if allowed { 0x40 } else { 0x80 };
    speaking.each(policy, |_, effective, proposed| {
        staged = staged || differ(&setting, flag, effective, proposed);
    });
    if let Some(trail) = trail {
        let list = if heard.0 & flag != 0 { heard.1 } else { &[] };
        let bound = 9 * (descriptor.len() + policy.len()) / 16;
        let told = trail.write(bound, |event| {
            events(&setting, flag, list).for_each(|(entry, mask)| event(0, entry, mask));
            speaking.each(policy, |rule, effective, _| {
                let all = events(&setting, flag, effective);
                all.for_each(|(entry, mask)| event(rule, entry, mask));
            });
        });
        told.ok_or(11u32)?;
    }
    Ok(Why { asked, normal, confined, ruled: granted, granted, allowed, staged })
}

/// Judges an applies_to. Gives whether its rule applies.
fn applies(setting: &Setting, section: &[u8]) -> Result<bool, Fault> {
    if section.is_empty() {
        return Ok(true);
    }
    if section.len() > 65_536 {
        return Err(Fault::Broken);
    }
    condition::judge(section)?;
    Ok(condition::holds(section, &setting.normal))
}

/// Judges a policy and narrows what is granted by its rules. Gives the staging flag, as far as it
/// is raised by results, and the rules that have audit entries.
fn rules(setting: &Setting, policy: &[u8], granted: &mut u32) -> Result<(bool, Speaking), u32> {
    let mut speaking = Speaking::default();
    if policy.is_empty() {
        return Ok((false, speaking));
    }
    if policy.len() < 5 || policy.len() > 262_144 || policy[0] != 1 {
        return Err(9);
    }
    let count = u32_at(policy, 1);
    if count > 256 {
        return Err(9);
    }
    let mut unread = false;
    let mut staged = false;
    let mut rest = &policy[5..];
    for number in 0..count {
        let mut section = || {
            if rest.len() < 4 {
                return Err(9u32);
            }
            let length = u32_at(rest, 0) as usize;
            if length > rest.len() - 4 {
                return Err(9);
            }
            let (front, after) = rest[4..].split_at(length);
            rest = after;
            Ok(front)
        };
        let audit = |bytes: &[u8]| {
            if bytes.is_empty() {
                return Ok(0);
            }
            let heard = sacl(setting, bytes).filter(|heard| heard.size == bytes.len());
            heard.map(|heard| heard.flags & 0xC0).ok_or(9u32)
        };
        let applies = match applies(setting, section()?) {
            Ok(applies) => applies,
            Err(Fault::Broken) => return Err(9),
            Err(Fault::OtherToken) => {
                unread = true;
                false
            }
        };
        // Of a rule that does not apply the lists are judged, and nothing more.
        let asked = if applies { setting.asked } else { 0 };
        let list = |bytes: &[u8]| {
            dacl(setting, asked, false, bytes).filter(|(size, _)| *size == bytes.len()).ok_or(9u32)
        };
        let (_, effective) = list(section()?)?;
        unread |= effective.unread;
        let told = audit(section()?)?;
        let effective = evaluated(setting, &effective);
        if applies {
            *granted &= effective;
        }
        let proposal = section()?;
        if !proposal.is_empty() {
            let (_, proposed) = list(proposal)?;
            unread |= proposed.unread;
            staged |= applies && (evaluated(setting, &proposed) ^ effective) & setting.asked != 0;
        }
        if told | audit(section()?)? != 0 && applies {
            speaking.add(number);
        }
    }
    if !rest.is_empty() {
        return Err(9);
    }
    if unread {
        return Err(10);
    }
    Ok((staged, speaking))
}

#[cfg(test)]
mod tests {
    use super::token::{LISTING_MAX, RECORD_MAX};
    use super::*;

    /// With enough room, just enough, and a byte too little.
    fn trails_agree(q: &Question, name: &str) {
        let Question { kind, mask, token, self_id, descriptor, policy } = q;
        let expected =
            reference::check_and_events(*kind, *mask, token, self_id, descriptor, policy);
        let needed = expected.as_ref().map_or(0, |(_, events)| reference::trail(events).len());
        let bound = 9 * (descriptor.len() + policy.len()) / 16;
        for room in [bound, needed, needed.saturating_sub(1)] {
            let (mut out, mut lent) = (vec![0x5A; room], vec![0x5A; room]);
            let said = trail(*kind, *mask, token, self_id, descriptor, policy, &mut out);
            let said = said.map(|(a, n)| (a.granted, a.allowed, a.staged, n));
            let expected = reference::lend_trail(expected.clone(), &mut lent);
            let expected = expected.map(|(a, n)| (a.granted, a.allowed, a.staged, n));
            assert_eq!((said, out), (expected, lent), "{name}, a room of {room}");
        }
    }
    use pirasteh_cases::make::Question;
    use pirasteh_cases::random::{case, Case};
    use pirasteh_reference as reference;

    #[test]
    fn agrees_with_the_reference() {
        for number in 0..200_000 {
            match case(7, number) {
                Case::Check(q) => {
                    let Question { kind, mask, token, self_id, descriptor, policy } = &q;
                    let expected =
                        reference::check(*kind, *mask, token, self_id, descriptor, policy);
                    let said = check(*kind, *mask, token, self_id, descriptor, policy);
                    let said = said.map(|a| (a.granted, a.allowed, a.staged));
                    let short = expected.map(|a| (a.granted, a.allowed, a.staged));
                    assert_eq!(said, short, "case {number} of seed 7");
                    let said = why(*kind, *mask, token, self_id, descriptor, policy);
                    assert_eq!(said, expected.map(Why::from), "case {number} of seed 7, masks");
                    trails_agree(&q, &format!("case {number} of seed 7"));
                }
                Case::File(_) => {}
                Case::List(record, _) => {
                    let mut out = vec![0; LISTING_MAX];
                    let said = list(&record, &mut out).map(|n| out[..n].to_vec());
                    assert_eq!(said, reference::list(&record), "case {number} of seed 7");
                }
                Case::Pack(listing, _) => {
                    let mut out = vec![0; RECORD_MAX];
                    let said = pack(&listing, &mut out).map(|n| out[..n].to_vec());
                    assert_eq!(said, reference::pack(&listing), "case {number} of seed 7");
                }
            }
        }
    }
}

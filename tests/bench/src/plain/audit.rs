//! Audit entries: judged in one walk over their list, which also tells whether a second one has to
//! be made, and told in that, once it is known whether the question is allowed.

use super::walk::{acl_header, entry_size, Setting};
use super::{map, u16_at, u32_at};

/// What a walk over a SACL found.
pub struct Heard {
    pub size: usize,
    /// The flags of all audit entries that are not inherit-only and cover an explicit bit.
    pub flags: u8,
}

/// Judges a SACL's shape.
pub fn sacl(setting: &Setting, bytes: &[u8]) -> Option<Heard> {
    let (size, count) = acl_header(bytes)?;
    let list = &bytes[..size];
    let mut flags = 0;
    let mut at = 8;
    for _ in 0..count {
        let size = entry_size(list, at)?;
        let entry = &list[at..at + size];
        at += size;
        if entry[0] != 2 {
            continue;
        }
        if size < 16 || entry[8] != 1 || entry[9] > 15 || size < 16 + 4 * usize::from(entry[9]) {
            return None;
        }
        if entry[1] & 0x08 == 0 && map(setting.rights, u32_at(entry, 4)) & setting.audited != 0 {
            flags |= entry[1];
        }
    }
    Some(Heard { size, flags })
}

/// The events of a SACL that was judged, as entry numbers and masks: those of the entries with this
/// flag. No bytes are no list.
pub fn events<'a>(
    setting: &'a Setting,
    flag: u8,
    list: &'a [u8],
) -> impl Iterator<Item = (u32, u32)> + 'a {
    let count = if list.is_empty() { 0 } else { u16_at(list, 4) as u32 };
    let mut at = 8;
    (0..count).filter_map(move |number| {
        let entry = &list[at..];
        at += u16_at(entry, 2);
        if entry[0] != 2 || entry[1] & (0x08 | flag) != flag {
            return None;
        }
        let mask = u32_at(entry, 4);
        if map(setting.rights, mask) & setting.audited == 0 {
            return None;
        }
        let sid = &entry[8..16 + 4 * usize::from(entry[9])];
        setting.normal.matches(sid, true).then_some((number, mask))
    })
}

/// Which rules have something to be told or compared, one bit each.
#[derive(Default)]
pub struct Speaking([u64; 4]);

impl Speaking {
    #[inline]
    pub fn add(&mut self, rule: u32) {
        self.0[rule as usize / 64] |= 1 << (rule % 64);
    }

    #[inline]
    fn has(&self, rule: u32) -> bool {
        self.0[rule as usize / 64] >> (rule % 64) & 1 != 0
    }

    #[inline]
    fn is_empty(&self) -> bool {
        self.0 == [0; 4]
    }

    /// Goes through the rules that are among these, by their numbers from 1, with their effective
    /// and staged SACLs. The policy was judged.
    #[inline]
    pub fn each(&self, policy: &[u8], mut rule: impl FnMut(u32, &[u8], &[u8])) {
        if self.is_empty() {
            return;
        }
        let mut rest = &policy[5..];
        for number in 0..u32_at(policy, 1) {
            let [_, _, effective, _, staged] = [(); 5].map(|()| {
                let (section, behind) = rest[4..].split_at(u32_at(rest, 0) as usize);
                rest = behind;
                section
            });
            if self.has(number) {
                rule(number + 1, effective, staged);
            }
        }
    }
}

/// Whether a staged SACL would tell other masks than the effective one.
pub fn differ(setting: &Setting, flag: u8, effective: &[u8], staged: &[u8]) -> bool {
    let masks = |list| events(setting, flag, list).map(|(_, mask)| mask);
    !staged.is_empty() && !masks(effective).eq(masks(staged))
}

/// How many bytes a number takes in sevens.
#[inline]
fn length(number: u32) -> usize {
    (31 - (number | 1).leading_zeros()) as usize / 7 + 1
}

/// A trail, told event by event: first its length, where the buffer might be too short, and then
/// its bytes.
pub struct Trail<'a> {
    pub out: &'a mut [u8],
    pub length: usize,
}

impl Trail<'_> {
    /// Tells what `tell` says. None, and nothing written, if it does not fit. No trail is longer
    /// than `bound`.
    #[inline]
    pub fn write(
        &mut self,
        bound: usize,
        tell: impl Fn(&mut dyn FnMut(u32, u32, u32)),
    ) -> Option<()> {
        if self.out.len() < bound {
            let mut needed = 0;
            tell(&mut |source, entry, mask| {
                needed += length(source) + length(entry) + length(mask);
            });
            if needed > self.out.len() {
                return None;
            }
        }
        tell(&mut |source, entry, mask| {
            self.put(source);
            self.put(entry);
            self.put(mask);
        });
        Some(())
    }

    #[inline]
    fn put(&mut self, mut number: u32) {
        while number >= 0x80 {
            self.out[self.length] = number as u8 | 0x80;
            self.length += 1;
            number >>= 7;
        }
        self.out[self.length] = number as u8;
        self.length += 1;
    }
}

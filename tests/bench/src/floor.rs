//! The floor of a row: one scan over the bytes of a question, in which nothing is judged and
//! nothing compared. What the bytes are is taken on trust.

/// The record's bytes once, and all lists.
pub fn scan(token: &[u8], descriptor: &[u8], policy: &[u8]) -> u64 {
    let at = |field: usize| u32_at(descriptor, field) as usize;
    let sacl = if descriptor[2] & 0x10 != 0 { list(&descriptor[at(12)..]) } else { 0 };
    bytes(token) + sacl + list(&descriptor[at(16)..]) + sections(policy)
}

/// Added up in one byte, which many at a time can be.
fn bytes(all: &[u8]) -> u64 {
    all.iter().fold(0u8, |sum, &byte| sum.wrapping_add(byte)).into()
}

/// From entry to entry by their sizes; the last words added up.
fn list(all: &[u8]) -> u64 {
    let mut sum = 0;
    let mut rest = &all[8..];
    for _ in 0..u16_at(all, 4) {
        let (entry, after) = rest.split_at(u16_at(rest, 2));
        sum += u64::from(u32_at(entry, entry.len() - 4));
        rest = after;
    }
    sum
}

/// A policy's sections: the first of a rule's five is no list.
fn sections(policy: &[u8]) -> u64 {
    let mut sum = 0;
    let mut rest = policy.get(5..).unwrap_or(&[]);
    for place in (0..5).cycle() {
        if rest.is_empty() {
            break;
        }
        let (section, after) = rest[4..].split_at(u32_at(rest, 0) as usize);
        sum += match (place, section) {
            (_, []) => 0,
            (0, section) => bytes(section),
            (_, section) => list(section),
        };
        rest = after;
    }
    sum
}

fn u16_at(bytes: &[u8], at: usize) -> usize {
    usize::from(u16::from_le_bytes([bytes[at], bytes[at + 1]]))
}

fn u32_at(bytes: &[u8], at: usize) -> u32 {
    u32::from_le_bytes([bytes[at], bytes[at + 1], bytes[at + 2], bytes[at + 3]])
}

#[cfg(test)]
mod tests {
    use super::scan;
    use pirasteh_cases::make::{acl, allow, policy, sid, Descriptor, Rule};

    #[test]
    fn sees_every_list_and_every_entry() {
        let one = acl(&[allow(0, &sid(5, &[9, 1])), allow(0, &sid(5, &[9, 2]))]);
        let other = acl(&[allow(0, &sid(5, &[40])), allow(0, &sid(5, &[9, 9, 50]))]);
        let descriptor = Descriptor::owned_by(&sid(5, &[18])).dacl(&one).bytes();
        let rules = policy(&[Rule::of(&other), Rule::of(&one).staged(&other)]);
        assert_eq!(scan(&[], &descriptor, &[]), 3);
        let audited = Descriptor::owned_by(&sid(5, &[18])).sacl(&other).dacl(&one).bytes();
        assert_eq!(scan(&[], &audited, &[]), 90 + 3);
        assert_eq!(scan(&[100, 101], &descriptor, &rules), 201 + 3 + 90 + 3 + 90);
    }
}

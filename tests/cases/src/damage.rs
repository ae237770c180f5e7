//! Spoils cases: at every limit of a format, in single bytes, and by noise.

use crate::conditions;
use crate::expressions;
use crate::make::{self, Question, Token};
use crate::people::{self, People};
use crate::random::{self, Draft, Laid, LaidRule, Place};
use crate::rng::Rng;

/// Spoils `times` parts of a question; the same part may be hit twice.
pub fn parts(rng: &mut Rng, mut draft: Draft, times: usize) -> Question {
    let mut token = None;
    let mut policy = None;
    for _ in 0..times {
        match rng.below(14) {
            0 => draft.kind = rng.of(&[0, 3, 255, 257, 0x0100_0001, u32::MAX]),
            1 => draft.mask = strange_mask(rng, draft.mask),
            2..=4 => token = Some(record(rng, draft.token.clone())),
            5 => self_identity(rng, &mut draft.self_id),
            6..=10 => descriptor(rng, &mut draft.descriptor),
            _ => policy = Some(spoiled_policy(rng, draft.policy.take().unwrap_or_default())),
        }
    }
    let mut question = draft.join();
    if let Some(token) = token {
        question.token = token;
    }
    if let Some(policy) = policy {
        question.policy = policy;
    }
    question
}

/// A mask with a bit that some kind refuses.
fn strange_mask(rng: &mut Rng, mask: u32) -> u32 {
    mask | match rng.below(3) {
        0 => 1 << rng.below(32),
        1 => rng.of(&[
            0x10_0000,
            0x40,
            0x80,
            0x100,
            0x200,
            0x8000,
            0x20_0000,
            0x0400_0000,
            0x0800_0000,
        ]),
        _ => rng.u32(),
    }
}

/// Breaks one of the token's rules, or only seems to.
pub fn break_rule(rng: &mut Rng, token: &mut Token) {
    let someone = if rng.one_in(2) { people::owner_rights() } else { people::principal_self() };
    match rng.below(8) {
        0 => token.user = someone,
        1 | 2 => {
            let place = rng.below(token.groups.len() + 1);
            token.groups.insert(place, (someone, rng.of(&[0, 4, 7, 16])));
        }
        3 => token.flags ^= 2,
        _ => {
            let user = token.user.clone();
            let (identity, capabilities) =
                token.confinement.get_or_insert_with(|| (user, vec![people::all_restricted()]));
            token.flags |= 1;
            let place = rng.below(capabilities.len() + 1);
            match rng.below(4) {
                0 => *identity = someone,
                1 => capabilities.insert(place, someone),
                2 => {
                    // Here it does not count.
                    *identity = people::all_restricted();
                    capabilities.retain(|c| *c != people::all_restricted());
                }
                _ => capabilities.retain(|c| *c != people::all_restricted()),
            }
        }
    }
}

/// A packed record that is wrong in one way.
pub fn record(rng: &mut Rng, mut token: Token) -> Vec<u8> {
    match rng.below(12) {
        0..=2 => {
            break_rule(rng, &mut token);
            return token.record();
        }
        3 => {
            // Misshapen and against a rule: the shape is judged first.
            break_rule(rng, &mut token);
            let mut bytes = token.record();
            bytes.push(rng.of(&[0, 0x80, 1]));
            return bytes;
        }
        4 => {
            let mut bytes = token.record();
            bytes.truncate(rng.below(bytes.len()));
            return bytes;
        }
        5 => {
            let mut bytes = token.record();
            let more = 1 + rng.below(3);
            bytes.extend(rng.bytes(more));
            return bytes;
        }
        6 => counts(rng, &mut token),
        _ => {}
    }
    let mut numbers: Vec<Vec<u8>> = token.numbers().into_iter().map(make::sevens).collect();
    // The first fields are few and the identities many, so they are favoured.
    let place = if rng.one_in(2) { rng.below(5) } else { rng.below(numbers.len()) };
    strange_number(rng, &mut numbers[place]);
    numbers.concat()
}

/// As many groups or capabilities as may be, and one more.
fn counts(rng: &mut Rng, token: &mut Token) {
    let tiny = make::sid(0, &[]);
    if rng.one_in(2) {
        token.groups.resize(rng.of(&[255, 256, 257]), (tiny, 4));
    } else if let Some((_, capabilities)) = &mut token.confinement {
        capabilities.resize(rng.of(&[63, 64, 65]), tiny);
    }
}

/// A number in another form, of another width, or another number.
fn strange_number(rng: &mut Rng, number: &mut Vec<u8>) {
    let last = number.len() - 1;
    match rng.below(8) {
        // One group too many.
        0 | 1 => {
            number[last] |= 0x80;
            number.push(0);
        }
        2 => {
            number[last] |= 0x80;
            number.extend([0x80, 0]);
        }
        // At the widths of 32, 48 and 64 bits, from both sides.
        3 => *number = make::sevens(rng.of(&[0xFFFF_FFFF, 1 << 32, (1 << 32) + 1, 1 << 35])),
        4 => *number = make::sevens(rng.of(&[0xFFFF_FFFF_FFFF, 1 << 48, (1 << 48) + 5, 1 << 49])),
        5 => {
            *number = make::sevens(u64::MAX);
            let tenth = rng.of(&[1, 2, 3, 0x7F, 0x81]);
            number[9] = tenth;
            if tenth & 0x80 != 0 {
                number.push(rng.of(&[0, 1]));
            }
        }
        6 => {
            *number = make::sevens(rng.of(&[0, 1, 2, 3, 4, 15, 16, 17, 64, 65, 127, 128, 256, 257]))
        }
        // It does not end.
        _ => number[last] |= 0x80,
    }
}

/// A flat listing that is wrong in one way.
pub fn listing(rng: &mut Rng, mut token: Token) -> Vec<u8> {
    match rng.below(10) {
        0..=2 => {
            break_rule(rng, &mut token);
            token.listing()
        }
        3 => {
            break_rule(rng, &mut token);
            let mut bytes = token.listing();
            bytes.push(0);
            bytes
        }
        4 => {
            let mut bytes = token.listing();
            bytes.truncate(rng.below(bytes.len()));
            bytes
        }
        5 => {
            let mut bytes = token.listing();
            let more = 1 + rng.below(5);
            bytes.extend(rng.bytes(more));
            bytes
        }
        6 => {
            counts(rng, &mut token);
            token.listing()
        }
        7 => {
            token.flags = rng.of(&[2, 3, 4, 5, 0x100, 0x0100_0000, u32::MAX]);
            token.listing()
        }
        _ => {
            // All fields are whole words, so this hits counts, revisions and authorities.
            let mut bytes = token.listing();
            let word = 4 * rng.below(bytes.len() / 4);
            let byte = word + rng.below(4);
            bytes[byte] = rng.of(&[0, 1, 2, 15, 16, 17, 64, 65, 0xFF]);
            bytes
        }
    }
}

/// The other form of a token, which is hardly ever a record.
pub fn listing_as_record(token: Token) -> Vec<u8> {
    token.listing()
}

fn self_identity(rng: &mut Rng, self_id: &mut Vec<u8>) {
    if self_id.len() < 8 {
        *self_id = make::sid(5, &[7]);
    }
    match rng.below(5) {
        0 => {
            let length = 1 + rng.below(self_id.len() - 1);
            self_id.truncate(length);
        }
        1 => self_id.push(0),
        2 => self_id.extend(make::sid(5, &[7])),
        3 => self_id[0] = rng.of(&[0, 2, 0xFF]),
        _ => self_id[1] = rng.of(&[0, 1, 2, 14, 15, 16, 17, 0xFF]),
    }
}

const OFFSETS: [usize; 4] = [4, 8, 12, 16];

/// A descriptor that is wrong in one way, or just within a limit.
fn descriptor(rng: &mut Rng, laid: &mut Laid) {
    if laid.bytes.len() < 20 {
        return;
    }
    let length = laid.bytes.len() as u32;
    match rng.below(17) {
        16 => part_in_header(rng, laid),
        0 => laid.bytes[0] = rng.of(&[0, 2, 3, 0xFF]),
        1 => laid.bytes[3] &= 0x7F,
        2 => {
            let anywhere = rng.below(laid.bytes.len());
            let to = rng.of(&[0, 1, 19, 20, 21, laid.bytes.len() - 1, anywhere]);
            laid.bytes.truncate(to);
            laid.lists.clear();
            laid.sids.clear();
        }
        3 | 4 => {
            let field = rng.of(&OFFSETS);
            let near = length.wrapping_sub(rng.below(24) as u32);
            let value = rng.of(&[
                0,
                1,
                4,
                19,
                20,
                21,
                near,
                length - 1,
                length,
                length + 1,
                0xFFFF,
                0x1_0000,
                0x1_0014,
                0x7FFF_FFFF,
                0x8000_0000,
                u32::MAX - 7,
                u32::MAX,
            ]);
            laid.put_u32(field, value);
            // Where the field was not followed before, it may be now.
            if rng.one_in(2) {
                laid.bytes[2] |= 0x14;
            }
        }
        5..=8 => a_list(rng, laid),
        9 => a_sid(rng, laid),
        10 | 11 => laid.put_u32(4, 0),
        12 => laid.bytes[2] ^= rng.of(&[0x04, 0x10, 0x14]),
        13 | 14 => another_type(rng, laid),
        _ if rng.one_in(20) => {
            // Spare bytes up to the longest, and one more.
            let to = rng.of(&[65_534, 65_535, 65_536, 70_000]);
            laid.bytes.resize(to, 0);
        }
        _ => {
            laid.put_u32(4, 0);
            another_type(rng, laid);
        }
    }
}

/// A whole part where the header is, so that only its offset is wrong: it is below 20.
fn part_in_header(rng: &mut Rng, laid: &mut Laid) {
    laid.bytes.resize(laid.bytes.len().max(40), 0);
    // No DACL and no SACL, so that their offsets may hold anything.
    laid.bytes[2] &= !0x14;
    let (at, field, part, bit): (usize, usize, &[u8], u8) = match rng.below(5) {
        0 => (12, 4, &[1, 0, 0, 0, 0, 0, 0, 5], 0),
        1 => (19, 4, &[1, 1, 0, 0, 0, 0, 0, 5, 7, 0, 0, 0], 0),
        2 => (19, 8, &[1, 0, 0, 0, 0, 0, 0, 5], 0),
        3 => (16, 12, &[2, 0, 8, 0, 0, 0, 0, 0], 0x10),
        // The list's size is the offset itself.
        _ => (14, 16, &[2, 0, 14, 0, 0, 0], 0x04),
    };
    laid.bytes[at..at + part.len()].copy_from_slice(part);
    laid.put_u32(field, at as u32);
    laid.bytes[2] |= bit;
    laid.lists.clear();
    laid.sids.clear();
}

/// Spoils a list's header or one of its entries.
fn a_list(rng: &mut Rng, laid: &mut Laid) {
    if laid.lists.is_empty() {
        return;
    }
    let Place { at, entries, .. } = rng.pick(&laid.lists).clone();
    let left = (laid.bytes.len() - at) as u16;
    let size = laid.u16_at(at + 2);
    let count = laid.u16_at(at + 4);
    let which = if entries.is_empty() { rng.below(4) } else { rng.below(18) };
    match which {
        0 => laid.bytes[at] = rng.of(&[0, 1, 2, 3, 4, 5, 0xFF]),
        1 | 2 => {
            let value = rng.of(&[
                0,
                7,
                8,
                9,
                12,
                size.wrapping_sub(4),
                size.wrapping_sub(1),
                size.wrapping_add(1),
                size.wrapping_add(4),
                left.wrapping_sub(1),
                left,
                left.wrapping_add(1),
                0xFFFF,
            ]);
            laid.put_u16(at + 2, value);
        }
        3 => {
            let value =
                rng.of(&[0, 1, count.wrapping_sub(1), count.wrapping_add(1), 0x100, 0xFFFF]);
            laid.put_u16(at + 4, value);
        }
        4..=6 => {
            let entry = rng.of(&entries);
            let own = laid.u16_at(entry + 2);
            let to_end = (at + usize::from(size)).wrapping_sub(entry) as u16;
            let value = rng.of(&[
                0,
                1,
                2,
                3,
                4,
                6,
                8,
                12,
                16,
                own.wrapping_sub(4),
                own.wrapping_add(4),
                own.wrapping_sub(2),
                own.wrapping_add(2),
                own.wrapping_add(1),
                to_end,
                to_end.wrapping_add(4),
                to_end.wrapping_sub(4),
                0xFFFC,
                0xFFFF,
            ]);
            laid.put_u16(entry + 2, value);
        }
        7 => {
            let entry = rng.of(&entries);
            if entry + 9 < laid.bytes.len() {
                laid.bytes[entry + 8] = rng.of(&[0, 2, 0xFF]);
            }
        }
        8 => {
            let entry = rng.of(&entries);
            if entry + 9 < laid.bytes.len() {
                let count = laid.bytes[entry + 9];
                laid.bytes[entry + 9] =
                    rng.of(&[0, 15, 16, 0xFF, count.wrapping_add(1), count.wrapping_sub(1)]);
            }
        }
        9 => {
            // An entry of a header alone: well shaped if its type is not read in its list.
            let entry = rng.of(&entries);
            laid.bytes[entry] = rng.of(&[0, 1, 2, 5]);
            laid.put_u16(entry + 2, 4);
            laid.put_u16(at + 4, 1 + rng.below(usize::from(count)) as u16);
        }
        10..=13 => {
            let entry = rng.of(&entries);
            end_of_sid(rng, laid, at, entry);
        }
        _ => {
            let entry = rng.of(&entries);
            a_condition(rng, laid, entry);
        }
    }
}

/// Spoils a byte or two of an entry's condition, if it has one. Its size stays.
fn a_condition(rng: &mut Rng, laid: &mut Laid, entry: usize) {
    let end = entry + usize::from(laid.u16_at(entry + 2));
    if end > laid.bytes.len() || end < entry + 16 || !matches!(laid.bytes[entry], 9 | 10) {
        return;
    }
    let start = entry + 16 + 4 * usize::from(laid.bytes[entry + 9]);
    if start >= end {
        return;
    }
    let mut condition = conditions::spoiled(rng, laid.bytes[start..end].to_vec());
    condition.resize(end - start, rng.of(&[0, 0, 0, 1]));
    laid.bytes[start..end].copy_from_slice(&condition);
}

/// A SID that ends at the end of its entry, or just behind it, or an entry that ends elsewhere.
fn end_of_sid(rng: &mut Rng, laid: &mut Laid, list: usize, entry: usize) {
    if entry + 16 > laid.bytes.len() {
        return;
    }
    let size = usize::from(laid.u16_at(entry + 2));
    let words = usize::from(laid.bytes[entry + 9]);
    let hold = |bytes: usize| bytes.saturating_sub(16) / 4;
    match rng.below(8) {
        // As many words as the entry holds.
        0 => laid.bytes[entry + 9] = hold(size).min(15) as u8,
        // One more, or a few: then the SID ends in the next entry.
        1 | 2 => laid.bytes[entry + 9] = (hold(size) + 1).min(16) as u8,
        3 => laid.bytes[entry + 9] = (hold(size) + 1 + rng.below(8)).min(15) as u8,
        // As many as the list holds.
        4 => {
            let end = list + usize::from(laid.u16_at(list + 2));
            laid.bytes[entry + 9] = hold(end.saturating_sub(entry)).min(15) as u8;
        }
        // The entry ends one word before its SID, and there begins another.
        5 | 6 => {
            let end = 12 + 4 * words;
            if words == 0 || end >= size || entry + end + 4 > laid.bytes.len() {
                return;
            }
            let kind = rng.of(&[0, 1, 5, 5, 5]);
            laid.bytes[entry + end..entry + end + 2].copy_from_slice(&[kind, 0]);
            laid.put_u16(entry + end + 2, (size - end) as u16);
            laid.put_u16(entry + 2, end as u16);
            let count = laid.u16_at(list + 4);
            laid.put_u16(list + 4, count.wrapping_add(1));
        }
        _ => laid.put_u16(entry + 2, (size + 1 + rng.below(3)) as u16),
    }
}

fn a_sid(rng: &mut Rng, laid: &mut Laid) {
    if laid.sids.is_empty() {
        return;
    }
    let at = rng.of(&laid.sids);
    if rng.one_in(2) {
        laid.bytes[at] = rng.of(&[0, 2, 0xFF]);
    } else {
        laid.bytes[at + 1] = rng.of(&[0, 1, 2, 15, 16, 0xFF]);
    }
}

fn another_type(rng: &mut Rng, laid: &mut Laid) {
    if laid.lists.is_empty() {
        return;
    }
    let Place { entries, .. } = rng.pick(&laid.lists);
    if entries.is_empty() {
        return;
    }
    let entry = rng.of(entries);
    if entry + 1 < laid.bytes.len() {
        laid.bytes[entry] = rng.of(&[2, 3, 4, 5, 6, 8, 9, 10, 11, 12, 16, 17, 0x80, 0xFF]);
        if rng.one_in(3) {
            laid.bytes[entry + 1] |= 0x08;
        }
    }
}

/// A policy that is wrong in one way, or just within a limit.
fn spoiled_policy(rng: &mut Rng, mut rules: Vec<LaidRule>) -> Vec<u8> {
    if rules.is_empty() || rng.one_in(4) {
        let people = People::new(rng);
        rules.push(random::rule(rng, &people, 0));
    }
    let which = rng.below(16);
    match which {
        0 | 1 => {
            let rule = rng.below(rules.len());
            rules[rule].applies_to = spoiled_applies_to(rng, &rules[rule].applies_to);
        }
        2 if rng.one_in(20) => {
            let rule = rng.below(rules.len());
            rules[rule].applies_to = long_applies_to(rng);
        }
        3 => {
            let rule = rng.below(rules.len());
            rules[rule].lists[0] = None;
        }
        _ => {}
    }
    let (mut laid, lengths) = random::lay_policy(&rules);
    match which {
        0..=3 => {}
        4 => laid.bytes[0] = rng.of(&[0, 2, 0xFF]),
        5 => {
            let count = rules.len() as u32;
            let value = rng.of(&[0, 1, count + 1, count - 1, 256, 257, 0x0100_0000, u32::MAX]);
            laid.put_u32(1, value);
        }
        6 => {
            let to = rng.below(laid.bytes.len());
            laid.bytes.truncate(if rng.one_in(3) { to.min(5) } else { to });
        }
        7 => {
            let more = 1 + rng.below(3);
            laid.bytes.extend(rng.bytes(more));
        }
        8 | 9 => {
            let at = rng.of(&lengths);
            let value = laid.u32_at(at);
            let value = rng.of(&[
                0,
                1,
                7,
                8,
                value.wrapping_add(1),
                value.wrapping_sub(1),
                value.wrapping_add(4),
                value ^ 0x1_0000,
                65_536,
                65_537,
                0x7FFF_FFFF,
                u32::MAX - 3,
                u32::MAX,
            ]);
            laid.put_u32(at, value);
        }
        10 if rng.one_in(20) => return long_policy(rng),
        11 | 12 => another_type(rng, &mut laid),
        _ => a_list(rng, &mut laid),
    }
    laid.bytes
}

/// An applies_to that is spoiled in a few bytes, or nothing but noise.
fn spoiled_applies_to(rng: &mut Rng, condition: &[u8]) -> Vec<u8> {
    if rng.one_in(6) {
        let length = 1 + rng.below(40);
        return rng.bytes(length);
    }
    if condition.is_empty() {
        let people = People::new(rng);
        let condition = conditions::whole(rng, &|rng| people.one_or_virtual(rng));
        return conditions::spoiled(rng, condition);
    }
    conditions::spoiled(rng, condition.to_vec())
}

/// An applies_to as long as may be, and one byte longer: a whole condition, by its padding or by its
/// SIDs, but for a few.
fn long_applies_to(rng: &mut Rng) -> Vec<u8> {
    let length = rng.of(&[65_535, 65_536, 65_536, 65_537]);
    let sids: Vec<Vec<u8>> =
        (0..rng.of(&[0, 3_850])).map(|i| make::sid(5, &[1_000_000 + i])).collect();
    let mut condition =
        expressions::asks(rng.of(&expressions::MEMBERS), &expressions::composite(&sids));
    condition.resize(length, 0);
    if rng.one_in(4) {
        condition[length - 1] = rng.of(&[1, 0xF8]);
    }
    condition
}

/// A policy as long as may be, and one byte longer, well shaped but for that.
fn long_policy(rng: &mut Rng) -> Vec<u8> {
    let length = rng.of(&[262_143, 262_144, 262_145]);
    let list = |size: usize| {
        let mut bytes = make::acl(&[make::allow(7, &make::sid(5, &[7]))]);
        bytes.resize(size, 0);
        bytes[2..4].copy_from_slice(&(size as u16).to_le_bytes());
        bytes
    };
    let mut rule = make::Rule::of(&list(65_000));
    rule.effective_sacl = list(65_000);
    rule.staged_dacl = list(65_000);
    rule.staged_sacl = list(65_000);
    let rest = length - 5 - 20 - 4 * 65_000 - 20;
    make::policy(&[rule, make::Rule::of(&list(rest))])
}

/// A question file that is wrong in one way of its own, or just within a limit.
pub fn file(rng: &mut Rng, mut question: Question) -> Vec<u8> {
    if rng.one_in(20) {
        // As long as may be, and one byte longer, by spare bytes in the descriptor.
        question.descriptor.truncate(60_000);
        question.policy.truncate(100);
        let to = rng.of(&[65_535, 65_536, 65_537, 65_600]);
        let missing = to - question.file().len().min(to);
        let length = question.descriptor.len() + missing;
        question.descriptor.resize(length, 0);
        // The length before the descriptor may have grown with it.
        let over = question.file().len().saturating_sub(to);
        question.descriptor.truncate(length - over.min(length));
        return question.file();
    }
    let mut pieces =
        vec![make::sevens(u64::from(question.kind)), make::sevens(u64::from(question.mask))];
    for part in [question.token, question.self_id, question.descriptor, question.policy] {
        pieces.push(make::sevens(part.len() as u64));
        pieces.push(part);
    }
    match rng.below(6) {
        0 => {
            let mut bytes = pieces.concat();
            bytes.truncate(rng.below(bytes.len()));
            bytes
        }
        1 => {
            let mut bytes = pieces.concat();
            bytes.push(rng.byte());
            bytes
        }
        _ => {
            let number = rng.of(&[0, 1, 2, 4, 6, 8]);
            strange_number(rng, &mut pieces[number]);
            pieces.concat()
        }
    }
}

/// Changes one to three bytes, drops one or adds one.
pub fn bytes(rng: &mut Rng, mut bytes: Vec<u8>) -> Vec<u8> {
    for _ in 0..1 + rng.below(3) {
        if bytes.is_empty() {
            bytes.push(rng.byte());
            continue;
        }
        let at = rng.below(bytes.len());
        match rng.below(6) {
            0 => {
                bytes.remove(at);
            }
            1 => bytes.insert(at, rng.byte()),
            2 => bytes[at] ^= 1 << rng.below(8),
            3 => bytes[at] = rng.of(&[0, 1, 2, 4, 5, 7, 8, 0x10, 0x7F, 0x80, 0xFF]),
            4 => bytes[at] = bytes[at].wrapping_add(rng.of(&[1, 0xFF])),
            _ => bytes[at] = rng.byte(),
        }
    }
    bytes
}

/// Random bytes, sometimes after a front that is well shaped.
pub fn noise(rng: &mut Rng, front: &[u8]) -> Vec<u8> {
    let mut out = if rng.one_in(2) { Vec::new() } else { front.to_vec() };
    let length = if rng.one_in(50) { rng.below(3000) } else { rng.below(80) };
    // Small bytes make counts and lengths that lead somewhere.
    let small = rng.one_in(2);
    out.extend((0..length).map(|_| if small { rng.byte() & 0x0F } else { rng.byte() }));
    out
}

pub fn mutated_part(rng: &mut Rng, mut question: Question) -> Question {
    match rng.below(8) {
        0..=1 => question.token = bytes(rng, question.token),
        2 => question.self_id = bytes(rng, question.self_id),
        3..=5 => question.descriptor = bytes(rng, question.descriptor),
        _ => question.policy = bytes(rng, question.policy),
    }
    question
}

pub fn noisy_part(rng: &mut Rng, mut question: Question) -> Question {
    match rng.below(4) {
        0 => question.token = noise(rng, &[1, 0, 0]),
        1 => question.self_id = noise(rng, &[1, 1, 0, 0, 0, 0, 0, 5]),
        2 => question.descriptor = noise(rng, &[1, 0, 4, 0x80]),
        _ => question.policy = noise(rng, &[1, 1, 0, 0, 0, 0, 0, 0, 0, 8, 0, 0, 0, 2, 0, 8, 0]),
    }
    question
}

pub fn all_noise(rng: &mut Rng) -> Question {
    Question {
        kind: rng.below(4) as u32,
        mask: rng.u32(),
        token: noise(rng, &[]),
        self_id: noise(rng, &[]),
        descriptor: noise(rng, &[]),
        policy: noise(rng, &[]),
    }
}

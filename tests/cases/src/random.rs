//! Random cases from a seed: questions that are mostly accepted, and conversions. `damage`
//! spoils some of them.

use crate::audits;
use crate::children;
use crate::conditions;
use crate::crowds;
use crate::damage;
use crate::decided;
use crate::expressions;
use crate::make::{self, Question, Token};
use crate::numbers;
use crate::people::{self, People};
use crate::rng::Rng;
use crate::rooms;
use crate::spare;

/// One call of the library.
pub enum Case {
    Check(Question),
    File(Vec<u8>),
    List(Vec<u8>, Room),
    Pack(Vec<u8>, Room),
}

/// How long the lent buffer of a converter is, measured by the result.
#[derive(Clone, Copy)]
pub enum Room {
    Exact,
    Short(usize),
    Spare(usize),
    Fixed(usize),
}

impl Room {
    pub fn of(self, result: usize) -> usize {
        match self {
            Room::Exact => result,
            Room::Short(by) => result.saturating_sub(by),
            Room::Spare(by) => result + by,
            Room::Fixed(length) => length,
        }
    }
}

/// One case in so many is about numbers. By its own number, so that all others are what they were
/// without.
const NUMBERS: u64 = 8;
/// One in so many has one of these aims, which they take in turn.
const AIMED: u64 = 16;
const AIMS: u64 = 3;
/// One in so many is about seats.
const SEATS: u64 = 16;
/// One in so many is about words of five bytes.
const WORDS: u64 = 128;
/// One in so many is about conditions.
const CONDITIONS: u64 = 16;
/// One in so many is about audit entries, but for those about words.
const AUDITS: u64 = 8;

/// What some cases are about, each with its turn.
#[derive(Clone, Copy, Debug, PartialEq, Eq)]
pub enum About {
    Rooms(u64),
    Crowds(u64),
    Decided(u64),
    Seats(u64),
    Words(u64),
    Conditions(u64),
    Audits(u64),
}

/// What the case of this number is about, if it has such an aim.
pub fn about(number: u64) -> Option<About> {
    if number % SEATS == 11 {
        return Some(About::Seats(number / SEATS));
    }
    if number % WORDS == 5 {
        return Some(About::Words(number / WORDS));
    }
    if number % CONDITIONS == 9 {
        return Some(About::Conditions(number / CONDITIONS));
    }
    if number % AUDITS == 5 {
        return Some(About::Audits(number / AUDITS));
    }
    let (turn, about) = (number / AIMED / AIMS, number / AIMED % AIMS);
    (number % AIMED == 3).then_some(match about {
        0 => About::Rooms(turn),
        1 => About::Crowds(turn),
        _ => About::Decided(turn),
    })
}

/// Case `number` under `seed`.
pub fn case(seed: u64, number: u64) -> Case {
    let rng = &mut Rng::new(seed, number);
    if number % NUMBERS == NUMBERS - 1 {
        return numbers::case(rng, number / NUMBERS);
    }
    match about(number) {
        Some(About::Rooms(turn)) => return rooms::case(rng, turn),
        Some(About::Crowds(turn)) => return crowds::case(rng, turn),
        Some(About::Decided(turn)) => return decided::case(rng, turn),
        Some(About::Seats(turn)) => return crowds::seats::case(rng, turn),
        Some(About::Words(turn)) => return numbers::words::case(rng, turn),
        Some(About::Conditions(turn)) => return conditions::case(rng, turn),
        Some(About::Audits(turn)) => return audits::case(rng, turn),
        None => {}
    }
    match rng.below(20) {
        0..=11 => Case::Check(question(rng)),
        12..=14 => Case::File(file(rng)),
        15..=17 => Case::List(record(rng), room(rng)),
        _ => Case::Pack(listing(rng), room(rng)),
    }
}

fn room(rng: &mut Rng) -> Room {
    match rng.below(12) {
        0..=4 => Room::Exact,
        5 => Room::Short(1),
        6 => Room::Short(1 + rng.below(40)),
        7 => Room::Fixed(0),
        8 => Room::Fixed(rng.below(200)),
        9 => Room::Fixed(28_021),
        _ => Room::Spare(1 + rng.below(100)),
    }
}

fn record(rng: &mut Rng) -> Vec<u8> {
    let people = People::new(rng);
    let token = token(rng, &people, 200);
    match rng.below(20) {
        0..=11 => token.record(),
        12..=16 => damage::record(rng, token),
        17 => damage::bytes(rng, token.record()),
        18 => damage::noise(rng, &[1, 0, 0]),
        _ => damage::listing_as_record(token),
    }
}

fn listing(rng: &mut Rng) -> Vec<u8> {
    let people = People::new(rng);
    let token = token(rng, &people, 200);
    match rng.below(20) {
        0..=11 => token.listing(),
        12..=16 => damage::listing(rng, token),
        17 => damage::bytes(rng, token.listing()),
        18 => damage::noise(rng, &[0, 0, 0, 0, 0, 0, 0, 0, 0, 0, 0, 0, 1, 0]),
        _ => token.record(),
    }
}

fn file(rng: &mut Rng) -> Vec<u8> {
    let question = question(rng);
    match rng.below(10) {
        0..=6 => question.file(),
        7..=8 => damage::file(rng, question),
        _ => {
            if rng.one_in(2) {
                damage::bytes(rng, question.file())
            } else {
                damage::noise(rng, &[1, 1, 8, 1, 0, 0, 2, 5, 0, 7, 0, 0])
            }
        }
    }
}

/// A question before its parts are joined to bytes, so that they can be spoiled one by one.
pub struct Draft {
    pub kind: u32,
    pub mask: u32,
    pub token: Token,
    pub self_id: Vec<u8>,
    pub descriptor: Laid,
    pub policy: Option<Vec<LaidRule>>,
}

/// Bytes in which the places of their lists and SIDs are known.
#[derive(Default)]
pub struct Laid {
    pub bytes: Vec<u8>,
    pub sids: Vec<usize>,
    pub lists: Vec<Place>,
}

/// Where a list stands, and where its entries do.
#[derive(Clone)]
pub struct Place {
    pub at: usize,
    pub entries: Vec<usize>,
    pub is_dacl: bool,
}

impl Place {
    fn moved(&self, by: usize) -> Place {
        let entries = self.entries.iter().map(|at| at + by).collect();
        Place { at: self.at + by, entries, is_dacl: self.is_dacl }
    }
}

/// A rule's five sections, each list with its places.
pub struct LaidRule {
    pub applies_to: Vec<u8>,
    pub lists: [Option<(Vec<u8>, Place)>; 4],
}

fn question(rng: &mut Rng) -> Question {
    let mut people = People::new(rng);
    if rng.one_in(4) {
        people.asking_owner = Some(people.one(rng));
    }
    let kind = 1 + rng.below(2) as u32;
    let mut draft = Draft {
        kind,
        mask: desired(rng, kind),
        token: token(rng, &people, 2000),
        self_id: self_identity(rng, &people),
        descriptor: descriptor(rng, &people),
        policy: policy(rng, &people),
    };
    if let Some(owner) = &people.asking_owner {
        children::owner_asks(rng, &mut draft, owner);
    }
    match rng.below(40) {
        0..=23 => draft.join(),
        24..=32 => damage::parts(rng, draft, 1),
        33..=35 => damage::parts(rng, draft, 2),
        36..=37 => damage::mutated_part(rng, draft.join()),
        38 => damage::noisy_part(rng, draft.join()),
        _ => damage::all_noise(rng),
    }
}

impl Draft {
    pub fn join(self) -> Question {
        Question {
            kind: self.kind,
            mask: self.mask,
            token: self.token.record(),
            self_id: self.self_id,
            descriptor: self.descriptor.bytes,
            policy: self.policy.map_or(Vec::new(), |rules| lay_policy(&rules).0.bytes),
        }
    }
}

const ALL: [u32; 2] = [0x1F_01FF, 0xF_003F];

/// A desired mask without a bit that this kind refuses.
fn desired(rng: &mut Rng, kind: u32) -> u32 {
    let all = ALL[kind as usize - 1];
    let mask = match rng.below(14) {
        0 => 0,
        1 => 0x8000_0000,
        2 => 0x0200_0000,
        3 => 0x0200_0000 | 1 << rng.below(6),
        4 => 0x0300_0000,
        5 => 0x0100_0000 | 1 << rng.below(6),
        6 => 0x1000_0000 >> rng.below(2) << rng.below(4),
        7 => rng.u32() & 0xF000_0000,
        8 => rng.of(&[0x2_0000, 0x4_0000, 0x6_0000, 0x8_0000, 0xE_0000, 0x6_0001]),
        9 => 3,
        10 => all,
        11 => rng.u32() & 0x7,
        12 => rng.u32() & rng.u32(),
        _ => rng.u32(),
    };
    mask & (0xF300_0000 | all)
}

/// An entry's mask: anything, but mostly bits that questions ask for.
pub fn entry_mask(rng: &mut Rng) -> u32 {
    match rng.below(12) {
        0..=3 => rng.u32() & 0x7,
        4 => 1 << rng.below(6),
        5 => 0x8000_0000 >> rng.below(4),
        6 => rng.u32() & 0xF000_0007,
        7 => rng.of(&[0x2_0000, 0x4_0000, 0x6_0000, 0x8_0000, 0xC_0000, 0x2_0001]),
        8 => rng.of(&[0, u32::MAX, 0x0100_0000, 0x0200_0000, 0x0300_0000, 0x0F00_FE00]),
        9 => rng.u32() & 0x1F_01FF,
        10 => rng.u32() & rng.u32(),
        _ => rng.u32(),
    }
}

fn attributes(rng: &mut Rng) -> u32 {
    match rng.below(10) {
        0..=3 => rng.of(&[0x4, 0x7, 0xC000_0007]),
        4..=5 => rng.of(&[0x10, 0x13, 0x0800_0010]),
        6 => rng.of(&[0x14, 0x17, u32::MAX]),
        7..=8 => rng.of(&[0, 0x3, 0x8, 0x20, 0xFFFF_FFEB, 0x0400_0000, 0x400]),
        _ => rng.u32(),
    }
}

/// An acceptable token, but for a few. One in `rare` is as large as a token gets.
fn token(rng: &mut Rng, people: &People, rare: usize) -> Token {
    if rng.one_in(rare) {
        return large_token(rng, people);
    }
    let mut token = Token::of(&people.one(rng));
    token.privileges = match rng.below(8) {
        0..=3 => 0,
        4 => 1 << 8,
        5 => 1 << 9,
        6 => rng.of(&[0x300, u64::MAX, 1 << 63, !0x300, 0x80, 0x400]),
        _ => rng.u64() >> rng.below(64),
    };
    for _ in 0..rng.of(&[0, 0, 1, 1, 2, 3, 4, 6]) {
        let attributes = attributes(rng);
        token = token.group(&people.one(rng), attributes);
    }
    if rng.one_in(3) {
        let mut capabilities = vec![people::all_restricted()];
        for _ in 0..rng.below(4) {
            let place = rng.below(capabilities.len() + 1);
            capabilities.insert(place, people.one(rng));
        }
        token.flags = if rng.one_in(4) { 3 } else { 1 };
        token.confinement = Some((people.one(rng), capabilities));
    }
    if rng.one_in(300) {
        damage::break_rule(rng, &mut token);
    }
    token
}

fn large_token(rng: &mut Rng, people: &People) -> Token {
    // Either every field is as long as it gets, or matches are still to be found.
    let longest = rng.one_in(2);
    let someone = |rng: &mut Rng| {
        if longest {
            let high = rng.below(4) as u32;
            make::sid(0xFFFF_FFFF_FFFF, &[u32::MAX - high; 15])
        } else if rng.one_in(20) {
            people.one(rng)
        } else {
            make::sid(5, &[21, rng.u32(), rng.u32() & 0xFFFF])
        }
    };
    let mut token = Token::of(&someone(rng));
    token.privileges = if longest { u64::MAX } else { rng.u64() };
    let groups = rng.of(&[20, 256, 256, 257]);
    for _ in 0..groups {
        let attributes = if longest { u32::MAX } else { attributes(rng) };
        token = token.group(&someone(rng), attributes);
    }
    if longest || rng.one_in(2) {
        let mut capabilities: Vec<_> =
            (0..rng.of(&[63, 63, 63, 64])).map(|_| someone(rng)).collect();
        // One of them has to be S-1-15-2-2, which is short. Without it the record may have the
        // longest shape of all, and is refused for the missing capability.
        if !rng.one_in(5) {
            let place = rng.below(capabilities.len() + 1);
            capabilities.insert(place, people::all_restricted());
        }
        token.confinement = Some((someone(rng), capabilities));
        token.flags = rng.of(&[1, 1, 3]);
    }
    token
}

fn self_identity(rng: &mut Rng, people: &People) -> Vec<u8> {
    if rng.one_in(3) {
        Vec::new()
    } else {
        people.one_or_virtual(rng)
    }
}

/// The longest list, since its size is a u16.
const LONGEST_LIST: usize = 65_535;

/// A well-shaped list: entries that are read for a DACL, anything for a SACL. Its entries are not
/// more than `most`, and it is stretched into no more than `room` bytes.
fn list(
    rng: &mut Rng,
    people: &People,
    is_dacl: bool,
    most: usize,
    room: usize,
) -> (Vec<u8>, Place) {
    let count = match rng.below(10) {
        0 => 0,
        1..=7 => 1 + rng.below(most.min(5)),
        _ => 1 + rng.below(most),
    };
    let mut bytes = vec![rng.of(&[2, 4]), rng.of(&[0, 0, 0xFF]), 0, 0, 0, 0, 0, rng.of(&[0, 7])];
    let mut entries = Vec::new();
    let with_spare = is_dacl && rng.one_in(4);
    let with_conditions = is_dacl && rng.one_in(4);
    let about_owner = is_dacl && people.are_about_owner();
    // In a list about the owner all entries may have the same flags, but perhaps one of them. In a
    // long one they do, so that the one may matter.
    let alike = about_owner && (count > 8 || rng.one_in(2));
    let alike = alike.then(|| (children::flags(rng), rng.below(2 * count.max(1))));
    // A condition may have some thousand bytes.
    let enough = if with_conditions { 30_000 } else { 60_000 };
    for number in 0..count {
        if bytes.len() > enough {
            break;
        }
        entries.push(bytes.len());
        let flags = match (alike, rng.below(8)) {
            (Some((flags, one)), _) if number != one => flags,
            _ if about_owner => children::flags(rng),
            (_, 0) => 0x08,
            (_, 1) => rng.byte(),
            _ => rng.of(&[0, 0, 3, 0x10, 0xF7]),
        };
        if is_dacl {
            let kind = u8::from(rng.one_in(3));
            let mask = if about_owner { children::mask(rng) } else { entry_mask(rng) };
            bytes.extend(if with_conditions && rng.one_in(2) {
                callback(rng, people, kind, flags, mask)
            } else if with_spare && rng.one_in(2) {
                spare::entry(rng, people, kind, flags, mask)
            } else {
                make::entry(kind, flags, mask, &people.named(rng))
            });
        } else {
            bytes.extend(audits::entry(rng, &|rng| people.one_or_virtual(rng)));
        }
    }
    if rng.one_in(6) {
        // Spare bytes of any number, behind all that is counted; they may look like an entry.
        if rng.one_in(2) {
            let spare = 1 + rng.below(30);
            bytes.extend(rng.bytes(spare));
        } else {
            bytes.extend(spare::stuff(rng, people));
        }
    }
    if is_dacl && !entries.is_empty() && rng.one_in(400) {
        stretch(rng, people, &mut bytes, &mut entries, room);
    }
    let size = (bytes.len() as u16).to_le_bytes();
    let number = (entries.len() as u16).to_le_bytes();
    bytes[2..4].copy_from_slice(&size);
    bytes[4..6].copy_from_slice(&number);
    (bytes, Place { at: 0, entries, is_dacl })
}

/// The allow or deny entry that has a condition.
fn callback(rng: &mut Rng, people: &People, kind: u8, flags: u8, mask: u32) -> Vec<u8> {
    let condition = conditions::whole(rng, &|rng| people.one_or_virtual(rng));
    let kind = if kind == 0 { expressions::ALLOW } else { expressions::DENY };
    expressions::callback(kind, flags, mask, &people.named(rng), &condition)
}

/// Gives one entry of a list very many spare bytes. The list then fills no more than `room`. A
/// condition gets padding.
fn stretch(
    rng: &mut Rng,
    people: &People,
    bytes: &mut Vec<u8>,
    entries: &mut [usize],
    room: usize,
) {
    let more = spare::stretch(rng, room.saturating_sub(bytes.len()));
    let which = rng.below(entries.len());
    let at = entries[which];
    let size = usize::from(u16::from_le_bytes([bytes[at + 2], bytes[at + 3]]));
    let behind = bytes.split_off(at + size);
    let stuff = if bytes[at] < 2 { spare::stuff(rng, people) } else { vec![0] };
    bytes.extend(spare::many(&stuff, more));
    bytes.extend(behind);
    bytes[at + 2..at + 4].copy_from_slice(&((size + more) as u16).to_le_bytes());
    for later in &mut entries[which + 1..] {
        *later += more;
    }
}

const LONGEST_DESCRIPTOR: usize = 65_535;
const OWNER: usize = 4;
const GROUP: usize = 8;
const SACL: usize = 12;
const DACL: usize = 16;

/// A well-shaped descriptor with its parts in any order, gaps between them, and now and then
/// parts that overlap.
fn descriptor(rng: &mut Rng, people: &People) -> Laid {
    let mut laid = Laid { bytes: vec![0; 20], ..Laid::default() };
    let mut control = 0x8000u16 | (rng.u64() as u16 & 0x7FEB & rng.u64() as u16);
    let most = if rng.one_in(if people.are_about_owner() { 50 } else { 700 }) { 3000 } else { 8 };
    let has_dacl = !rng.one_in(10);
    let has_sacl = rng.one_in(5);

    let mut order = [OWNER, GROUP, SACL, DACL];
    for last in (1..4).rev() {
        order.swap(last, rng.below(last + 1));
    }
    for field in order {
        if rng.one_in(8) {
            let gap = 1 + rng.below(6);
            laid.bytes.extend(rng.bytes(gap));
        }
        let at = laid.bytes.len();
        let mut offset = at as u32;
        match field {
            GROUP if rng.one_in(2) => offset = 0,
            OWNER | GROUP => {
                laid.sids.push(at);
                laid.bytes.extend(match &people.asking_owner {
                    Some(owner) if field == OWNER => owner.clone(),
                    _ if rng.one_in(4) => people.one_or_virtual(rng),
                    _ => people.one(rng),
                });
            }
            SACL if has_sacl => {
                let (bytes, place) = list(rng, people, false, most, 0);
                laid.bytes.extend(bytes);
                laid.lists.push(place.moved(at));
                control |= 0x0010;
            }
            DACL if has_dacl => {
                // As the last part it may fill the descriptor; others need no more than 1,500 bytes.
                let end = if order[3] == DACL { LONGEST_DESCRIPTOR } else { 64_000 };
                let (bytes, place) = list(rng, people, true, most, end.saturating_sub(at));
                laid.bytes.extend(bytes);
                laid.lists.push(place.moved(at));
                control |= 0x0004;
            }
            // Not followed, so it may hold anything.
            _ => offset = rng.of(&[0, 0, 1, 19, 20, u32::MAX]),
        }
        laid.put_u32(field, offset);
    }
    laid.bytes[0] = 1;
    laid.bytes[1] = rng.of(&[0, 0, 0xFF]);
    laid.bytes[2..4].copy_from_slice(&control.to_le_bytes());
    overlap(rng, &mut laid);
    laid
}

/// Parts may share bytes: the owner may be the SID of an entry, the SACL may be the DACL.
fn overlap(rng: &mut Rng, laid: &mut Laid) {
    if !rng.one_in(10) {
        return;
    }
    let Some(dacl) = laid.lists.iter().find(|list| list.is_dacl).cloned() else {
        return;
    };
    match rng.below(3) {
        0 if !dacl.entries.is_empty() => {
            let entry = rng.of(&dacl.entries);
            laid.put_u32(OWNER, entry as u32 + 8);
        }
        1 => laid.put_u32(GROUP, laid.u32_at(OWNER)),
        _ => {
            laid.put_u32(SACL, dacl.at as u32);
            laid.bytes[2] |= 0x10;
        }
    }
}

impl Laid {
    pub fn put_u32(&mut self, at: usize, value: u32) {
        self.bytes[at..at + 4].copy_from_slice(&value.to_le_bytes());
    }

    pub fn u32_at(&self, at: usize) -> u32 {
        u32::from_le_bytes([
            self.bytes[at],
            self.bytes[at + 1],
            self.bytes[at + 2],
            self.bytes[at + 3],
        ])
    }

    pub fn put_u16(&mut self, at: usize, value: u16) {
        self.bytes[at..at + 2].copy_from_slice(&value.to_le_bytes());
    }

    pub fn u16_at(&self, at: usize) -> u16 {
        u16::from_le_bytes([self.bytes[at], self.bytes[at + 1]])
    }
}

fn policy(rng: &mut Rng, people: &People) -> Option<Vec<LaidRule>> {
    if rng.one_in(if people.are_about_owner() { 4 } else { 2 }) {
        return None;
    }
    let count = if rng.one_in(1000) { rng.of(&[32, 255, 256, 257]) } else { rng.below(4) };
    // Many rules with very long lists would not make a policy.
    let room = if count < 4 { LONGEST_LIST } else { 0 };
    Some((0..count).map(|_| rule(rng, people, room)).collect())
}

/// A rule, whose DACLs may be stretched into `room` bytes.
pub fn rule(rng: &mut Rng, people: &People, room: usize) -> LaidRule {
    let applies_to = if rng.one_in(4) {
        conditions::whole(rng, &|rng| people.one_or_virtual(rng))
    } else {
        Vec::new()
    };
    let mut section =
        |is_dacl, one_in: usize| rng.one_in(one_in).then(|| list(rng, people, is_dacl, 5, room));
    let staged = if people.are_about_owner() { 1 } else { 2 };
    let mut lists = [section(true, 1), section(false, 3), section(true, staged), section(false, 6)];
    if rng.one_in(4) {
        // The same once more, or nothing where there is nothing.
        lists[3] = lists[1].clone();
    }
    LaidRule { applies_to, lists }
}

/// A policy's bytes, and where its section lengths stand.
pub fn lay_policy(rules: &[LaidRule]) -> (Laid, Vec<usize>) {
    let mut laid = Laid { bytes: vec![1], ..Laid::default() };
    let mut lengths = Vec::new();
    laid.bytes.extend((rules.len() as u32).to_le_bytes());
    for rule in rules {
        lengths.push(laid.bytes.len());
        laid.bytes.extend((rule.applies_to.len() as u32).to_le_bytes());
        laid.bytes.extend(&rule.applies_to);
        for section in &rule.lists {
            lengths.push(laid.bytes.len());
            match section {
                None => laid.bytes.extend([0; 4]),
                Some((bytes, place)) => {
                    laid.bytes.extend((bytes.len() as u32).to_le_bytes());
                    laid.lists.push(place.moved(laid.bytes.len()));
                    laid.bytes.extend(bytes);
                }
            }
        }
    }
    (laid, lengths)
}

//! Questions about audit entries, type 2: which of them raise an event, in the descriptor's SACL
//! and in the effective SACLs of rules; whether a staged SACL would raise others; and misshapen
//! ones.

mod faults;
mod long;

use crate::conditions::{self, Cast, Pass};
use crate::expressions;
use crate::make::{self, Descriptor, Question, Rule};
use crate::random::{self, Case};
use crate::rng::Rng;
pub use faults::{Spot, SPOTS};

/// What a case is about.
#[derive(Clone, Copy, Debug, PartialEq, Eq)]
pub enum Aim {
    /// Few entries of all sorts, and all are accepted.
    Events,
    /// A rule whose staged SACL is nearly the effective one, where most entries raise an event.
    Staged,
    /// An audit entry there is misshapen, and nothing else is.
    Fault(Spot),
    /// Many entries, or many rules.
    Long,
}

/// The aim of one turn.
pub fn aim(turn: u64) -> Aim {
    match turn % 16 {
        0..=7 => Aim::Events,
        8..=10 => Aim::Staged,
        11..=14 => Aim::Fault(SPOTS[(turn / 16 % 3) as usize]),
        _ => Aim::Long,
    }
}

/// A longer question file is refused.
const LONGEST_FILE: usize = 65_536;

/// The case of one turn. Some are question files.
pub fn case(rng: &mut Rng, turn: u64) -> Case {
    let question = match aim(turn) {
        Aim::Events => events(rng),
        Aim::Staged => nearly(rng),
        Aim::Fault(spot) => faults::question(rng, spot),
        Aim::Long => long::question(rng),
    };
    if rng.one_in(4) {
        let file = question.file();
        if file.len() <= LONGEST_FILE {
            return Case::File(file);
        }
    }
    Case::Check(question)
}

/// Success, failure, both or neither, and sometimes others beside.
pub fn flags(rng: &mut Rng) -> u8 {
    let audit = rng.of(&[0x40, 0x40, 0x80, 0x80, 0xC0, 0xC0, 0]);
    match rng.below(10) {
        0 => audit | 0x08,
        1 => audit | rng.of(&[0x0B, 0x1F, 0x03, 0x10, 0x37]),
        2 => rng.byte(),
        _ => audit,
    }
}

/// Types that raise no event.
const OTHERS: [u8; 14] = [0, 1, 3, 4, 5, 7, 9, 0x0A, 0x0D, 0x11, 0x12, 0x13, 0x82, 0xFF];

/// An entry of another type, which may be a header alone, or look like an audit entry but for that.
pub fn other(rng: &mut Rng, someone: &impl Fn(&mut Rng) -> Vec<u8>) -> Vec<u8> {
    let kind = rng.of(&OTHERS);
    let flags = flags(rng);
    match rng.below(4) {
        0 | 1 => make::bare_entry(kind, flags, &[]),
        2 => {
            let length = 4 * rng.below(5);
            make::bare_entry(kind, flags, &rng.bytes(length))
        }
        _ => {
            let mask = random::entry_mask(rng);
            make::entry(kind, flags, mask, &someone(rng))
        }
    }
}

/// An audit entry about somebody. Now and then it has spare bytes, of which some look like an
/// entry.
pub fn audit(rng: &mut Rng, someone: &impl Fn(&mut Rng) -> Vec<u8>) -> Vec<u8> {
    let flags = flags(rng);
    let mask = random::entry_mask(rng);
    let sid = someone(rng);
    let spare = match rng.below(12) {
        0 => make::entry(2, 0xC0, u32::MAX, &someone(rng)),
        1 => vec![0xFF; 4 * (1 + rng.below(4))],
        2 => make::bare_entry(2, 0xC0, &[]),
        _ => Vec::new(),
    };
    make::long_entry(2, flags, mask, &sid, &spare)
}

/// An entry of a SACL.
pub fn entry(rng: &mut Rng, someone: &impl Fn(&mut Rng) -> Vec<u8>) -> Vec<u8> {
    if rng.one_in(4) {
        other(rng, someone)
    } else {
        audit(rng, someone)
    }
}

fn entries(rng: &mut Rng, most: usize, someone: &impl Fn(&mut Rng) -> Vec<u8>) -> Vec<Vec<u8>> {
    (0..rng.below(most + 1)).map(|_| entry(rng, someone)).collect()
}

/// What may be staged for these entries: mostly they themselves with a small change, which may or
/// may not be another sequence of events.
pub fn staged(
    rng: &mut Rng,
    effective: &[Vec<u8>],
    someone: &impl Fn(&mut Rng) -> Vec<u8>,
) -> Vec<Vec<u8>> {
    let mut new = effective.to_vec();
    let place = rng.below(new.len() + 1);
    let one = rng.below(new.len().max(1));
    match rng.below(12) {
        0 => {}
        1 => return Vec::new(),
        2 => return entries(rng, 5, someone),
        3 => new.reverse(),
        // Other numbers for those behind.
        4 | 5 => new.insert(place, other(rng, someone)),
        6 => new.insert(place, audit(rng, someone)),
        7 if !new.is_empty() => {
            new.remove(one);
        }
        8 if new.len() > 1 => {
            let two = rng.below(new.len());
            new.swap(one, two);
        }
        // Another mask, other flags, or somebody else.
        9 if !new.is_empty() && new[one].len() >= 16 => {
            let bit = rng.below(32);
            new[one][4 + bit / 8] ^= 1 << (bit % 8);
        }
        10 if !new.is_empty() => new[one][1] ^= rng.of(&[0x40, 0x80, 0xC0, 0x08, 0x10]),
        11 if !new.is_empty() && new[one].len() >= 16 => {
            let mask = [new[one][4], new[one][5], new[one][6], new[one][7]];
            new[one] = make::entry(2, new[one][1], u32::from_le_bytes(mask), &someone(rng));
        }
        _ => {}
    }
    new
}

/// What is asked about audited objects: with explicit bits, without, and with the maximum beside.
fn desired(rng: &mut Rng) -> u32 {
    match rng.below(10) {
        0..=3 => rng.of(&[1, 3, 7, 2, 0x2_0001]),
        4 => rng.of(&[0x8000_0000, 0x4000_0000, 0x2000_0000, 0x1000_0000]),
        5 => 0x0200_0000,
        6 => 0x0200_0000 | rng.of(&[1, 2, 7, 0x8_0000, 0x8000_0000]),
        7 => rng.of(&[0x0100_0000, 0x0100_0001, 0x0300_0000, 0x0300_0001]),
        8 => rng.of(&[0, 0x1_0000, 0x38]),
        _ => rng.u32() & 0xF30F_003F,
    }
}

/// The parts of a question, all of them accepted.
struct Parts {
    cast: Cast,
    kind: u32,
    mask: u32,
    sacl: Option<Vec<Vec<u8>>>,
    dacl: Option<Vec<Vec<u8>>>,
    rules: Vec<Rule>,
}

impl Parts {
    fn question(self) -> Question {
        let mut descriptor = Descriptor::owned_by(&self.cast.owner);
        descriptor.sacl = self.sacl.map(|entries| make::acl(&entries));
        descriptor.dacl = self.dacl.map(|entries| make::acl(&entries));
        Question {
            kind: self.kind,
            mask: self.mask,
            token: self.cast.token.record(),
            self_id: self.cast.self_id,
            descriptor: descriptor.bytes(),
            policy: if self.rules.is_empty() { vec![] } else { make::policy(&self.rules) },
        }
    }
}

/// Everything to user and package, so that it is allowed; or less.
fn dacl(rng: &mut Rng, cast: &Cast) -> Vec<Vec<u8>> {
    let rights = rng.of(&[0x1000_0000, 0x1000_0000, 0x1000_0000, 3, 0x8000_0000, 0]);
    vec![make::allow(rights, &cast.user), make::allow(rights, &cast.package)]
}

fn rule(rng: &mut Rng, cast: &Cast) -> Rule {
    let someone = |rng: &mut Rng| cast.someone(rng);
    let mut rule = Rule::of(&make::acl(&dacl(rng, cast)));
    rule.applies_to = match rng.below(8) {
        0 | 1 => expressions::never(),
        2 => expressions::always(),
        3 => conditions::whole(rng, &someone),
        _ => Vec::new(),
    };
    let effective = entries(rng, 5, &someone);
    if rng.one_in(3) {
        rule.staged_dacl = make::acl(&dacl(rng, cast));
    }
    if !rng.one_in(3) {
        rule.staged_sacl = make::acl(&staged(rng, &effective, &someone));
    }
    if !rng.one_in(5) {
        rule.effective_sacl = make::acl(&effective);
    }
    rule
}

fn parts(rng: &mut Rng) -> Parts {
    let pass = rng.of(&[Pass::Normal, Pass::Normal, Pass::Confined]);
    let mut cast = Cast::new(rng, pass);
    if rng.one_in(3) {
        cast.token.privileges = rng.of(&[1 << 8, 1 << 9, 0x300]);
    }
    let someone = |rng: &mut Rng| cast.someone(rng);
    let sacl = (!rng.one_in(6)).then(|| entries(rng, 6, &someone));
    let dacl = (!rng.one_in(6)).then(|| dacl(rng, &cast));
    let rules = (0..rng.of(&[0, 0, 1, 1, 2, 3])).map(|_| rule(rng, &cast)).collect();
    Parts { kind: 1 + rng.below(2) as u32, mask: desired(rng), cast, sacl, dacl, rules }
}

fn events(rng: &mut Rng) -> Question {
    parts(rng).question()
}

/// Masks that all cover 1, some of which are mapped or cut to the same.
const ALIKE: [u32; 10] = [
    0x1,
    0x3,
    0x0100_0001,
    0x8000_0000,
    0x0012_0089,
    0x8000_0001,
    0x0002_0019,
    0x1000_0000,
    0x1FFF_FFFF,
    0xFFFF_FFFF,
];

/// A question about 1, under rules whose SACLs tell nearly the same.
fn nearly(rng: &mut Rng) -> Question {
    let mut parts = parts(rng);
    parts.mask = rng.of(&[1, 1, 1, 0x0200_0001, 0x8000_0000]);
    let members =
        [parts.cast.user.clone(), parts.cast.enabled.clone(), parts.cast.deny_only.clone()];
    let masks = [rng.of(&ALIKE), rng.of(&ALIKE)];
    let speaking = |rng: &mut Rng| make::entry(2, 0xC0, rng.of(&masks), &members[rng.below(3)]);
    parts.rules.truncate(2);
    if parts.rules.is_empty() {
        parts.rules.push(rule(rng, &parts.cast));
    }
    let number = rng.below(parts.rules.len());
    let rule = &mut parts.rules[number];
    let effective: Vec<Vec<u8>> = (0..1 + rng.below(4)).map(|_| speaking(rng)).collect();
    let mut other = effective.clone();
    let (one, two) = (rng.below(other.len()), rng.below(other.len()));
    match rng.below(8) {
        0 => other.swap(one, two),
        1 => {
            other.remove(one);
        }
        2 => other.insert(one, speaking(rng)),
        // The same mask of another who matches.
        3 => {
            let sid = &members[rng.below(3)];
            let mask = [other[one][4], other[one][5], other[one][6], other[one][7]];
            other[one] = make::entry(2, 0xC0, u32::from_le_bytes(mask), sid);
        }
        4 => other[one][4..8].copy_from_slice(&rng.of(&ALIKE).to_le_bytes()),
        5 => other.insert(one, make::bare_entry(0x11, 0xC0, &[])),
        6 => other.insert(one, make::entry(2, 0xC0, u32::MAX, &parts.cast.stranger)),
        _ => other[one][1] = rng.of(&[0x40, 0x80, 0xC8]),
    }
    rule.effective_sacl = make::acl(&effective);
    rule.staged_sacl = make::acl(&other);
    if rng.one_in(2) {
        std::mem::swap(&mut rule.effective_sacl, &mut rule.staged_sacl);
    }
    if rng.one_in(2) {
        rule.staged_dacl = Vec::new();
    }
    parts.question()
}

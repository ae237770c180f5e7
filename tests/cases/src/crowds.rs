//! Tokens of up to 257 identities that are hard to tell apart, and lists that name a few of them,
//! and strangers who are nearly one of them. Each entry has a right of its own, so that the answer
//! shows of each whether it matched.

mod kin;
pub mod seats;

use crate::make::{self, Descriptor, Question, Rule, Token};
use crate::people;
use crate::random::Case;
use crate::rng::Rng;
use kin::{unlike, Family, UNLIKE};
pub use kin::{Kin, KIN};

/// How many identities there are: the user and the groups, or the package and the capabilities.
pub const NORMAL: [usize; 6] = [1, 2, 21, 64, 256, 257];
pub const CONFINED: [usize; 5] = [2, 3, 21, 64, 65];

/// What kind of a crowd.
#[derive(Clone, Copy, Debug, PartialEq, Eq)]
pub struct Aim {
    /// Whether it is the package and its capabilities.
    pub confined: bool,
    pub size: usize,
    pub kin: Kin,
}

pub fn aims() -> Vec<Aim> {
    let mut all = Vec::new();
    for kin in KIN {
        all.extend(NORMAL.map(|size| Aim { confined: false, size, kin }));
        all.extend(CONFINED.map(|size| Aim { confined: true, size, kin }));
    }
    all
}

/// The attribute words of a group that is listed twice or three times, in every order.
pub fn repeats() -> Vec<Vec<u32>> {
    const ATTRIBUTES: [u32; 4] = [0x4, 0x10, 0x14, 0];
    let mut all = Vec::new();
    for first in ATTRIBUTES {
        for second in ATTRIBUTES.into_iter().filter(|&second| second != first) {
            all.push(vec![first, second]);
            let rest = ATTRIBUTES.into_iter().filter(|&third| third != first && third != second);
            all.extend(rest.map(|third| vec![first, second, third]));
        }
    }
    all
}

/// The aim of one turn.
pub fn aim(turn: u64) -> Aim {
    thread_local! {
        static AIMS: Vec<Aim> = aims();
    }
    AIMS.with(|aims| aims[(turn % aims.len() as u64) as usize])
}

/// The case of one turn.
pub fn case(rng: &mut Rng, turn: u64) -> Case {
    let aim = aim(turn);
    let family = Family::new(rng, aim.kin);
    let crowd: Vec<Vec<u8>> = (0..aim.size).map(|number| family.member(number)).collect();
    let question = if aim.confined {
        confined(rng, &family, crowd)
    } else {
        thread_local! {
            static REPEATS: Vec<Vec<u32>> = repeats();
        }
        // Two of them, far from each other, so that each has its turn more often.
        let attributes = REPEATS.with(|all| {
            [turn, turn + 18].map(|turn| all[(turn % all.len() as u64) as usize].clone())
        });
        normal(rng, &family, crowd, &attributes)
    };
    Case::Check(question)
}

/// The user and groups ask. If there are enough, one group is listed with all attributes of the
/// first of these, and another with those of the second.
fn normal(
    rng: &mut Rng,
    family: &Family,
    mut crowd: Vec<Vec<u8>>,
    attributes: &[Vec<u32>; 2],
) -> Question {
    let mut groups: Vec<u32> = (1..crowd.len()).map(|_| rng.of(&[4, 4, 7, 0x10, 0])).collect();
    if let Some(last) = groups.last_mut() {
        *last = 4;
    }
    let mut named = Vec::new();
    if crowd.len() > 20 {
        let half = crowd.len() / 2;
        named.push(repeat(rng, &mut crowd[..=half], &mut groups[..half], &attributes[0]));
        named.push(repeat(rng, &mut crowd[half..], &mut groups[half..], &attributes[1]));
    }
    named.extend(several(rng, family, &crowd));
    let entries = Entries::new(rng, &named);
    let mut token = Token::of(&crowd[0]);
    token.groups = crowd[1..].iter().cloned().zip(groups).collect();
    let mut list = entries.made;
    if entries.are_denies {
        list.push(make::allow(ALL, &crowd[0]));
    }
    let list = make::acl(&list);
    let mut question = about(rng, &token, &named, entries.kind);
    let owner = Descriptor::owned_by(rng.pick::<Vec<u8>>(&named));
    if rng.one_in(4) {
        question.descriptor = owner.bytes();
        question.policy = make::policy(&[Rule::of(&list)]);
    } else {
        question.descriptor = owner.dacl(&list).bytes();
    }
    question
}

/// Lists one group with each of these attributes, in their order. It is neither the first of the
/// crowd, who has no attributes here, nor the last. Gives who it is.
fn repeat(rng: &mut Rng, crowd: &mut [Vec<u8>], groups: &mut [u32], attributes: &[u32]) -> Vec<u8> {
    let mut places: Vec<usize> = attributes.iter().map(|_| rng.below(crowd.len() - 4)).collect();
    places.sort_unstable();
    // All are different.
    for (nth, place) in places.iter_mut().enumerate() {
        *place = *place / 3 * 3 + nth + 1;
    }
    let again = crowd[places[0]].clone();
    for (&place, &attributes) in places.iter().zip(attributes) {
        crowd[place].clone_from(&again);
        groups[place - 1] = attributes;
    }
    again
}

/// A confined user asks, who has all rights but for the confinement.
fn confined(rng: &mut Rng, family: &Family, mut crowd: Vec<Vec<u8>>) -> Question {
    let place = 1 + rng.below(crowd.len() - 1);
    crowd[place] = people::all_restricted();
    let named = several(rng, family, &crowd);
    let entries = Entries::new(rng, &named);
    let user = make::sid(21, &[21, 21]);
    let capabilities: Vec<&[u8]> = crowd[1..].iter().map(Vec::as_slice).collect();
    // Groups do not count in confinement.
    let token = Token::of(&user)
        .group(&named[named.len() - 1], 4)
        .group(rng.pick::<Vec<u8>>(&named), 0x10)
        .confined(&crowd[0], &capabilities);
    let mut list = vec![make::allow(ALL, &user)];
    list.extend(entries.made);
    if entries.are_denies {
        list.push(make::allow(ALL, &crowd[0]));
    }
    let mut question = about(rng, &token, &named, entries.kind);
    question.descriptor =
        Descriptor::owned_by(rng.pick::<Vec<u8>>(&named)).dacl(&make::acl(&list)).bytes();
    question
}

const ALL: u32 = 0x1000_0000;

/// A question by this token for all that there is, without a descriptor.
fn about(rng: &mut Rng, token: &Token, named: &[Vec<u8>], kind: u32) -> Question {
    Question {
        kind,
        mask: 0x0200_0000,
        token: token.record(),
        self_id: rng.pick(named).clone(),
        descriptor: vec![],
        policy: vec![],
    }
}

/// The first, the last and others of a crowd, a stranger of its family, and strangers who are like
/// one of it in each way. The last of these is a stranger.
fn several(rng: &mut Rng, family: &Family, crowd: &[Vec<u8>]) -> Vec<Vec<u8>> {
    let mut all = vec![crowd[0].clone(), crowd[crowd.len() - 1].clone()];
    all.push(rng.pick(crowd).clone());
    all.push(crowd[crowd.len() / 2].clone());
    for how in UNLIKE {
        let stranger = unlike(rng, one_of(crowd, all.len()), how);
        if !crowd.contains(&stranger) && !is_virtual(&stranger) {
            all.push(stranger);
        }
    }
    all.push(family.member(crowd.len() + rng.below(100)));
    all
}

/// One of the crowd for each number: its ends, and others.
fn one_of(crowd: &[Vec<u8>], number: usize) -> &[u8] {
    &crowd[number * 37 % crowd.len()]
}

fn is_virtual(sid: &[u8]) -> bool {
    sid == people::owner_rights() || sid == people::principal_self()
}

/// Rights of which no owner has one by himself.
const RIGHTS: [&[u32]; 2] = [
    &[1, 2, 4, 8, 0x10, 0x20, 0x40, 0x80, 0x100, 0x1_0000, 0x8_0000, 0x10_0000],
    &[1, 2, 4, 8, 0x10, 0x20, 0x1_0000, 0x8_0000],
];

/// Entries for some, each with a right of its own: all allow or all deny.
struct Entries {
    kind: u32,
    are_denies: bool,
    made: Vec<Vec<u8>>,
}

impl Entries {
    fn new(rng: &mut Rng, named: &[Vec<u8>]) -> Entries {
        let kind = rng.of(&[1, 1, 2]);
        let are_denies = rng.one_in(2);
        let mut sids = named.to_vec();
        sids.push(people::principal_self());
        if rng.one_in(2) {
            sids.push(people::owner_rights());
        }
        for last in (1..sids.len()).rev() {
            sids.swap(last, rng.below(last + 1));
        }
        let rights = RIGHTS[kind as usize - 1];
        let made = sids.iter().zip(rights).map(|(sid, &right)| {
            let spare = if rng.one_in(6) { 4 * (1 + rng.below(4)) } else { 0 };
            make::long_entry(u8::from(are_denies), 0, right, sid, &vec![0xFF; spare])
        });
        let made = made.collect();
        Entries { kind, are_denies, made }
    }
}

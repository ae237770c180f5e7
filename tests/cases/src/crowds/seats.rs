//! Tokens that just fill a table of seats, or just do not, and tokens of which some identities have
//! one key and the others have not. The key is that by which the library finds identities.
//!
//! Identities have numbers here: the user or the package is number 1, and the others follow.

use super::{about, Entries, ALL};
use crate::key::key;
use crate::make::{self, Descriptor, Question, Rule, Token};
use crate::people;
use crate::random::Case;
use crate::rng::Rng;

/// What kind of a token.
#[derive(Clone, Copy, Debug, PartialEq, Eq)]
pub struct Aim {
    /// Whether it is about the package and the capabilities.
    pub confined: bool,
    pub shape: Shape,
}

#[derive(Clone, Copy, Debug, PartialEq, Eq)]
pub enum Shape {
    /// So many groups, and so many capabilities; if these are none it is not confined.
    Full { groups: usize, capabilities: usize },
    /// Three have one key, from this number on and so far from each other. All others have others.
    Chain { first: usize, steps: [usize; 2] },
    /// So many identities. Those at every such step have one key, from number 1 on.
    Ladder { size: usize, step: usize },
    /// One is listed with both attributes, from this number on and so far from itself. Behind it,
    /// as far again, there may be another one of its key.
    Twice { first: usize, step: usize, attributes: [u32; 2], behind: bool },
}

impl Shape {
    /// The numbers of those who have one key.
    pub fn numbers(self) -> Vec<usize> {
        match self {
            Shape::Full { .. } => vec![],
            Shape::Chain { first, steps: [a, b] } => vec![first, first + a, first + a + b],
            Shape::Ladder { size, step } => (1..=size).step_by(step).collect(),
            Shape::Twice { first, step, behind, .. } => {
                (first..).step_by(step).take(2 + usize::from(behind)).collect()
            }
        }
    }
}

/// The steps of a chain, about the 16 from which on they are taken one by one.
pub const STEPS: [usize; 4] = [1, 15, 16, 17];

const GROUPS: [usize; 10] = [29, 30, 31, 32, 125, 126, 127, 128, 255, 256];
const GROUPS_BESIDE: [usize; 6] = [2, 30, 31, 126, 127, 256];
const CAPABILITIES: [usize; 6] = [29, 30, 31, 32, 63, 64];

pub fn aims() -> Vec<Aim> {
    let mut all = Vec::new();
    for confined in [false, true] {
        let shapes = [full(confined), chains(), ladders(confined), twice(confined)];
        all.extend(shapes.into_iter().flatten().map(|shape| Aim { confined, shape }));
    }
    all
}

fn full(confined: bool) -> Vec<Shape> {
    let mut all = Vec::new();
    if !confined {
        for capabilities in [0, 1] {
            all.extend(GROUPS.map(|groups| Shape::Full { groups, capabilities }));
        }
    }
    for groups in GROUPS_BESIDE {
        all.extend(CAPABILITIES.map(|capabilities| Shape::Full { groups, capabilities }));
    }
    all
}

fn chains() -> Vec<Shape> {
    let mut all = Vec::new();
    for first in 1..=5 {
        for a in STEPS {
            all.extend(STEPS.map(|b| Shape::Chain { first, steps: [a, b] }));
        }
    }
    all
}

fn ladders(confined: bool) -> Vec<Shape> {
    let size = most(confined);
    let mut all = vec![Shape::Ladder { size: 21, step: 1 }];
    all.extend(STEPS.map(|step| Shape::Ladder { size, step }));
    all
}

/// The first of the attributes says nothing if the user has them. Capabilities have none.
fn twice(confined: bool) -> Vec<Shape> {
    const GROUP: [[u32; 2]; 4] = [[0x10, 4], [4, 0x10], [0, 4], [4, 0]];
    const USER: [[u32; 2]; 2] = [[4, 0x10], [4, 0]];
    let mut all = Vec::new();
    for first in if confined { 1..1 } else { 1..4 } {
        let pairs: &[[u32; 2]] = if first == 1 { &USER } else { &GROUP };
        for &attributes in pairs {
            for behind in [false, true] {
                all.extend(STEPS.map(|step| Shape::Twice { first, step, attributes, behind }));
            }
        }
    }
    all
}

/// How many identities there are at most.
fn most(confined: bool) -> usize {
    if confined {
        65
    } else {
        257
    }
}

/// The aim of one turn.
pub fn aim(turn: u64) -> Aim {
    thread_local! {
        static AIMS: Vec<Aim> = aims();
    }
    AIMS.with(|aims| aims[(turn % aims.len() as u64) as usize])
}

/// The case of one turn.
pub fn case(rng: &mut Rng, turn: u64) -> Case {
    let Aim { confined, shape } = aim(turn);
    let kin = Kin::new(rng, confined, shape);
    let mut crowd = kin.crowd(rng, confined, shape);
    let mut attributes: Vec<u32> = crowd.iter().map(|_| rng.of(&[4, 4, 7, 0x10, 0])).collect();
    let numbers = shape.numbers();
    for number in numbers.iter().copied().chain([crowd.len()]) {
        attributes[number - 1] = 4;
    }
    if let Shape::Twice { first, step, attributes: both, .. } = shape {
        crowd[first + step - 1] = crowd[first - 1].clone();
        attributes[first - 1] = both[0];
        attributes[first + step - 1] = both[1];
    }
    let named = named(rng, &kin, &crowd, &numbers);
    let beside = beside(rng, confined, shape);
    let question = if confined {
        confined_question(rng, &named, &crowd, beside)
    } else {
        normal_question(rng, &named, &crowd, &attributes, beside)
    };
    Case::Check(question)
}

/// Those who have one key, and those who have not.
struct Kin {
    key: usize,
    /// If they differ in the first of these words alone.
    alike: Option<Vec<u32>>,
    /// If half of those who have not the key differ in all words nevertheless.
    mixed: bool,
}

impl Kin {
    fn new(rng: &mut Rng, confined: bool, shape: Shape) -> Kin {
        let required = key(&people::all_restricted());
        let all_of_one_key = matches!(shape, Shape::Ladder { step: 1, .. });
        let mut one = required;
        while !(confined && all_of_one_key) && one == required {
            one = key(&make::sid(5, &[rng.u32(), rng.u32()]));
        }
        let alike = rng.one_in(2).then(|| some_words(rng));
        Kin { key: one, alike, mixed: rng.one_in(2) }
    }

    fn words(&self, rng: &mut Rng) -> Vec<u32> {
        self.alike.clone().unwrap_or_else(|| some_words(rng))
    }

    /// One of the key.
    fn member(&self, rng: &mut Rng) -> Vec<u8> {
        let words = self.words(rng);
        with_first(rng, &words, |other| other == self.key)
    }

    /// One of another key.
    fn other(&self, rng: &mut Rng) -> Vec<u8> {
        let apart = self.mixed && rng.one_in(2);
        let words = if apart { some_words(rng) } else { self.words(rng) };
        with_first(rng, &words, |other| other != self.key)
    }

    /// All identities. Those with these numbers have the key.
    fn crowd(&self, rng: &mut Rng, confined: bool, shape: Shape) -> Vec<Vec<u8>> {
        let numbers = shape.numbers();
        let size = size(rng, confined, shape);
        let mut all: Vec<Vec<u8>> = (1..=size)
            .map(
                |number| if numbers.contains(&number) { self.member(rng) } else { self.other(rng) },
            )
            .collect();
        if confined {
            let of_one_key = numbers.len() == size;
            let free = |number: &usize| of_one_key || !numbers.contains(number);
            // The last has its seat, unless there is no other.
            let mut places: Vec<usize> = (2..size).filter(free).collect();
            if places.is_empty() {
                places.push(size);
            }
            all[rng.of(&places) - 1] = people::all_restricted();
        }
        all
    }
}

fn some_words(rng: &mut Rng) -> Vec<u32> {
    let length = rng.of(&[2, 3, 4, 5, 5, 5, 8, 15]);
    (0..length).map(|_| rng.u32()).collect()
}

/// Somebody with these words but for the first, and a key that fits.
fn with_first(rng: &mut Rng, words: &[u32], fits: impl Fn(usize) -> bool) -> Vec<u8> {
    let mut sid = make::sid(5, words);
    loop {
        sid[8..12].copy_from_slice(&rng.u32().to_le_bytes());
        if fits(key(&sid)) {
            return sid;
        }
    }
}

/// Somebody who has the key and all words but the first of one who has at least two.
fn nearly(rng: &mut Rng, one: &[u8]) -> Vec<u8> {
    let words: Vec<u32> = make::numbers_of(one)[2..].iter().map(|&word| word as u32).collect();
    with_first(rng, &words, |other| other == key(one))
}

/// How many identities there are: often no more than have to be.
fn size(rng: &mut Rng, confined: bool, shape: Shape) -> usize {
    let least = match shape {
        Shape::Full { groups, .. } if !confined => return 1 + groups,
        Shape::Full { capabilities, .. } => return 1 + capabilities,
        Shape::Ladder { size, .. } => return size,
        // One more, for the capability that has to be there.
        Shape::Chain { .. } | Shape::Twice { .. } => {
            shape.numbers().last().map_or(1, |&last| last + usize::from(confined))
        }
    };
    let spare = rng.of(&[0, 0, 1, 3, 20, 250]);
    (least + spare).min(most(confined))
}

/// How many groups or capabilities there are besides.
fn beside(rng: &mut Rng, confined: bool, shape: Shape) -> usize {
    match shape {
        Shape::Full { groups, .. } if confined => groups,
        Shape::Full { capabilities, .. } => capabilities,
        _ if confined => rng.of(&[0, 2, 30, 31, 126, 127, 256]),
        _ => rng.of(&[0, 0, 0, 1, 30, 31, 64]),
    }
}

/// Whom the entries name: first, last and others of those who have one key, or of all; strangers
/// who have the key, and a last word besides; and one of the others.
fn named(rng: &mut Rng, kin: &Kin, crowd: &[Vec<u8>], numbers: &[usize]) -> Vec<Vec<u8>> {
    let one_key = !numbers.is_empty();
    let all: Vec<&Vec<u8>> = if one_key {
        numbers.iter().map(|number| &crowd[number - 1]).collect()
    } else {
        crowd.iter().collect()
    };
    let between = if all.len() == 3 { 1 } else { rng.below(all.len()) };
    let mut named: Vec<Vec<u8>> =
        [0, between, all.len() - 1].into_iter().map(|at| all[at].clone()).collect();
    let like = rng.of(&[0, between, all.len() - 1]);
    named.push(nearly(rng, all[like]));
    named.push(if one_key { kin.member(rng) } else { kin.other(rng) });
    named.push(rng.pick(crowd).clone());
    named
}

/// The user and the groups ask, who have all rights but for these if they are confined.
fn normal_question(
    rng: &mut Rng,
    named: &[Vec<u8>],
    crowd: &[Vec<u8>],
    attributes: &[u32],
    capabilities: usize,
) -> Question {
    let mut token = Token::of(&crowd[0]);
    token.groups = crowd[1..].iter().cloned().zip(attributes[1..].iter().copied()).collect();
    let package = make::sid(15, &[2, 9]);
    if capabilities > 0 {
        let mut all: Vec<Vec<u8>> =
            (1..capabilities as u32).map(|number| make::sid(15, &[3, number])).collect();
        all.insert(rng.below(capabilities), people::all_restricted());
        let all: Vec<&[u8]> = all.iter().map(Vec::as_slice).collect();
        token = token.confined(&package, &all);
        if rng.one_in(4) {
            token = token.exempt();
        }
    }
    question(rng, &token, named, &package, &crowd[0])
}

/// A confined user asks, who has all rights but for the confinement.
fn confined_question(
    rng: &mut Rng,
    named: &[Vec<u8>],
    crowd: &[Vec<u8>],
    groups: usize,
) -> Question {
    let user = make::sid(21, &[21, 21]);
    let capabilities: Vec<&[u8]> = crowd[1..].iter().map(Vec::as_slice).collect();
    let mut token = Token::of(&user).confined(&crowd[0], &capabilities);
    token.groups = (0..groups as u32)
        .map(|number| (make::sid(21, &[22, number]), rng.of(&[4, 0x10])))
        .collect();
    question(rng, &token, named, &user, &crowd[0])
}

/// The entries, behind one by which the other walk allows all. If they deny, the first of the crowd
/// has all that they leave.
fn question(
    rng: &mut Rng,
    token: &Token,
    named: &[Vec<u8>],
    otherwise: &[u8],
    first: &[u8],
) -> Question {
    let entries = Entries::new(rng, named);
    let mut list = vec![make::allow(ALL, otherwise)];
    list.extend(entries.made);
    if entries.are_denies {
        list.push(make::allow(ALL, first));
    }
    let list = make::acl(&list);
    let mut question = about(rng, token, named, entries.kind);
    let owner = Descriptor::owned_by(rng.pick::<Vec<u8>>(named));
    let is_confined = token.confinement.is_some();
    if !is_confined && rng.one_in(4) {
        question.descriptor = owner.bytes();
        question.policy = make::policy(&[Rule::of(&list)]);
    } else {
        question.descriptor = owner.dacl(&list).bytes();
    }
    question
}

#[cfg(test)]
mod tests {
    use super::*;

    #[test]
    fn those_who_should_have_one_key_have_it() {
        for (turn, Aim { confined, shape }) in aims().into_iter().enumerate() {
            let rng = &mut Rng::new(1, turn as u64);
            let kin = Kin::new(rng, confined, shape);
            let crowd = kin.crowd(rng, confined, shape);
            let numbers: Vec<usize> =
                (1..=crowd.len()).filter(|&number| key(&crowd[number - 1]) == kin.key).collect();
            let is_full = matches!(shape, Shape::Full { .. });
            assert!(is_full || numbers == shape.numbers(), "{shape:?}");
            assert!(crowd.len() <= most(confined), "{shape:?}");
        }
    }

    #[test]
    fn nearly_one_is_not_one() {
        for number in 0..200 {
            let rng = &mut Rng::new(2, number);
            let words = some_words(rng);
            let one = make::sid(5, &words);
            let stranger = nearly(rng, &one);
            assert_ne!(stranger, one);
            assert_eq!(key(&stranger), key(&one));
            assert_eq!(stranger[12..], one[12..]);
        }
    }
}

//! Questions in which a condition is refused, and nothing else is: it is broken, or has another
//! token. The entry may be a stranger's or inherit-only, and the rule may not apply.

mod made;
mod shapes;

use super::cast::Cast;
use super::place::Pass;
use super::whole;
use crate::expressions::{self, callback};
use crate::make::{self, Descriptor, Question, Rule};
use crate::rng::Rng;
pub use shapes::{Shape, SHAPES};

/// Where the condition stands.
#[derive(Clone, Copy, Debug, PartialEq, Eq)]
pub enum Spot {
    Descriptor,
    Effective,
    Staged,
    AppliesTo,
}

pub const SPOTS: [Spot; 4] = [Spot::Descriptor, Spot::Effective, Spot::Staged, Spot::AppliesTo];

/// Two conditions, of which one is broken and the other has another token.
#[derive(Clone, Copy, Debug, PartialEq, Eq)]
pub struct Pair {
    pub spots: [Spot; 2],
    /// The first is the broken one.
    pub broken_first: bool,
    /// They stand in two rules.
    pub apart: bool,
}

const fn pair(first: Spot, second: Spot, broken_first: bool, apart: bool) -> Pair {
    Pair { spots: [first, second], broken_first, apart }
}

pub const PAIRS: [Pair; 14] = [
    pair(Spot::Descriptor, Spot::Descriptor, false, false),
    pair(Spot::Descriptor, Spot::Descriptor, true, false),
    pair(Spot::Effective, Spot::Effective, false, false),
    pair(Spot::Effective, Spot::Effective, true, false),
    pair(Spot::Effective, Spot::Staged, false, false),
    pair(Spot::Effective, Spot::Staged, true, false),
    pair(Spot::AppliesTo, Spot::Effective, false, false),
    pair(Spot::AppliesTo, Spot::Effective, true, false),
    pair(Spot::AppliesTo, Spot::Staged, false, false),
    pair(Spot::AppliesTo, Spot::Staged, true, false),
    pair(Spot::AppliesTo, Spot::AppliesTo, false, true),
    pair(Spot::AppliesTo, Spot::AppliesTo, true, true),
    pair(Spot::Staged, Spot::Effective, false, true),
    pair(Spot::Staged, Spot::Effective, true, true),
];

impl Shape {
    /// Whether it can stand there: no bytes at all are no condition, but an applies_to for all.
    pub fn stands_in(self, spot: Spot) -> bool {
        self != Shape::NoBytes || spot != Spot::AppliesTo
    }
}

/// A question with one such condition.
pub fn question(rng: &mut Rng, shape: Shape, spot: Spot) -> Question {
    let cast = Cast::new(rng, Pass::Normal);
    let condition = made::condition(rng, shape, spot != Spot::AppliesTo, &cast);
    let mut parts = Parts::new(rng, &cast);
    parts.put(rng, &cast, spot, 0, condition);
    parts.question(rng, &cast)
}

/// A question with two of them.
pub fn two(rng: &mut Rng, pair: Pair) -> Question {
    let cast = Cast::new(rng, Pass::Normal);
    let mut parts = Parts::new(rng, &cast);
    for (number, spot) in pair.spots.into_iter().enumerate() {
        let is_broken = pair.broken_first == (number == 0);
        let all = SHAPES.iter().filter(|shape| shape.is_broken() == is_broken);
        let all: Vec<Shape> = all.copied().filter(|shape| shape.stands_in(spot)).collect();
        let shape = rng.of(&all);
        let condition = made::condition(rng, shape, spot != Spot::AppliesTo, &cast);
        let rule = usize::from(pair.apart && number == 1);
        parts.put(rng, &cast, spot, rule, condition);
    }
    parts.question(rng, &cast)
}

/// The lists of a question, of which each part is accepted by itself.
struct Parts {
    dacl: Vec<Vec<u8>>,
    rules: [Lists; 2],
}

#[derive(Default)]
struct Lists {
    applies_to: Vec<u8>,
    effective: Vec<Vec<u8>>,
    staged: Vec<Vec<u8>>,
}

impl Parts {
    fn new(rng: &mut Rng, cast: &Cast) -> Parts {
        let mut parts = Parts { dacl: Vec::new(), rules: [Lists::default(), Lists::default()] };
        let list = |rng: &mut Rng| (0..rng.below(3)).map(|_| entry(rng, cast, None)).collect();
        parts.dacl = list(rng);
        for lists in &mut parts.rules {
            lists.effective = list(rng);
            lists.staged = list(rng);
            lists.applies_to = match rng.below(4) {
                0 => expressions::never(),
                1 => whole::whole(rng, &|rng| cast.someone(rng)),
                _ => Vec::new(),
            };
        }
        parts
    }

    /// Puts a condition behind all others of its list.
    fn put(&mut self, rng: &mut Rng, cast: &Cast, spot: Spot, rule: usize, condition: Vec<u8>) {
        let lists = &mut self.rules[rule];
        match spot {
            Spot::Descriptor => self.dacl.push(entry(rng, cast, Some(condition))),
            Spot::Effective => lists.effective.push(entry(rng, cast, Some(condition))),
            Spot::Staged => lists.staged.push(entry(rng, cast, Some(condition))),
            Spot::AppliesTo => lists.applies_to = condition,
        }
    }

    fn question(self, rng: &mut Rng, cast: &Cast) -> Question {
        let rules = self.rules.map(|lists| {
            Rule::of(&make::acl(&lists.effective))
                .staged(&make::acl(&lists.staged))
                .applies_to(&lists.applies_to)
        });
        let mut descriptor = Descriptor::owned_by(&cast.owner).dacl(&make::acl(&self.dacl));
        if rng.one_in(6) {
            // In a SACL no body is judged.
            descriptor = descriptor.sacl(&make::acl(&self.dacl));
        }
        Question {
            kind: 1 + rng.below(2) as u32,
            mask: rng.of(&[0, 1, 7, 0x8000_0000, 0x0200_0000]),
            token: cast.token.record(),
            self_id: cast.self_id.clone(),
            descriptor: descriptor.bytes(),
            policy: make::policy(&rules),
        }
    }
}

/// An entry with this condition, or one that is accepted.
fn entry(rng: &mut Rng, cast: &Cast, condition: Option<Vec<u8>>) -> Vec<u8> {
    let kind = rng.of(&[expressions::ALLOW, expressions::DENY]);
    let flags = rng.of(&[0, 0, 0x08, 0x1B, 0x10]);
    let mask = rng.of(&[0, 1, 7, 0x1000_0000, u32::MAX]);
    let who = if rng.one_in(3) { cast.stranger.clone() } else { cast.someone(rng) };
    match condition {
        Some(condition) => callback(kind, flags, mask, &who, &condition),
        None if rng.one_in(2) => {
            let condition = whole::whole(rng, &|rng| cast.someone(rng));
            callback(kind, flags, mask, &who, &condition)
        }
        None => make::entry(rng.of(&[0, 1]), flags, mask, &who),
    }
}

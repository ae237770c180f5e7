//! Questions about conditions: of callback entries in each kind of DACL, and of rules that apply to
//! some callers.
//!
//! Either the answer hangs on what one condition says (`truths`), or a condition is refused and
//! nothing else is (`faults`).

mod cast;
pub mod faults;
pub mod long;
mod place;
pub mod truths;
mod whole;

use crate::make::Question;
use crate::random::Case;
use crate::rng::Rng;
pub(crate) use cast::Cast;
pub use place::{Pass, Place, PASSES};
pub use whole::{spoiled, whole};

/// What a case is about.
#[derive(Clone, Copy, Debug, PartialEq, Eq)]
pub enum Aim {
    /// The answer hangs on a condition like this.
    Truth(truths::Row, Place),
    /// A condition like this is refused.
    Fault(faults::Shape, faults::Spot),
    /// Two conditions are refused, one for each reason.
    Two(faults::Pair),
    /// A condition is as long as it gets.
    Long(long::Row),
}

pub fn aims() -> Vec<Aim> {
    let mut all = Vec::new();
    for row in truths::ROWS {
        all.extend(row.places().into_iter().map(|place| Aim::Truth(row, place)));
    }
    for shape in faults::SHAPES {
        all.extend(faults::SPOTS.map(|spot| Aim::Fault(shape, spot)));
    }
    all.retain(|aim| !matches!(aim, Aim::Fault(shape, spot) if !shape.stands_in(*spot)));
    all.extend(faults::PAIRS.map(Aim::Two));
    all.extend(long::ROWS.map(Aim::Long));
    all
}

/// The aim of one turn.
pub fn aim(turn: u64) -> Aim {
    thread_local! {
        static AIMS: Vec<Aim> = aims();
    }
    AIMS.with(|aims| aims[(turn % aims.len() as u64) as usize])
}

/// The case of one turn.
pub fn case(rng: &mut Rng, turn: u64) -> Case {
    let question: Question = match aim(turn) {
        Aim::Truth(row, place) => truths::question(rng, row, place),
        Aim::Fault(shape, spot) => faults::question(rng, shape, spot),
        Aim::Two(pair) => faults::two(rng, pair),
        Aim::Long(row) => long::question(rng, row),
    };
    Case::Check(question)
}

//! Conditions: where the answer hangs on one, where one is refused and nothing else is, and the same
//! question with other conditions in strangers' entries.

mod faults;
mod holds;
mod spots;
mod tokens;
mod truths;
mod twin;

#[cfg(test)]
mod tests;

pub use faults::is_stranger;
pub use twin::twin;

use holds::{holds, Set};

use pirasteh_cases::conditions::faults::{Spot, SPOTS};
use pirasteh_cases::conditions::truths::Row;
use pirasteh_cases::conditions::{aim, aims, long, Aim, Pass, Place};
use pirasteh_cases::make::Question;
use pirasteh_reference::Verdict;

/// How often each was reached.
pub struct Table {
    /// The aims of `cases`, in their order.
    aims: Vec<u64>,
    /// Refused conditions in entries that say nothing: broken ones and those with another token, in
    /// each kind of place.
    idle: [[[u64; 4]; faults::IDLE.len()]; 2],
}

impl Default for Table {
    fn default() -> Table {
        Table { aims: vec![0; aims().len()], idle: Default::default() }
    }
}

impl Table {
    /// Adds the question of one turn.
    pub fn add(&mut self, turn: u64, q: &Question, expected: &Result<Verdict, u32>) {
        let aim = aim(turn);
        if self.is(aim, q, expected) {
            let place = (turn % self.aims.len() as u64) as usize;
            self.aims[place] += 1;
        }
    }

    fn is(&mut self, aim: Aim, q: &Question, expected: &Result<Verdict, u32>) -> bool {
        match (aim, *expected) {
            (Aim::Truth(row, place), Ok(answer)) => truths::is_row(row, place, q, answer),
            (Aim::Fault(shape, spot), Err(number)) => {
                number == faults::number(spot, shape.is_broken())
                    && self.is_fault(q, spot, shape.is_broken())
            }
            (Aim::Two(pair), Err(_)) => faults::is_pair(q, pair),
            (Aim::Long(row), _) => is_long(row, q, expected),
            _ => false,
        }
    }

    fn is_fault(&mut self, q: &Question, spot: Spot, broken: bool) -> bool {
        let Some(found) = faults::only_cause(q, spot) else { return false };
        let times = &mut self.idle[usize::from(!broken)];
        for (times, here) in times.iter_mut().zip(faults::idle(q, &found)) {
            times[spot as usize] += u64::from(here);
        }
        true
    }

    /// What should have been reached and was not.
    pub fn unreached(&self) -> Vec<String> {
        let none = aims().into_iter().zip(&self.aims).filter(|(_, &times)| times == 0);
        let mut all: Vec<String> = none.map(|(aim, _)| format!("a condition: {aim:?}")).collect();
        for (fault, rows) in FAULTS.iter().zip(&self.idle) {
            for (name, times) in faults::IDLE.iter().zip(rows) {
                for spot in SPOTS.into_iter().filter(|&spot| can_be_idle(name, spot)) {
                    if times[spot as usize] == 0 {
                        all.push(format!("{fault} {name}: {spot:?}"));
                    }
                }
            }
        }
        all
    }

    pub fn print(&self) {
        println!("  conditions: how often each aim was reached, the least of all its places:");
        let mut lines: Vec<(String, u64)> = Vec::new();
        for (aim, &times) in aims().iter().zip(&self.aims) {
            let name = match aim {
                Aim::Truth(Row::Operands(count), _) => {
                    format!("the answer hangs on it, {count} operands at once")
                }
                Aim::Truth(row, _) => format!("the answer hangs on it, {row:x?}"),
                Aim::Fault(shape, _) => format!("it alone is refused, {shape:?}"),
                Aim::Two(_) => "two are refused, in all orders and places".into(),
                Aim::Long(_) => "as long as it gets".into(),
            };
            match lines.last_mut() {
                Some((last, least)) if *last == name => *least = times.min(*least),
                _ => lines.push((name, times)),
            }
        }
        for (name, least) in lines {
            println!("  {least:9}  {name}");
        }
        for (fault, rows) in FAULTS.iter().zip(&self.idle) {
            for (name, [descriptor, effective, staged, _]) in faults::IDLE.iter().zip(rows) {
                println!("  {descriptor:9} {effective:9} {staged:9}  {fault} {name}");
            }
        }
    }
}

/// Whether a rule with this applies_to applies to the asker.
pub fn holds_for(q: &Question, applies_to: &[u8]) -> bool {
    applies_to.is_empty() || holds(q, Set::Normal, applies_to) == Some(true)
}

const FAULTS: [&str; 2] = ["a broken condition", "another token"];

/// No rule stands around the descriptor's list, and no entry around an applies_to.
fn can_be_idle(name: &str, spot: Spot) -> bool {
    match spot {
        Spot::AppliesTo => false,
        Spot::Descriptor => name != faults::IDLE[2],
        _ => true,
    }
}

/// Whether a condition has the length of the row, and the answer hangs on it, or on that length.
fn is_long(row: long::Row, q: &Question, expected: &Result<Verdict, u32>) -> bool {
    let all = spots::of(q);
    match (row, *expected) {
        (long::Row::AppliesTo(length), _) if length > long::LONGEST => {
            // With one zero less it is accepted.
            let mut all = all.iter().filter(|spot| spot.condition.len() == length);
            all.any(|spot| {
                let less = spot.says(q, &spot.condition[..length - 1]);
                *expected == Err(9) && less.is_some_and(|said| said.is_ok())
            })
        }
        (long::Row::AppliesTo(length), Ok(answer)) => {
            let mut all = all.iter().filter(|spot| spot.condition.len() == length);
            all.any(|spot| hangs_somehow(Pass::AppliesTo, q, spot, answer))
        }
        (long::Row::Listed(pass), Ok(answer)) => {
            let mut all = all.iter().filter(|spot| spot.condition.len() > 60_000);
            all.any(|spot| hangs_somehow(pass, q, spot, answer))
        }
        _ => false,
    }
}

fn hangs_somehow(pass: Pass, q: &Question, spot: &spots::Spot, answer: Verdict) -> bool {
    let mut places = [false, true].into_iter().map(|second| Place { pass, second });
    places.any(|place| truths::hangs(place, q, spot, answer).is_some())
}

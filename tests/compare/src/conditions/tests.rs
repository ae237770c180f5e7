use super::*;
use crate::children::{answer, ask};
use pirasteh_cases::random::{about, case, About, Case};
use pirasteh_cases::Rng;

fn questions(seed: u64, count: u64) -> impl Iterator<Item = (u64, Question)> {
    (0..count).filter_map(move |number| match case(seed, number) {
        Case::Check(q) => Some((number, q)),
        _ => None,
    })
}

#[test]
fn all_are_reached_by_the_cases_about_them() {
    let mut table = Table::default();
    let is_about = |number: &u64| match about(*number) {
        Some(About::Conditions(turn)) => Some(turn),
        _ => None,
    };
    let numbers = (0..).filter(|number| is_about(number).is_some());
    for number in numbers.take(40 * aims().len()) {
        let Case::Check(q) = case(3, number) else { panic!("case {number} is no question") };
        table.add(is_about(&number).unwrap_or_default(), &q, &ask(&q));
    }
    assert_eq!(table.unreached(), [""; 0]);
}

#[test]
fn a_twin_has_the_same_answer_and_other_strangers_entries() {
    let mut twins = [0; 3];
    for (number, q) in questions(3, 40_000) {
        let before = answer(&q);
        if before.is_err() {
            continue;
        }
        if let Some((twin, way)) = twin(&q, &mut Rng::new(4, number)) {
            twins[way as usize] += 1;
            assert_eq!(answer(&twin), before, "case {number} of seed 3");
        }
    }
    assert!(twins.iter().all(|&times| times > 300), "only {twins:?}");
}

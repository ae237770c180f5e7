//! The rows of the check.

use crate::ask::{by_plain, library, same_answers};
use crate::floor;
use crate::hard::{self, Shared};
use crate::inputs::Input;
use crate::named::Named;
use crate::sheet::{self, Sheet};
use crate::timing::{keep, timed, Timed};
use std::hint::black_box;

pub fn table(sheet: &mut Sheet) {
    heading("named");
    for entries in [8, 500, 3000] {
        for identities in [1, 21, 257] {
            for named in [Named::Strangers, Named::First] {
                for rules in [0, 32] {
                    rows(sheet, &Input::new(entries, identities, named, rules), &[1, 40]);
                }
            }
        }
    }
}

pub fn small(sheet: &mut Sheet) {
    heading("named");
    for entries in [1, 4, 8, 12, 32] {
        for identities in [1, 5, 21, 64] {
            for named in [Named::Strangers, Named::Last, Named::First] {
                for rules in [0, 4] {
                    rows(sheet, &Input::new(entries, identities, named, rules), &[1]);
                }
            }
        }
    }
}

pub fn hard(sheet: &mut Sheet) {
    strangers(sheet, &hard::ALL);
}

pub fn long(sheet: &mut Sheet) {
    strangers(sheet, &hard::LONG);
}

fn strangers(sheet: &mut Sheet, shared: &[Shared]) {
    heading("shared");
    for &shared in shared {
        for identities in [21, 257] {
            rows(sheet, &Input::hard(shared, 500, identities), &[1]);
        }
    }
}

pub fn policy(sheet: &mut Sheet) {
    heading("shared");
    for shared in hard::IN_POLICIES {
        for identities in [21, 257] {
            rows(sheet, &Input::large_policy(shared, identities), &[1]);
        }
    }
}

pub fn spare(sheet: &mut Sheet) {
    heading("spare");
    rows(sheet, &Input::new(500, 21, Named::Long(4), 0), &[1, 40]);
    rows(sheet, &Input::new(60, 21, Named::Long(980), 0), &[1]);
}

pub fn owner(sheet: &mut Sheet) {
    heading("flags");
    for flags in [0x08, 0] {
        rows(sheet, &Input::new(500, 21, Named::Owner(flags), 0), &[1]);
    }
}

pub fn heading(third: &str) {
    sheet::heading(&front(["entries", "identities", third, "rules", "calls"]));
}

fn front([entries, identities, third, rules, calls]: [&str; 5]) -> String {
    format!("{entries:>7} {identities:>10}  {third:23} {rules:>5} {calls:>5}")
}

/// A row for each number of calls.
pub fn rows(sheet: &mut Sheet, input: &Input, calls: &[usize]) {
    same_answers(input);
    calls.iter().for_each(|&calls| row(sheet, input, calls));
}

/// The library, the plain implementation and the floor, with so many masks one after the other.
fn row(sheet: &mut Sheet, input: &Input, calls: usize) {
    let masks = &input.masks[..calls];
    let times = timed([
        &mut || masks.iter().for_each(|&mask| keep(library(black_box(input), mask))),
        &mut || masks.iter().for_each(|&mask| keep(by_plain(black_box(input), mask))),
        &mut || masks.iter().for_each(|_| keep(scan(black_box(input)))),
    ]);
    put(sheet, input, calls, times);
}

/// Prints the row of an input.
pub fn put(sheet: &mut Sheet, input: &Input, calls: usize, times: [Timed; 3]) {
    let [entries, identities, rules, count] =
        [input.entries, input.identities, input.rules, calls].map(|n| n.to_string());
    let front = front([&entries, &identities, &input.third, &rules, &count]);
    sheet.row(&front, &input.name(calls), times);
}

pub fn scan(input: &Input) -> u64 {
    floor::scan(&input.token, &input.descriptor, &input.policy)
}

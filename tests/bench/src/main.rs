//! Times the library against a plain Rust implementation, on the same inputs and in one run.
//!
//!     bench [GROUP..]
//!
//! The words choose groups of rows (groups.rs); without words there are all. Each figure is the
//! middle of several runs, in which library, plain and floor take turns. Nothing passes or fails
//! by its time; the only thing that fails is an answer that differs.

mod ask;
mod checks;
mod conditions;
mod conversions;
mod floor;
mod groups;
mod hard;
mod inputs;
mod key;
mod large;
mod named;
mod people;
mod plain;
mod sheet;
mod timing;
mod trail;
mod why;

use groups::{Group, GROUPS};
use sheet::Sheet;
use std::process::exit;

fn main() {
    let words: Vec<String> = std::env::args().skip(1).collect();
    let groups = groups::chosen(&words).unwrap_or_else(|word| unknown(word));
    legend();
    let sheets: Vec<Sheet> = groups.into_iter().map(rows).collect();
    sheet::summary(&sheets);
}

fn unknown(word: &str) -> ! {
    let names = GROUPS.map(|group| group.name).join(", ");
    eprintln!("bench: there is no group of rows `{word}`; there are {names}");
    exit(2)
}

fn legend() {
    println!(
        "\
Microseconds for all calls of a row: the middle of {} runs, and their spread, (least-most).
plain: a plain Rust implementation written for speed, tests/bench/src/plain.rs.
floor: a bare scan over the same bytes, nothing judged or compared: the record's bytes once,
  each list from entry to entry by the sizes, with the last word of each entry added up, and
  the lists in the policy's sections likewise.
ratio: of the library's middle to that of plain Rust; to floor: to that of the floor.
",
        timing::RUNS
    );
}

/// Prints the rows of a group.
fn rows(group: &Group) -> Sheet {
    println!("{}: {}.", group.name, group.about);
    let mut sheet = Sheet::new(group.name);
    (group.rows)(&mut sheet);
    println!();
    sheet
}

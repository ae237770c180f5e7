//! Compares the library with the reference: on random cases, or on the cases of vector files.
//!
//!     compare [--count N] [--seed S] [--only I]
//!     compare vectors DIR
//!
//! The exit code is 0 if nothing differs, 1 if something does, 2 for a wrong command line.

mod children;
mod compare;
mod conditions;
mod crowds;
mod decided;
mod fence;
mod gained;
mod library;
mod lists;
mod numbers;
mod rooms;
mod sacls;
mod spare;
mod steps;
mod trails;
mod vectors;
mod who;

use std::env;
use std::process::exit;

const DEFAULT_COUNT: u64 = 1_000_000;
const DEFAULT_SEED: u64 = 1;

fn main() {
    let words: Vec<String> = env::args().skip(1).collect();
    let fine = match words.first().map(String::as_str) {
        Some("vectors") if words.len() == 2 => vectors::run(&words[1]),
        Some("vectors") => usage("`vectors` takes one directory"),
        _ => random(&words),
    };
    exit(if fine { 0 } else { 1 });
}

fn random(words: &[String]) -> bool {
    let (mut count, mut seed, mut only) = (DEFAULT_COUNT, DEFAULT_SEED, None);
    for pair in words.chunks(2) {
        let [name, value] = pair else { usage(&format!("`{}` takes a number", pair[0])) };
        let Ok(value) = value.parse() else { usage(&format!("`{value}` is not a number")) };
        match name.as_str() {
            "--count" => count = value,
            "--seed" => seed = value,
            "--only" => only = Some(value),
            _ => usage(&format!("`{name}` is not known")),
        }
    }
    match only {
        Some(number) => compare::one(seed, number),
        None => compare::many(seed, count),
    }
}

fn usage(what: &str) -> ! {
    eprintln!("compare: {what}");
    eprintln!("compare [--count N] [--seed S] [--only I]");
    eprintln!("compare vectors DIR");
    exit(2);
}

//! Questions that are refused for the shape of an audit entry and for nothing else.

use crate::conditions::holds_for;
use crate::lists::{self, Whose};
use crate::sacls::{self, Sacl};
use pirasteh_cases::make::Question;

/// Each has to be reached in each kind of SACL, but the last in the descriptor's.
const ROWS: [&str; 6] = [
    "its SID ends behind the entry, inside the list",
    "it is a header alone",
    "its SID has another revision, or too many words",
    "it is inherit-only",
    "it has neither flag",
    "it stands in a rule that does not apply",
];

const OF_RULES: usize = 5;

const COLUMNS: [&str; 3] = ["the descriptor's SACL", "an effective SACL", "a staged SACL"];

pub type Table = [[u64; 3]; ROWS.len()];

/// Whether an audit entry has no room for a mask and a SID.
fn is_misshapen(entry: &[u8]) -> bool {
    entry[0] == 2
        && (entry.len() < 16
            || entry[8] != 1
            || entry[9] > 15
            || entry.len() < 16 + 4 * usize::from(entry[9]))
}

/// The list with a type that is not read for each misshapen audit entry.
fn mended(sacl: &Sacl) -> Option<Vec<u8>> {
    if sacl.bytes.len() < 8 {
        return None;
    }
    let mut list = sacl.bytes.to_vec();
    for at in lists::entries(sacl.bytes)? {
        if is_misshapen(&sacl.bytes[at.clone()]) {
            list[at.start] = 3;
        }
    }
    Some(list)
}

/// Adds a question that is refused with this number.
pub fn add(q: &Question, number: u32, table: &mut Table) {
    if number != 6 && number != 9 {
        return;
    }
    let all = sacls::of(q);
    let part = |sacl: &Sacl| (sacl.whose == Whose::Descriptor) == (number == 6);
    let found = |sacl: &&Sacl| part(sacl) && mended(sacl).is_some_and(|list| list != sacl.bytes);
    let Some(sacl) = all.iter().find(found) else { return };
    // Alone: with another type it is accepted.
    let other = sacls::rewritten(q, |one| mended(one).filter(|_| part(one)));
    if other.is_none_or(|other| super::ask(&other).is_err()) {
        return;
    }
    let entries = sacl.entries();
    let mut bad = entries.iter().enumerate().filter(|(_, entry)| is_misshapen(entry));
    let Some((place, entry)) = bad.next() else { return };
    let behind: usize = entries[place..].iter().map(|entry| entry.len()).sum();
    let has_sid = entry.len() >= 16 && entry[8] == 1 && entry[9] <= 15;
    let sections = lists::sections(&q.policy).unwrap_or_default();
    let applies = number == 6 || holds_for(q, &q.policy[sections[5 * sacl.rule].clone()]);
    let rows = [
        has_sid && 16 + 4 * usize::from(entry[9]) <= behind,
        entry.len() == 4,
        entry.len() >= 16 && !has_sid,
        entry[1] & 0x08 != 0,
        entry[1] & 0xC0 == 0,
        !applies,
    ];
    for (times, here) in table.iter_mut().zip(rows) {
        times[sacl.whose as usize] += u64::from(here);
    }
}

pub fn unreached(table: &Table) -> Vec<String> {
    let mut all = Vec::new();
    for (number, (row, times)) in ROWS.iter().zip(table).enumerate() {
        for (column, list) in COLUMNS.iter().enumerate() {
            if times[column] == 0 && (column > 0 || number != OF_RULES) {
                all.push(format!("refused for an audit entry in {list}: {row}"));
            }
        }
    }
    all
}

pub fn print(table: &Table) {
    println!("  refused for an audit entry alone, in {}:", COLUMNS.join(", "));
    for (row, [descriptor, effective, staged]) in ROWS.iter().zip(table) {
        println!("  {descriptor:9} {effective:9} {staged:9}  {row}");
    }
}

//! The rows of `pirasteh_why`: the masks of all steps.

use crate::checks::{self, scan};
use crate::inputs::Input;
use crate::named::{full_entry, Named};
use crate::people::People;
use crate::plain::{self, Why};
use crate::sheet::Sheet;
use crate::timing::{keep, timed};
use pirasteh::raw;
use pirasteh_cases::make::{sid, Rule};
use std::hint::black_box;
use std::process::exit;

type Said = Result<Why, u32>;

/// Entries of each rule's effective and staged list.
const RULE_ENTRIES: usize = 8;
/// Entries of a list of strangers.
const STRANGERS: usize = 500;

pub fn rows(sheet: &mut Sheet) {
    checks::heading("asker");
    for entries in [1, 8, 32] {
        for identities in [1, 21] {
            for rules in [0, 4] {
                for confined in [false, true] {
                    row(sheet, &small(entries, identities, rules, confined));
                }
            }
        }
    }
    for identities in [1, 21] {
        for confined in [false, true] {
            row(sheet, &strangers(identities, confined));
        }
    }
}

/// A list whose last entries name the asker and, if there is room for two, the package of a confined
/// one. The rules name the asker likewise.
fn small(entries: usize, identities: usize, rules: usize, confined: bool) -> Input {
    let people = People::of_one_word(identities, entries.max(RULE_ENTRIES));
    let mut list: Vec<Vec<u8>> = (0..entries)
        .map(|i| full_entry(u8::from(i % 4 == 3), 0, &people.strangers[i], 0))
        .collect();
    let mut behind = entries;
    if confined && entries > 1 {
        behind -= 1;
        list[behind] = full_entry(0, 0, &package(), 0);
    }
    list[behind - 1] = full_entry(0, 0, people.user(), 0);
    let of_rules = || Named::Last.list(&people, RULE_ENTRIES);
    let rules: Vec<Rule> = (0..rules).map(|_| Rule::of(&of_rules()).staged(&of_rules())).collect();
    asking(&people, confined, Input::of(&people, String::new(), &list, &rules))
}

fn strangers(identities: usize, confined: bool) -> Input {
    let people = People::of_one_word(identities, STRANGERS);
    asking(&people, confined, Input::new(STRANGERS, identities, Named::Strangers, 0))
}

/// The input with a token that is confined, or not.
fn asking(people: &People, confined: bool, input: Input) -> Input {
    let (third, token) = if confined {
        ("confined", people.confined_record(&package()))
    } else {
        ("not confined", people.record())
    };
    Input { third: third.into(), token, ..input }
}

fn package() -> Vec<u8> {
    sid(15, &[2, 9])
}

fn library(input: &Input, mask: u32) -> Said {
    let Input { token, self_id, descriptor, policy, .. } = input;
    let [mut asked, mut normal, mut confined, mut ruled] = [0; 4];
    let [mut granted, mut allowed, mut staged] = [0; 3];
    // SAFETY: live slices, and words of our own.
    let status = unsafe {
        raw::pirasteh_why(
            1,
            mask,
            token.as_ptr(),
            token.len(),
            self_id.as_ptr(),
            self_id.len(),
            descriptor.as_ptr(),
            descriptor.len(),
            policy.as_ptr(),
            policy.len(),
            &mut asked,
            &mut normal,
            &mut confined,
            &mut ruled,
            &mut granted,
            &mut allowed,
            &mut staged,
        )
    };
    if status != 0 {
        return Err(status);
    }
    let (allowed, staged) = (allowed == 1, staged == 1);
    Ok(Why { asked, normal, confined, ruled, granted, allowed, staged })
}

fn by_plain(input: &Input, mask: u32) -> Said {
    let Input { token, self_id, descriptor, policy, .. } = input;
    plain::why(1, mask, token, self_id, descriptor, policy)
}

fn reference(input: &Input, mask: u32) -> Said {
    let Input { token, self_id, descriptor, policy, .. } = input;
    pirasteh_reference::check(1, mask, token, self_id, descriptor, policy).map(Why::from)
}

/// Stops if an answer is not the reference's, or none at all.
fn same_answers(input: &Input) {
    for mask in input.masks.iter().copied().chain([0x0200_0000]) {
        let expected = reference(input, mask);
        let (library, plain) = (library(input, mask), by_plain(input, mask));
        if expected.is_err() || library != expected || plain != expected {
            println!("answers differ: {}, mask {mask:#010x}", input.name(1));
            println!("library {library:?}, plain {plain:?}, expected {expected:?}");
            exit(1);
        }
    }
}

fn row(sheet: &mut Sheet, input: &Input) {
    same_answers(input);
    let mask = input.masks[0];
    let times = timed([
        &mut || keep(library(black_box(input), mask)),
        &mut || keep(by_plain(black_box(input), mask)),
        &mut || keep(scan(black_box(input))),
    ]);
    checks::put(sheet, input, 1, times);
}

#[cfg(test)]
mod tests {
    use super::*;

    const READ: u32 = 0x12_0089;

    #[test]
    fn all_are_answered() {
        for identities in [1, 21] {
            for rules in [0, 4] {
                for (entries, confined, left) in
                    [(1, false, READ), (8, false, READ), (1, true, 0), (8, true, READ)]
                {
                    let input = small(entries, identities, rules, confined);
                    let said = by_plain(&input, 0x8000_0000);
                    assert_eq!(said, reference(&input, 0x8000_0000), "{}", input.name(1));
                    let masks = said.map(|why| [why.normal, why.confined, why.ruled]);
                    assert_eq!(masks, Ok([READ, left, left]), "{}", input.name(1));
                }
            }
            for confined in [false, true] {
                let said = by_plain(&strangers(identities, confined), 0x8000_0000);
                assert_eq!(said.map(|why| [why.asked, why.normal]), Ok([READ, 0]));
            }
        }
    }
}

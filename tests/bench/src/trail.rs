//! The rows of `pirasteh_trail`: the events of audit entries, into a lent buffer.

use crate::checks::{self, scan};
use crate::inputs::Input;
use crate::named::Named;
use crate::people::{People, Sid};
use crate::plain::{self, Answer};
use crate::sheet::Sheet;
use crate::timing::{keep, timed};
use pirasteh::raw;
use pirasteh_cases::make::{acl, entry, Descriptor, Rule};
use std::hint::black_box;
use std::process::exit;

type Said = Result<(Answer, usize), u32>;

/// Entries of the long SACLs.
const MANY: usize = 500;
/// Entries of each SACL of a rule, and rules of the policy.
const RULE_ENTRIES: usize = 20;
const RULES: usize = 16;

/// Whom the audit entries name, and which of the answers they are about.
#[derive(Clone, Copy)]
enum Audited {
    /// Nobody: there is no SACL.
    Nothing,
    /// Strangers, about both answers.
    Strangers,
    /// The asker's identities in turn, about both answers.
    Asker,
    /// The same about failure, where it is allowed.
    Silent,
    /// Every fifth names the user, about both answers, and the others strangers.
    Fifth,
}

impl Audited {
    fn column(self) -> &'static str {
        match self {
            Audited::Nothing => "no SACL",
            Audited::Strangers => "strangers",
            Audited::Asker => "all raise events",
            Audited::Silent => "for the other answer",
            Audited::Fifth => "every fifth",
        }
    }

    fn sacl(self, people: &People, entries: usize) -> Vec<u8> {
        let one = |i: usize| -> Vec<u8> {
            let asker: &Sid = &people.identities[i % people.identities.len()];
            let (flags, who) = match self {
                Audited::Asker => (0xC0, asker),
                Audited::Silent => (0x80, asker),
                Audited::Fifth if i % 5 == 4 => (0xC0, people.user()),
                _ => (0xC0, &people.strangers[i]),
            };
            entry(2, flags, 0x8000_0000, who)
        };
        let all: Vec<Vec<u8>> = (0..entries).map(one).collect();
        acl(&all)
    }
}

/// How long the lent buffer is.
#[derive(Clone, Copy)]
enum Room {
    /// As long as any trail of such a question.
    Bound,
    /// As long as the trail.
    Exact,
}

/// An input and the length of its buffer.
struct Lent {
    input: Input,
    room: usize,
}

pub fn rows(sheet: &mut Sheet) {
    checks::heading("audited");
    for identities in [1, 21] {
        row(sheet, &lent(descriptor(0, identities, Audited::Nothing), Room::Bound));
        for entries in [1, 5, 20] {
            for audited in [Audited::Strangers, Audited::Fifth, Audited::Asker] {
                row(sheet, &lent(descriptor(entries, identities, audited), Room::Bound));
            }
        }
        for audited in [Audited::Strangers, Audited::Silent, Audited::Asker] {
            row(sheet, &lent(descriptor(MANY, identities, audited), Room::Bound));
        }
        row(sheet, &lent(descriptor(MANY, identities, Audited::Asker), Room::Exact));
        for audited in [Audited::Nothing, Audited::Strangers, Audited::Fifth, Audited::Asker] {
            row(sheet, &lent(policy(identities, audited), Room::Bound));
        }
    }
}

/// An object whose DACL has eight entries, of which the last allows the asker everything, and whose
/// SACL has so many.
fn descriptor(entries: usize, identities: usize, audited: Audited) -> Input {
    let people = People::of_one_word(identities, entries.max(8));
    let mut object = Descriptor::owned_by(&Named::Strangers.owner(&people));
    object = object.dacl(&Named::Last.list(&people, 8));
    if !matches!(audited, Audited::Nothing) {
        object = object.sacl(&audited.sacl(&people, entries));
    }
    Input {
        entries,
        third: audited.column().into(),
        descriptor: object.bytes(),
        ..Input::new(8, identities, Named::Last, 0)
    }
}

/// The same object without a SACL, under rules that allow the asker everything and whose effective
/// and staged SACLs have twenty entries each.
fn policy(identities: usize, audited: Audited) -> Input {
    let people = People::of_one_word(identities, RULE_ENTRIES);
    let dacl = Named::Last.list(&people, 8);
    let rule = || {
        let mut rule = Rule::of(&dacl);
        if !matches!(audited, Audited::Nothing) {
            rule.effective_sacl = audited.sacl(&people, RULE_ENTRIES);
            rule.staged_sacl = audited.sacl(&people, RULE_ENTRIES);
        }
        rule
    };
    let rules: Vec<Rule> = (0..RULES).map(|_| rule()).collect();
    let entries = if matches!(audited, Audited::Nothing) { 0 } else { RULE_ENTRIES };
    Input {
        entries,
        third: audited.column().into(),
        rules: RULES,
        policy: pirasteh_cases::make::policy(&rules),
        ..Input::new(8, identities, Named::Last, 0)
    }
}

fn lent(input: Input, room: Room) -> Lent {
    let room = match room {
        Room::Bound => 9 * (input.descriptor.len() + input.policy.len()) / 16,
        Room::Exact => expected(&input, input.masks[0]).map_or(0, |(_, trail)| trail.len()),
    };
    let bound = 9 * (input.descriptor.len() + input.policy.len()) / 16;
    let third = if room < bound { format!("{}, exact", input.third) } else { input.third };
    Lent { input: Input { third, ..input }, room }
}

fn library(input: &Input, mask: u32, out: &mut [u8]) -> Said {
    let Input { token, self_id, descriptor, policy, .. } = input;
    let [mut granted, mut allowed, mut staged] = [0; 3];
    let mut written = 0;
    // SAFETY: live slices, of which the buffer overlaps none, and words of our own.
    let status = unsafe {
        raw::pirasteh_trail(
            1,
            mask,
            token.as_ptr(),
            token.len(),
            self_id.as_ptr(),
            self_id.len(),
            descriptor.as_ptr(),
            descriptor.len(),
            policy.as_ptr(),
            policy.len(),
            out.as_mut_ptr(),
            out.len(),
            &mut written,
            &mut granted,
            &mut allowed,
            &mut staged,
        )
    };
    if status != 0 {
        return Err(status);
    }
    Ok((Answer { granted, allowed: allowed == 1, staged: staged == 1 }, written))
}

fn by_plain(input: &Input, mask: u32, out: &mut [u8]) -> Said {
    let Input { token, self_id, descriptor, policy, .. } = input;
    plain::trail(1, mask, token, self_id, descriptor, policy, out)
}

fn expected(input: &Input, mask: u32) -> Result<(Answer, Vec<u8>), u32> {
    let Input { token, self_id, descriptor, policy, .. } = input;
    let said = pirasteh_reference::check_and_events(1, mask, token, self_id, descriptor, policy)?;
    let (pirasteh_reference::Answer { granted, allowed, staged, .. }, events) = said;
    Ok((Answer { granted, allowed, staged }, pirasteh_reference::trail(&events)))
}

/// Stops if an answer or a trail is not the reference's, or if there is none at all.
fn same_answers(Lent { input, room }: &Lent) {
    for &mask in &input.masks {
        let expected = expected(input, mask);
        let whole = |ask: &dyn Fn(&mut [u8]) -> Said| {
            let mut out = vec![0x5A; *room];
            ask(&mut out).map(|(answer, written)| (answer, out[..written].to_vec()))
        };
        let library = whole(&|out| library(input, mask, out));
        let plain = whole(&|out| by_plain(input, mask, out));
        if expected.is_err() || library != expected || plain != expected {
            println!("answers differ: {}, mask {mask:#010x}", input.name(1));
            println!("library {library:?}, plain {plain:?}, expected {expected:?}");
            exit(1);
        }
    }
}

fn row(sheet: &mut Sheet, lent: &Lent) {
    same_answers(lent);
    let Lent { input, room } = lent;
    let mask = input.masks[0];
    let (mut ours, mut theirs) = (vec![0; *room], vec![0; *room]);
    let times = timed([
        &mut || keep(library(black_box(input), mask, black_box(&mut ours))),
        &mut || keep(by_plain(black_box(input), mask, black_box(&mut theirs))),
        &mut || keep(scan(black_box(input))),
    ]);
    checks::put(sheet, input, 1, times);
}

#[cfg(test)]
mod tests {
    use super::*;

    #[test]
    fn all_are_answered() {
        for identities in [1, 21] {
            for (audited, descriptors, rules) in [
                (Audited::Nothing, 0, 0),
                (Audited::Strangers, 0, 0),
                (Audited::Silent, 0, 0),
                (Audited::Fifth, 4, 4 * RULES),
                (Audited::Asker, 20, 20 * RULES),
            ] {
                for (input, events) in [
                    (descriptor(20, identities, audited), descriptors),
                    (policy(identities, audited), rules),
                ] {
                    let mut out = vec![0; 20_000];
                    let said = by_plain(&input, 0x8000_0000, &mut out);
                    let said = said.map(|(answer, length)| (answer, out[..length].to_vec()));
                    assert_eq!(said, expected(&input, 0x8000_0000), "{}", input.name(1));
                    // Generic read takes five bytes, and the numbers one each.
                    assert_eq!(
                        said.map(|(a, trail)| (a.allowed, trail.len())),
                        Ok((true, 7 * events))
                    );
                }
            }
        }
    }
}

//! Trails: the lengths of the buffers that are lent for them, what they hold, and which audit
//! entries raise an event or do not, and why.

mod entries;
mod faults;
mod staged;
mod twin;

pub use twin::{twin, Way};

use crate::library::trail::Trail;
use crate::steps::Door;
use pirasteh_cases::make::Question;
use pirasteh_cases::Rng;
use pirasteh_reference::{self as reference, Answer, Event};

/// An answer and its events, or a refusal.
pub type Events = Result<(Answer, Vec<Event>), u32>;

/// What the reference says of a question.
pub fn ask(q: &Question) -> Events {
    reference::check_and_events(q.kind, q.mask, &q.token, &q.self_id, &q.descriptor, &q.policy)
}

/// The same as the function says it that writes a trail.
pub fn told(said: &Events) -> Result<Trail, u32> {
    match said {
        Ok((answer, events)) => Ok((answer.verdict(), reference::trail(events))),
        Err(number) => Err(*number),
    }
}

/// No trail is longer than this.
pub fn bound(descriptor: usize, policy: usize) -> usize {
    9 * (descriptor + policy) / 16
}

/// A trail of up to so many bytes is tried with buffers of every length.
const SHORT: usize = 48;

/// The lengths of buffers that a question is asked with: every one from 0 to one more than it
/// needs, if these are not too many.
pub fn rooms(rng: &mut Rng, expected: &Result<Trail, u32>, bound: usize) -> Vec<usize> {
    let needed = match expected {
        Ok((_, trail)) => trail.len(),
        Err(_) => return vec![0, rng.below(64)],
    };
    if needed <= SHORT || needed < 600 && rng.one_in(16) {
        return (0..=needed + 1).collect();
    }
    let some = rng.below(needed);
    vec![0, 1, needed / 2, some, needed - 1, needed, needed + 1, bound]
}

/// The events that some bytes say, each as source, entry number and mask, in shortest form. None if
/// they are no trail.
pub fn read(mut bytes: &[u8]) -> Option<Vec<[u32; 3]>> {
    let mut all = Vec::new();
    while !bytes.is_empty() {
        all.push([number(&mut bytes)?, number(&mut bytes)?, number(&mut bytes)?]);
    }
    Some(all)
}

fn number(rest: &mut &[u8]) -> Option<u32> {
    let length = rest.iter().position(|&byte| byte < 0x80)? + 1;
    let (here, behind) = rest.split_at(length);
    *rest = behind;
    if length > 5 || length > 1 && here[length - 1] == 0 {
        return None;
    }
    let value = here.iter().rev().fold(0, |sum, &byte| sum << 7 | u64::from(byte & 0x7F));
    u32::try_from(value).ok()
}

/// What has to be reached of trails, through each function.
const ROWS: [&str; 15] = [
    "it is empty",
    "all events are of the descriptor",
    "all events are of rules",
    "events of the descriptor and of rules",
    "success",
    "failure, though bits are granted",
    "masks of one byte",
    "masks of two to four bytes",
    "masks of five bytes",
    "an entry number of 128 or more",
    "an entry number of 256 or more",
    "a rule number of 128 or more",
    "rule 256",
    "1,000 bytes or more",
    "20,000 bytes or more",
];

/// What the functions are called, and the refusals that each of them gives.
const DOORS: [(&str, &[usize]); 2] = [
    ("pirasteh_trail", &[1, 2, 3, 4, 5, 6, 7, 8, 9, 10, 11]),
    ("pirasteh_trail_question", &[1, 2, 3, 4, 5, 6, 7, 8, 9, 10, 11, 12]),
];

#[derive(Default)]
pub struct Table {
    /// By row and function.
    reached: [[u64; 2]; ROWS.len()],
    /// By function and number.
    refused: [[u64; 13]; 2],
    /// A trail of 100,000 bytes or more, which no question file has.
    longest: u64,
    entries: entries::Table,
    staged: staged::Table,
    faults: faults::Table,
}

/// Which rows an answer with these events belongs to.
fn rows(answer: &Answer, events: &[Event]) -> [bool; ROWS.len()] {
    let any = |test: &dyn Fn(&Event) -> bool| events.iter().any(test);
    let (ours, rules) = (any(&|event| event.source == 0), any(&|event| event.source > 0));
    let length = reference::trail(events).len();
    [
        events.is_empty(),
        ours && !rules,
        rules && !ours,
        ours && rules,
        !events.is_empty() && answer.allowed,
        !events.is_empty() && !answer.allowed && answer.granted != 0,
        any(&|event| event.mask < 1 << 7),
        any(&|event| event.mask >= 1 << 7 && event.mask < 1 << 28),
        any(&|event| event.mask >= 1 << 28),
        any(&|event| event.entry >= 128),
        any(&|event| event.entry >= 256),
        any(&|event| event.source >= 128),
        any(&|event| event.source == 256),
        length >= 1_000,
        length >= 20_000,
    ]
}

impl Table {
    /// Adds what was said, and that the lent buffer was shorter than the trail if it has one.
    pub fn add(&mut self, door: Door, said: &Events) {
        let door = door as usize;
        match said {
            Ok((answer, events)) => {
                for (times, here) in self.reached.iter_mut().zip(rows(answer, events)) {
                    times[door] += u64::from(here);
                }
                self.refused[door][11] += u64::from(!events.is_empty());
                self.longest += u64::from(reference::trail(events).len() >= 100_000);
            }
            Err(number) => self.refused[door][*number as usize] += 1,
        }
    }

    /// Adds the audit entries of a question.
    pub fn add_entries(&mut self, q: &Question, said: &Events) {
        match said {
            Ok((answer, events)) => {
                entries::add(q, answer, &mut self.entries);
                staged::add(q, answer, events, &mut self.staged);
            }
            Err(number) => faults::add(q, *number, &mut self.faults),
        }
    }

    /// What should have been reached and was not.
    pub fn unreached(&self) -> Vec<String> {
        let mut all = Vec::new();
        for (row, doors) in ROWS.iter().zip(&self.reached) {
            for ((door, _), _) in DOORS.iter().zip(doors).filter(|(_, &times)| times == 0) {
                all.push(format!("{door}: {row}"));
            }
        }
        for ((door, numbers), refused) in DOORS.iter().zip(&self.refused) {
            let none = numbers.iter().filter(|&&number| refused[number] == 0);
            all.extend(none.map(|number| format!("{door}: refused {number}")));
        }
        if self.longest == 0 {
            all.push("a trail of 100,000 bytes".into());
        }
        all.extend(entries::unreached(&self.entries));
        all.extend(staged::unreached(&self.staged));
        all.extend(faults::unreached(&self.faults));
        all
    }

    pub fn print(&self) {
        let doors = DOORS.map(|(door, _)| door).join(" and ");
        println!("  trails, through {doors}:");
        for (row, [parts, file]) in ROWS.iter().zip(&self.reached) {
            println!("  {parts:9} {file:9}  {row}");
        }
        println!("  {:9}            100,000 bytes or more", self.longest);
        for ((door, numbers), refused) in DOORS.iter().zip(&self.refused) {
            let times = numbers.iter().map(|&number| format!(" {number}: {}", refused[number]));
            println!("  refused by {door},{}", times.collect::<Vec<_>>().join(","));
        }
        entries::print(&self.entries);
        staged::print(&self.staged);
        faults::print(&self.faults);
    }
}

#[cfg(test)]
mod tests {
    use super::*;

    #[test]
    fn trails_are_read_in_shortest_form() {
        let good = |bytes: &[u8], events: &[[u32; 3]]| {
            assert_eq!(read(bytes).as_deref(), Some(events), "{bytes:02x?}");
        };
        good(&[], &[]);
        good(&[0, 1, 2], &[[0, 1, 2]]);
        good(&[0, 0x80, 1, 2, 1, 1, 1], &[[0, 128, 2], [1, 1, 1]]);
        good(&[0, 1, 0xFF, 0xFF, 0xFF, 0xFF, 0x0F], &[[0, 1, u32::MAX]]);
        let bad: [&[u8]; 5] = [
            &[0, 1],
            &[0, 0x80, 0, 2],
            &[0, 0x81, 0x80, 0],
            &[0, 1, 0xFF, 0xFF, 0xFF, 0xFF, 0x10],
            &[0, 1, 0xFF, 0xFF, 0xFF, 0xFF, 0xFF, 1],
        ];
        for bytes in bad {
            assert_eq!(read(bytes), None, "{bytes:02x?}");
        }
    }

    #[test]
    fn what_the_reference_writes_is_read() {
        let events = [(0, 0, 1), (127, 128, u32::MAX), (256, 16_383, 0x0FFF_FFFF)];
        let events = events.map(|(source, entry, mask)| Event { source, entry, mask });
        let all = events.map(|event| [event.source, event.entry, event.mask]);
        assert_eq!(read(&reference::trail(&events)).as_deref(), Some(&all[..]));
    }
}

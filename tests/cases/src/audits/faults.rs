//! Audit entries that are misshapen, where nothing else is: in each kind of SACL, in entries that
//! say nothing, and in rules that do not apply.

use super::{parts, rule, Parts};
use crate::expressions;
use crate::make::{self, Question};
use crate::rng::Rng;

/// The list that the entry stands in.
#[derive(Clone, Copy, Debug, PartialEq, Eq)]
pub enum Spot {
    Descriptor,
    Effective,
    Staged,
}

pub const SPOTS: [Spot; 3] = [Spot::Descriptor, Spot::Effective, Spot::Staged];

/// A question with one misshapen audit entry.
pub fn question(rng: &mut Rng, spot: Spot) -> Question {
    let mut parts = parts(rng);
    let fault = misshapen(rng, &parts);
    match spot {
        Spot::Descriptor => {
            let list = parts.sacl.get_or_insert_with(Vec::new);
            let place = rng.below(list.len() + 1);
            list.insert(place, fault);
        }
        Spot::Effective | Spot::Staged => {
            if parts.rules.is_empty() {
                parts.rules.push(rule(rng, &parts.cast));
            }
            let number = rng.below(parts.rules.len());
            let rule = &mut parts.rules[number];
            if rng.one_in(3) {
                rule.applies_to = expressions::never();
            }
            let good = make::entry(2, 0xC0, 1, &parts.cast.user);
            let around =
                [vec![fault.clone()], vec![good.clone(), fault.clone()], vec![fault, good]];
            let list = make::acl(&around[rng.below(around.len())]);
            match spot {
                Spot::Staged => rule.staged_sacl = list,
                _ => rule.effective_sacl = list,
            }
        }
    }
    parts.question()
}

/// Its size is a multiple of 4, so that only its type makes it so.
fn misshapen(rng: &mut Rng, parts: &Parts) -> Vec<u8> {
    let flags = rng.of(&[0, 0x08, 0x40, 0x80, 0xC0, 0xC8, 0xFF]);
    let mask = rng.of(&[0, 1, u32::MAX, 0x1000_0000]);
    let sid = parts.cast.someone(rng);
    let spare = 4 * rng.of(&[0, 0, 0, 1, 2]);
    let mut entry = make::long_entry(2, flags, mask, &sid, &vec![0; spare]);
    let words = sid[1];
    let holds = words + (spare / 4) as u8;
    match rng.below(8) {
        0 => return make::bare_entry(2, flags, &[]),
        1 => return make::bare_entry(2, flags, &mask.to_le_bytes()),
        2 => {
            // Cut off inside the SID.
            let size = 8 + 4 * rng.below(2 + usize::from(words));
            entry.truncate(size);
            entry[2..4].copy_from_slice(&(size as u16).to_le_bytes());
        }
        3 => entry[8] = rng.of(&[0, 2, 0xFF]),
        4 => entry[9] = rng.of(&[16, 17, 0xFF]),
        5 => entry[9] = holds + 1,
        // Into the next entry, if there is one.
        6 => entry[9] = (holds + 1 + rng.below(6) as u8).min(16),
        _ => entry[9] = if holds < 15 { 15 } else { 16 },
    }
    entry
}

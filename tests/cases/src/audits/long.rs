//! Many audit entries, and many rules: entry and rule numbers of two bytes, and trails as long as
//! they get. The user is S-1-5, so that an entry may have 16 bytes.

use crate::make::{self, Descriptor, Question, Rule, Token};
use crate::rng::Rng;

fn user() -> Vec<u8> {
    make::sid(5, &[])
}

/// An entry of 4 or 16 bytes, of which most raise an event. `style` is how often they do.
fn entry(rng: &mut Rng, style: usize) -> Vec<u8> {
    match rng.below(12) {
        0 if style < 2 => make::bare_entry(0x11, 0xC0, &[]),
        1 if style < 2 => make::entry(2, 0xC0, u32::MAX, &make::sid(6, &[])),
        2 if style < 2 => make::entry(2, rng.of(&[0x40, 0x80, 0x48]), 1, &user()),
        _ if style == 0 && !rng.one_in(8) => make::bare_entry(0x11, 0, &[]),
        _ => make::entry(2, 0xC0, rng.of(&[u32::MAX, u32::MAX, 1, 0x1000_0000]), &user()),
    }
}

/// A list of up to so many bytes.
fn list(rng: &mut Rng, bytes: usize) -> Vec<u8> {
    let style = rng.below(3);
    let mut entries = Vec::new();
    let mut length = 8;
    loop {
        let one = entry(rng, style);
        length += one.len();
        if length > bytes {
            return make::acl(&entries);
        }
        entries.push(one);
    }
}

pub fn question(rng: &mut Rng) -> Question {
    let nothing = make::acl(&[]);
    let everything = make::acl(&[make::allow(0x1000_0000, &user())]);
    let allows = if rng.one_in(2) { nothing } else { everything };
    let mut descriptor = Descriptor::owned_by(&make::sid(5, &[7]));
    let mut rules = Vec::new();
    match rng.below(16) {
        0..=8 => {
            let bytes = rng.of(&[600, 1_500, 3_000, 6_000]);
            descriptor = descriptor.sacl(&list(rng, bytes));
        }
        9..=12 => {
            let count = rng.of(&[126, 127, 128, 129, 200, 255, 256]);
            for _ in 0..count {
                let bytes = rng.of(&[0, 24, 24, 40, 60]);
                rules.push(telling(rng, &allows, bytes));
            }
        }
        // As long as a descriptor has room for.
        13 => descriptor = descriptor.sacl(&list(rng, 65_535 - 32 - 80)),
        // As long as a question file has room for.
        14 => {
            rules = vec![Rule::of(&allows); 127];
            let bytes = rng.of(&[20_000, 55_000]);
            rules.push(telling(rng, &allows, bytes));
        }
        // As long as a policy has room for.
        _ => {
            rules = vec![Rule::of(&allows); rng.of(&[0, 127])];
            for bytes in [65_000, 65_000, 65_000, 50_000] {
                rules.push(telling(rng, &allows, bytes));
            }
        }
    }
    Question {
        kind: 1 + rng.below(2) as u32,
        mask: rng.of(&[1, 1, 3, 0x8000_0000, 0x0200_0001]),
        token: Token::of(&user()).record(),
        self_id: vec![],
        descriptor: descriptor.dacl(&allows).bytes(),
        policy: if rules.is_empty() { vec![] } else { make::policy(&rules) },
    }
}

/// A rule with a SACL of up to so many bytes, or with none.
fn telling(rng: &mut Rng, allows: &[u8], bytes: usize) -> Rule {
    let effective_sacl = if bytes < 8 { Vec::new() } else { list(rng, bytes) };
    Rule { effective_sacl, ..Rule::of(allows) }
}

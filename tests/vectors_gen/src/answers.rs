//! Where two readers came apart, or where another system answers otherwise. The object is a
//! file owned by W, and U asks, unless said.

mod children;
mod conditions;
mod confinement;
mod crowds;
mod decided;
mod events;
mod identities;
mod masks;
mod numbers;
mod rights;
mod seats;
mod walks;

use crate::case::*;
use pirasteh_cases::make::{self, acl, Descriptor, Question, Rule};

const SECURITY: u64 = 1 << 8;
const TAKE_OWNERSHIP: u64 = 1 << 9;

/// U asks an object with this owner and these entries.
fn owned(owner: &[u8], mask: u32, entries: &[Vec<u8>]) -> Question {
    on(tu(), mask, Descriptor::owned_by(owner).dacl(&acl(entries)))
}

fn one_rule(entries: &[Vec<u8>]) -> Vec<u8> {
    make::policy(&[Rule::of(&acl(entries))])
}

pub fn cases() -> Vec<Case> {
    let mut all = identities::cases();
    all.extend(rights::cases());
    all.extend(children::cases());
    all.extend(walks::cases());
    all.extend(confinement::cases());
    all.extend(conditions::cases());
    all.extend(numbers::cases());
    all.extend(crowds::cases());
    all.extend(decided::cases());
    all.extend(seats::cases());
    all.extend(masks::cases());
    all.extend(events::cases());
    all
}

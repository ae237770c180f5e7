//! Conditions of callback entries. U asks, with G as an enabled group, of an object that W owns,
//! unless said.

mod entries;
mod members;
mod operators;
mod owners;

use crate::case::*;
use pirasteh_cases::make::{acl, Descriptor, Question, Token};

pub fn cases() -> Vec<Case> {
    let mut all = operators::cases();
    all.extend(members::cases());
    all.extend(entries::cases());
    all.extend(owners::cases());
    all
}

/// U with G enabled.
fn asker() -> Token {
    tu().group(&g(), 4)
}

/// This token asks for 1, of an object with this owner and these entries.
fn owned(token: Token, owner: &[u8], entries: &[Vec<u8>]) -> Question {
    on(token, 1, Descriptor::owned_by(owner).dacl(&acl(entries)))
}

/// 1 is granted, or nothing is.
fn granted(is: bool) -> Line {
    if is {
        yes(1)
    } else {
        no(0)
    }
}

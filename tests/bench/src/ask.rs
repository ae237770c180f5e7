//! A question to the library, to the plain implementation and to the reference.

use crate::inputs::Input;
use crate::plain::{self, Answer};
use pirasteh::{Descriptor, Kind, Policy, Question, SelfId, Token};
use std::process::exit;

pub type Said = Result<Answer, u32>;

pub fn library(input: &Input, mask: u32) -> Said {
    let question = Question {
        kind: Kind::File,
        mask,
        token: Token(&input.token),
        self_id: SelfId(&input.self_id),
        descriptor: Descriptor(&input.descriptor),
        policy: Policy(&input.policy),
    };
    pirasteh::check(&question)
        .map(|a| Answer { granted: a.granted, allowed: a.allowed, staged: a.staged })
        .map_err(pirasteh::Error::number)
}

pub fn by_plain(input: &Input, mask: u32) -> Said {
    let Input { token, self_id, descriptor, policy, .. } = input;
    plain::check(1, mask, token, self_id, descriptor, policy)
}

pub fn reference(input: &Input, mask: u32) -> Said {
    let Input { token, self_id, descriptor, policy, .. } = input;
    pirasteh_reference::check(1, mask, token, self_id, descriptor, policy).map(|a| Answer {
        granted: a.granted,
        allowed: a.allowed,
        staged: a.staged,
    })
}

/// Stops if an answer is not the reference's, or none at all.
pub fn same_answers(input: &Input) {
    for &mask in &input.masks {
        let expected = reference(input, mask);
        let (library, plain) = (library(input, mask), by_plain(input, mask));
        if expected.is_err() || library != expected || plain != expected {
            println!("answers differ: {}, mask {mask:#010x}", input.name(1));
            println!("library {library:?}, plain {plain:?}, expected {expected:?}");
            exit(1);
        }
    }
}

//! Asks document 01's card c1, may the user S-1-5-0-7 read this file, then what keeps them from
//! deleting it, and what the file's audit entry notes if they try.

use pirasteh::{check, events, mask, trail, trail_bound, why};
use pirasteh::{Descriptor, Kind, Policy, Question, SelfId, Token};
use std::process::ExitCode;

/// The user S-1-5-0-7, without groups.
const TOKEN: [u8; 8] = [0x01, 0x00, 0x00, 0x02, 0x05, 0x00, 0x07, 0x00];

/// Owned by S-1-5-7; its list allows S-1-5-0-7 generic read, and its SACL has an audit entry for
/// S-1-5-0-7: failure at anything.
#[rustfmt::skip]
const DESCRIPTOR: [u8; 96] = [
    0x01, 0x00, 0x14, 0x80, 0x14, 0x00, 0x00, 0x00, 0x00, 0x00, 0x00, 0x00, 0x40, 0x00, 0x00, 0x00,
    0x20, 0x00, 0x00, 0x00, 0x01, 0x01, 0x00, 0x00, 0x00, 0x00, 0x00, 0x05, 0x07, 0x00, 0x00, 0x00,
    0x02, 0x00, 0x20, 0x00, 0x01, 0x00, 0x00, 0x00, 0x00, 0x00, 0x18, 0x00, 0x00, 0x00, 0x00, 0x80,
    0x01, 0x02, 0x00, 0x00, 0x00, 0x00, 0x00, 0x05, 0x00, 0x00, 0x00, 0x00, 0x07, 0x00, 0x00, 0x00,
    0x02, 0x00, 0x20, 0x00, 0x01, 0x00, 0x00, 0x00, 0x02, 0x80, 0x18, 0x00, 0x00, 0x00, 0x00, 0x10,
    0x01, 0x02, 0x00, 0x00, 0x00, 0x00, 0x00, 0x05, 0x00, 0x00, 0x00, 0x00, 0x07, 0x00, 0x00, 0x00,
];

fn main() -> ExitCode {
    let read = Question {
        kind: Kind::File,
        mask: mask::GENERIC_READ,
        token: Token(&TOKEN),
        self_id: SelfId::NONE,
        descriptor: Descriptor(&DESCRIPTOR),
        policy: Policy::NONE,
    };
    let allowed = match check(&read) {
        // Answered: yes or no.
        Ok(answer) => {
            println!("{answer}");
            answer.allowed
        }
        // Refused: some part is not what it should be.
        Err(error) => {
            println!("{error}");
            false
        }
    };
    let delete = Question { mask: mask::DELETE, ..read };
    explain(&delete);
    note(&delete);
    if allowed {
        ExitCode::SUCCESS
    } else {
        ExitCode::FAILURE
    }
}

/// Prints each right that is asked for and not granted, with the step of the check that took it.
fn explain(question: &Question<'_>) {
    match why(question) {
        Ok(why) => why.lost().for_each(|lost| println!("{lost}")),
        Err(error) => println!("{error}"),
    }
}

/// Prints each event that the audit entries of the object and of the policy raise.
fn note(question: &Question<'_>) {
    let mut room = vec![0; trail_bound(question.descriptor.0.len(), question.policy.0.len())];
    match trail(question, &mut room) {
        Ok(traced) => events(&room[..traced.length]).for_each(|event| match event {
            Ok(event) => println!("{event}"),
            Err(no_trail) => println!("{no_trail}"),
        }),
        Err(error) => println!("{error}"),
    }
}

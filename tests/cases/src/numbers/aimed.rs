//! A case for each aim: a record, a question or a question file in which one number has the form,
//! and nothing else is wrong.

use super::token::{identities, put, spoiled, token};
use super::{Aim, Form, Place};
use crate::make::{self, Descriptor, Question, Token};
use crate::random::{Case, Room};
use crate::rng::Rng;

pub fn case(rng: &mut Rng, aim: Aim) -> Case {
    if aim.door.place == Place::File {
        return Case::File(file(rng, aim));
    }
    let at_end = matches!(aim.form, Form::Last | Form::Cut);
    let mut token = token(rng, at_end && aim.door.bits == 48);
    let record = match aim.value(rng) {
        Some(value) => {
            put(rng, &mut token, aim, value);
            token.record()
        }
        None => spoiled(rng, &token, aim),
    };
    if aim.door.place == Place::Record {
        return Case::List(record, room(rng));
    }
    let question = question(rng, &mut token, record);
    // In a file there are bytes behind the token, with which a number that is cut off may go on.
    let files = if aim.form == Form::Cut { 2 } else { 1 };
    if rng.below(3) < files {
        Case::File(question.file())
    } else {
        Case::Check(question)
    }
}

/// A listing of numbers that take all lengths in the record.
pub fn listing(rng: &mut Rng) -> Case {
    let by_authority = rng.one_in(2);
    Case::Pack(token(rng, by_authority).listing(), room(rng))
}

/// There is always enough, so that what was read is seen.
fn room(rng: &mut Rng) -> Room {
    rng.of(&[Room::Exact, Room::Exact, Room::Spare(9), Room::Fixed(28_021)])
}

/// A question about an object whose list names everybody in the token, so that the answer hangs on
/// who was read there.
fn question(rng: &mut Rng, token: &mut Token, record: Vec<u8>) -> Question {
    let sids: Vec<Vec<u8>> = identities(token).into_iter().map(|sid| sid.clone()).collect();
    let entries: Vec<Vec<u8>> = sids
        .iter()
        .map(|sid| make::entry(u8::from(rng.one_in(6)), 0, rng.u32() & 0xF_003F, sid))
        .collect();
    let owner = rng.pick(&sids).clone();
    Question {
        kind: 1 + rng.below(2) as u32,
        mask: rng.of(&[0x0200_0000, 0x0300_0000, 0x0200_0001, 0x010F_003F]),
        token: record,
        self_id: if rng.one_in(2) { vec![] } else { rng.pick(&sids).clone() },
        descriptor: Descriptor::owned_by(&owner).dacl(&make::acl(&entries)).bytes(),
        policy: if rng.one_in(4) { make::policy(&[]) } else { vec![] },
    }
}

/// A question file in which one of its own numbers has the form.
fn file(rng: &mut Rng, aim: Aim) -> Vec<u8> {
    let mut token = token(rng, false);
    let record = token.record();
    let mut question = question(rng, &mut token, record);
    if rng.one_in(2) {
        // Spare bytes, for a length near 128, where numbers begin to take two bytes.
        let length = question.descriptor.len().max(126 + rng.below(5));
        question.descriptor.resize(length, 0);
    }
    if matches!(aim.form, Form::Last | Form::Cut) {
        question.policy.clear();
    }
    match aim.value(rng) {
        Some(_) if aim.form == Form::Last => {}
        Some(value) if aim.form == Form::Good && rng.one_in(4) => question.kind = value as u32,
        Some(value) => question.mask = value as u32,
        None => return spoiled_file(rng, &question, aim),
    }
    question.file()
}

/// The question's file with one bad number. If it is cut off it is the last.
fn spoiled_file(rng: &mut Rng, question: &Question, aim: Aim) -> Vec<u8> {
    let parts = [&question.token, &question.self_id, &question.descriptor, &question.policy];
    let mut numbers = vec![u64::from(question.kind), u64::from(question.mask)];
    numbers.extend(parts.map(|part| part.len() as u64));
    // A long form has the number itself, so it is one that has no more groups.
    let fits = |value: u64| aim.form != Form::Long || value >> (7 * (aim.size - 1)) == 0;
    let places: Vec<usize> = (0..numbers.len()).filter(|&at| fits(numbers[at])).collect();
    let bad = if aim.form == Form::Cut { numbers.len() - 1 } else { rng.of(&places) };
    let mut out = Vec::new();
    for (place, &value) in numbers.iter().enumerate() {
        out.extend(if place == bad { aim.bytes(rng, value) } else { make::sevens(value) });
        if place >= 2 {
            out.extend(parts[place - 2]);
        }
    }
    out
}

//! What an audit entry covers: its mask is mapped and cut as every entry's is, the bits that it has
//! to meet are the explicit ones, and what is told is the mask as stored.

use super::super::SECURITY;
use super::{audited, audited_as};
use crate::case::*;
use pirasteh_cases::make::{Question, Token};

const READ: u32 = 0x8000_0000;
const WRITE: u32 = 0x4000_0000;
const EXECUTE: u32 = 0x2000_0000;
const ALL: u32 = 0x1000_0000;
const MAXIMUM: u32 = 0x0200_0000;
const SYSTEM_SECURITY: u32 = 0x0100_0000;

/// U asks for a mask, and an entry for either answer has another.
fn meets(asked: u32, covered: u32) -> Question {
    meets_as(tu(), asked, covered)
}

fn meets_as(token: Token, asked: u32, covered: u32) -> Question {
    audited_as(token, asked, &[audit(BOTH, covered, &u())])
}

pub fn cases() -> Vec<Case> {
    let mut all = mapped();
    all.extend(explicit());
    all.extend(stored());
    all
}

fn mapped() -> Vec<Case> {
    let raised = |mask: u32| yes(1).raising(&[[0, 0, mask]]);
    vec![
        ask("events: generic read covers 1, and is told as stored", meets(1, READ), raised(READ)),
        ask("events: generic write does not cover 1", meets(1, WRITE), yes(1)),
        ask("events: generic all covers 1", meets(1, ALL), raised(ALL)),
        ask(
            "events: generic execute covers 0x20 of a file, which is not granted",
            meets(0x20, EXECUTE),
            no(0).raising(&[[0, 0, EXECUTE]]),
        ),
        ask(
            "events: a key, and generic execute covers 1",
            meets(1, EXECUTE).kind(2),
            raised(EXECUTE),
        ),
        ask("events: a key, and generic write does not cover 1", meets(1, WRITE).kind(2), yes(1)),
        ask(
            "events: a key, and generic write covers 2",
            meets(2, WRITE).kind(2),
            yes(2).raising(&[[0, 0, WRITE]]),
        ),
        ask(
            "events: 1 is covered where generic read is asked",
            meets(READ, 1),
            no(1).raising(&[[0, 0, 1]]),
        ),
        ask(
            "events: the same generic bit is asked and covered",
            meets(WRITE, WRITE),
            no(6).raising(&[[0, 0, WRITE]]),
        ),
        ask(
            "events: bits that no kind has are cut, and told as stored",
            meets(1, 0x0FE0_FE01),
            raised(0x0FE0_FE01),
        ),
        ask("events: bits that no kind has cover nothing", meets(1, 0x0FE0_FE00), yes(1)),
        ask(
            "events: a key: rights of files alone are cut, and told as stored",
            meets(1, 0x0010_01C1).kind(2),
            raised(0x0010_01C1),
        ),
        ask("events: mask 0 covers nothing", meets(7, 0), yes(7)),
        ask("events: a mask of other bits than those asked", meets(5, 2), yes(5)),
    ]
}

/// Not what is asked by asking for the maximum.
fn explicit() -> Vec<Case> {
    let secure = || tu().privileges(SECURITY);
    vec![
        ask(
            "events: the maximum alone has no explicit bit, and is allowed",
            meets(MAXIMUM, u32::MAX),
            yes(7),
        ),
        ask(
            "events: the maximum alone of a key, and an entry for generic all",
            meets(MAXIMUM, ALL).kind(2),
            yes(7),
        ),
        ask(
            "events: the maximum alone, and nothing is granted",
            audited_as(
                Token::of(&g()),
                MAXIMUM,
                &[audit(FAILURE, u32::MAX, &g()), audit(BOTH, 1, &g())],
            ),
            no(0),
        ),
        ask(
            "events: the maximum and 1, and 1 is covered",
            meets(MAXIMUM | 1, 1),
            yes(7).raising(&[[0, 0, 1]]),
        ),
        ask(
            "events: the maximum and 1, and 6 is covered, which is granted but not explicit",
            meets(MAXIMUM | 1, 6),
            yes(7),
        ),
        ask(
            "events: the maximum and 8, which is not granted: 8 is covered by a failure, 1 is not",
            audited(MAXIMUM | 8, &[audit(FAILURE, 1, &u()), audit(FAILURE, 8, &u())]),
            no(7).raising(&[[0, 1, 8]]),
        ),
        ask(
            "events: 0x02000000 in an entry covers nothing, not even the maximum",
            meets(MAXIMUM | 1, MAXIMUM),
            yes(7),
        ),
        ask("events: asking nothing raises none", meets(0, u32::MAX), yes(0)),
        ask(
            "events: 0x01000000 covers nothing, though it is asked and granted",
            meets_as(secure(), SYSTEM_SECURITY, SYSTEM_SECURITY),
            yes(SYSTEM_SECURITY),
        ),
        ask(
            "events: no entry covers 0x01000000, asked alone and not granted",
            meets(SYSTEM_SECURITY, u32::MAX),
            no(0),
        ),
        ask(
            "events: 0x01000001 is asked, and its 1 is covered by 0x01000001",
            meets_as(secure(), SYSTEM_SECURITY | 1, SYSTEM_SECURITY | 1),
            yes(SYSTEM_SECURITY | 1).raising(&[[0, 0, SYSTEM_SECURITY | 1]]),
        ),
    ]
}

/// Masks in one to five bytes.
fn stored() -> Vec<Case> {
    let masks = [
        0x01,
        0x7F,
        0x81,
        0x3FFF,
        0x4001,
        0x001F_FFFF,
        0x0020_0001,
        0x0FFF_FFFF,
        0x1000_0001,
        0x7FFF_FFFF,
        0x8000_0001,
        u32::MAX,
    ];
    let entries = masks.map(|mask| audit(SUCCESS, mask, &u()));
    let mut events = Vec::new();
    for (number, mask) in (0..).zip(masks) {
        events.push([0, number, mask]);
    }
    vec![ask("events: masks in one to five bytes", audited(1, &entries), yes(1).raising(&events))]
}

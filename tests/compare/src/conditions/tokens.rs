//! The tokens of a condition that is accepted, and the same condition with others.

use pirasteh_cases::expressions::*;
use std::ops::Range;

/// The tokens behind the prefix, by their places. The padding is none.
pub fn of(condition: &[u8]) -> Vec<Range<usize>> {
    let mut all = Vec::new();
    let mut at = PREFIX.len();
    while at < condition.len() && condition[at] != 0 {
        let end = match condition[at] {
            LITERAL | COMPOSITE => at + 5 + length_at(condition, at + 1),
            _ => at + 1,
        };
        all.push(at..end);
        at = end;
    }
    all
}

fn length_at(condition: &[u8], at: usize) -> usize {
    let four = &condition[at..at + 4];
    u32::from_le_bytes([four[0], four[1], four[2], four[3]]) as usize
}

/// The most operands that are on the stack at once.
pub fn depth(condition: &[u8]) -> usize {
    let (mut now, mut most) = (0usize, 0);
    for token in of(condition) {
        match condition[token.start] {
            LITERAL | COMPOSITE => now += 1,
            AND | OR => now = now.saturating_sub(1),
            _ => {}
        }
        most = most.max(now);
    }
    most
}

/// The SIDs of a composite, each with its token and length.
pub fn inside(condition: &[u8], composite: &Range<usize>) -> Vec<Range<usize>> {
    let mut all = Vec::new();
    let mut at = composite.start + 5;
    while at < composite.end {
        let end = at + 5 + length_at(condition, at + 1);
        all.push(at..end);
        at = end;
    }
    all
}

/// With another operator at this place, or with none: then with a zero more at the end.
pub fn with_operator(condition: &[u8], at: usize, operator: Option<u8>) -> Vec<u8> {
    let mut new = condition.to_vec();
    match operator {
        Some(token) => new[at] = token,
        None => {
            new.remove(at);
            new.push(0);
        }
    }
    new
}

/// Without one SID of a composite, and with as many zeros at the end.
pub fn without(condition: &[u8], composite: &Range<usize>, sid: &Range<usize>) -> Vec<u8> {
    let length = (composite.len() - 5 - sid.len()) as u32;
    let mut new = condition.to_vec();
    new[composite.start + 1..composite.start + 5].copy_from_slice(&length.to_le_bytes());
    new.drain(sid.clone());
    new.resize(condition.len(), 0);
    new
}

/// With one SID for another of the same length, wherever it stands.
pub fn renamed(condition: &[u8], from: &[u8], to: &[u8]) -> Vec<u8> {
    let mut new = condition.to_vec();
    for token in of(condition) {
        let sids = match condition[token.start] {
            LITERAL => vec![token],
            COMPOSITE => inside(condition, &token),
            _ => continue,
        };
        for sid in sids {
            if &condition[sid.start + 5..sid.end] == from {
                new[sid.start + 5..sid.end].copy_from_slice(to);
            }
        }
    }
    new
}

//! Conditions: expressions in postfix behind `artx`, about membership in lists of SIDs. A callback
//! entry has one behind its SID, and a rule may have one as its applies_to.
//!
//! A condition knows nothing of tokens: who is a member is asked of whoever evaluates it.

#[cfg(test)]
mod tests;

use crate::sid;

const PREFIX: &[u8] = b"artx";
const PADDING: u8 = 0x00;
const COMPOSITE: u8 = 0x50;
const LITERAL: u8 = 0x51;
const MEMBER_OF: u8 = 0x89;
const MEMBER_OF_ANY: u8 = 0x8B;
const NOT_MEMBER_OF: u8 = 0x90;
const NOT_MEMBER_OF_ANY: u8 = 0x92;
const AND: u8 = 0xA0;
const OR: u8 = 0xA1;
const NOT: u8 = 0xA2;

/// So many operands may be on the stack at once.
const DEEPEST: usize = 32;

/// Why bytes are no condition: by the first fault from the left.
#[derive(Clone, Copy, Debug, PartialEq, Eq)]
pub enum Fault {
    Broken,
    OtherToken,
}

use Fault::{Broken, OtherToken};

/// One token of a condition that is whole.
#[derive(Debug)]
enum Step<'a> {
    /// A literal, or a composite.
    List(Vec<&'a [u8]>),
    Member(Member),
    And,
    Or,
    Not,
}

/// A question about a list: one of its SIDs or all of them, and whether the answer is turned round.
#[derive(Clone, Copy, Debug)]
struct Member {
    any: bool,
    negated: bool,
}

/// What stands on the stack, as far as shape goes.
#[derive(Clone, Copy, PartialEq, Eq)]
enum Operand {
    List,
    Truth,
}

/// A condition that is whole.
#[derive(Debug)]
pub struct Condition<'a> {
    steps: Vec<Step<'a>>,
}

/// Takes so many bytes from the front.
fn take<'a>(rest: &mut &'a [u8], length: usize) -> Result<&'a [u8], Fault> {
    let front = rest.get(..length).ok_or(Broken)?;
    *rest = &rest[length..];
    Ok(front)
}

/// Takes a u32 length, and then that many bytes.
fn take_enclosed<'a>(rest: &mut &'a [u8]) -> Result<&'a [u8], Fault> {
    let four = take(rest, 4)?;
    let length = u32::from_le_bytes([four[0], four[1], four[2], four[3]]);
    take(rest, usize::try_from(length).map_err(|_| Broken)?)
}

/// What follows the token of a literal: one SID, and nothing else is enclosed.
fn take_literal<'a>(rest: &mut &'a [u8]) -> Result<&'a [u8], Fault> {
    let enclosed = take_enclosed(rest)?;
    if sid::is_exactly_one(enclosed) {
        Ok(enclosed)
    } else {
        Err(Broken)
    }
}

/// What follows the token of a composite: literals back to back.
fn take_composite<'a>(rest: &mut &'a [u8]) -> Result<Vec<&'a [u8]>, Fault> {
    let mut inside = take_enclosed(rest)?;
    let mut sids = Vec::new();
    while let Some((&token, after)) = inside.split_first() {
        inside = after;
        match token {
            LITERAL => sids.push(take_literal(&mut inside)?),
            token if PROFILE.contains(&token) => return Err(Broken),
            _ => return Err(OtherToken),
        }
    }
    Ok(sids)
}

/// The tokens that this edition reads, and the byte of padding.
const PROFILE: [u8; 10] = [
    PADDING,
    COMPOSITE,
    LITERAL,
    MEMBER_OF,
    MEMBER_OF_ANY,
    NOT_MEMBER_OF,
    NOT_MEMBER_OF_ANY,
    AND,
    OR,
    NOT,
];

/// Takes the rest of a token whose first byte is this.
fn take_step<'a>(token: u8, rest: &mut &'a [u8]) -> Result<Step<'a>, Fault> {
    let member = |any, negated| Step::Member(Member { any, negated });
    Ok(match token {
        LITERAL => Step::List(vec![take_literal(rest)?]),
        COMPOSITE => Step::List(take_composite(rest)?),
        MEMBER_OF => member(false, false),
        MEMBER_OF_ANY => member(true, false),
        NOT_MEMBER_OF => member(false, true),
        NOT_MEMBER_OF_ANY => member(true, true),
        AND => Step::And,
        OR => Step::Or,
        NOT => Step::Not,
        _ => return Err(OtherToken),
    })
}

/// The stack after a step: what the step takes is there and of the right kind, and there is room
/// for what it gives.
fn stacked(stack: &mut Vec<Operand>, step: &Step) -> Result<(), Fault> {
    let (takes, gives): (&[Operand], Operand) = match step {
        Step::List(_) => (&[], Operand::List),
        Step::Member(_) => (&[Operand::List], Operand::Truth),
        Step::And | Step::Or => (&[Operand::Truth, Operand::Truth], Operand::Truth),
        Step::Not => (&[Operand::Truth], Operand::Truth),
    };
    if !stack.ends_with(takes) {
        return Err(Broken);
    }
    stack.truncate(stack.len() - takes.len());
    if stack.len() == DEEPEST {
        return Err(Broken);
    }
    stack.push(gives);
    Ok(())
}

/// Reads a whole condition, padding included. The error is the first fault from the left.
pub fn read(bytes: &[u8]) -> Result<Condition<'_>, Fault> {
    let mut rest = bytes.strip_prefix(PREFIX).ok_or(Broken)?;
    let mut steps = Vec::new();
    let mut stack = Vec::new();
    while let Some((&token, after)) = rest.split_first() {
        if token == PADDING {
            break;
        }
        rest = after;
        let step = take_step(token, &mut rest)?;
        stacked(&mut stack, &step)?;
        steps.push(step);
    }
    // Where no token stands any more there are zeros, if anything.
    if rest.iter().any(|&byte| byte != PADDING) {
        return Err(Broken);
    }
    if stack != [Operand::Truth] {
        return Err(Broken);
    }
    Ok(Condition { steps })
}

impl Condition<'_> {
    /// Whether it is true, for the members that `is_member` tells.
    pub fn holds(&self, is_member: impl Fn(&[u8]) -> bool) -> bool {
        let mut lists: Vec<&[&[u8]]> = Vec::new();
        let mut truths: Vec<bool> = Vec::new();
        for step in &self.steps {
            match step {
                Step::List(sids) => lists.push(sids),
                Step::Member(member) => {
                    let sids = popped(&mut lists);
                    let found = if member.any {
                        sids.iter().any(|sid| is_member(sid))
                    } else {
                        sids.iter().all(|sid| is_member(sid))
                    };
                    truths.push(found != member.negated);
                }
                Step::And => {
                    let (right, left) = (popped(&mut truths), popped(&mut truths));
                    truths.push(left && right);
                }
                Step::Or => {
                    let (right, left) = (popped(&mut truths), popped(&mut truths));
                    truths.push(left || right);
                }
                Step::Not => {
                    let one = popped(&mut truths);
                    truths.push(!one);
                }
            }
        }
        popped(&mut truths)
    }
}

/// The latest operand of a condition that is whole.
fn popped<T>(stack: &mut Vec<T>) -> T {
    stack.pop().expect("a whole condition has its operands")
}

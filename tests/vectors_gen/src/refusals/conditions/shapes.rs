//! What conditions that are refused hold. Those that are cut off, or end too early, have whole
//! words of bytes, so that no padding comes behind them in an entry.

mod operands;

use super::Fault::{self, Broken, Other};
use crate::case::*;
use pirasteh_cases::expressions::*;

/// A fault, what it is, and the condition's bytes.
type Shape = (Fault, String, Vec<u8>);

/// A byte outside the profile: a local attribute, which MS-DTYP defines.
const ATTRIBUTE: u8 = 0xF8;

pub fn all() -> Vec<Shape> {
    let mut all = prefixes();
    all.extend(paddings());
    all.extend(operands::literals());
    all.extend(operands::composites());
    all.extend(operators());
    all.extend(depths());
    all.extend(other_tokens());
    all.extend(firsts());
    all
}

fn shape(fault: Fault, what: &str, parts: &[&[u8]]) -> Shape {
    (fault, what.into(), parts.concat())
}

/// The same behind the prefix.
fn of(fault: Fault, what: &str, tokens: &[&[u8]]) -> Shape {
    (fault, what.into(), expression(tokens))
}

/// A literal of U, 21 bytes.
fn lit() -> Vec<u8> {
    literal(&u())
}

/// The same with Member_of, 22 bytes.
fn truth() -> Vec<u8> {
    [lit(), vec![MEMBER_OF]].concat()
}

fn prefixes() -> Vec<Shape> {
    vec![
        shape(Broken, "nothing but zeros", &[&[0; 4]]),
        shape(Broken, "the prefix alone: there is no token", &[b"artx"]),
        shape(Broken, "the prefix and zeros: there is no token", &[b"artx", &[0; 8]]),
        shape(Broken, "the prefix in capitals", &[b"ARTX", &truth()]),
        shape(Broken, "the prefix the other way round", &[b"xtra", &truth()]),
        shape(Broken, "another last letter of the prefix", &[b"arty", &truth()]),
        shape(Broken, "a zero before the prefix", &[b"\0artx", &truth()]),
        shape(
            Other,
            "the prefix twice: its letters are other tokens",
            &[b"artx", b"artx", &truth()],
        ),
        shape(Broken, "tokens without a prefix", &[&truth(), &[NOT]]),
        shape(Broken, "another token without the prefix", &[b"art", &[ATTRIBUTE]]),
    ]
}

/// The first zero where a token should stand is padding.
fn paddings() -> Vec<Shape> {
    let t = truth();
    vec![
        of(Broken, "a zero, and then a token", &[&t, &[0, NOT]]),
        of(Broken, "a zero, and then another token", &[&t, &[0, ATTRIBUTE]]),
        of(Broken, "zeros, and then a one", &[&t, &[0; 9], &[1]]),
        of(Broken, "a zero before the first token", &[&[0], &t]),
        of(Broken, "a zero between two tokens", &[&lit(), &[0, MEMBER_OF]]),
        of(Broken, "the last byte of all is not zero", &[&t, &[0; 4093], &[0x80]]),
    ]
}

/// Member operators take a list, the others truths, and the end needs one truth.
fn operators() -> Vec<Shape> {
    let (l, t) = (lit(), truth());
    let mut all = Vec::new();
    for token in [MEMBER_OF, MEMBER_OF_ANY, NOT_MEMBER_OF, NOT_MEMBER_OF_ANY] {
        all.push(of(Broken, &format!("{token:#04x} without an operand"), &[&[token], &t]));
        all.push(of(Broken, &format!("{token:#04x} of a truth"), &[&t, &[token]]));
    }
    for token in [AND, OR] {
        all.push(of(Broken, &format!("{token:#04x} without an operand"), &[&[token], &t]));
        all.push(of(Broken, &format!("{token:#04x} of one truth"), &[&t, &[token]]));
        all.push(of(Broken, &format!("{token:#04x} of a list and a truth"), &[&l, &t, &[token]]));
        all.push(of(Broken, &format!("{token:#04x} of a truth and a list"), &[&t, &l, &[token]]));
        all.push(of(Broken, &format!("{token:#04x} of two lists"), &[&l, &l, &[token]]));
    }
    all.push(of(Broken, "0xa2 without an operand", &[&[NOT], &t]));
    all.push(of(Broken, "0xa2 of a list", &[&l, &[NOT]]));
    all.push(of(Broken, "a list alone", &[&l]));
    all.push(of(Broken, "an empty composite alone", &[&composite::<&[u8]>(&[])]));
    all.push(of(Broken, "two truths at the end", &[&t, &t]));
    all.push(of(Broken, "a truth and a list at the end", &[&t, &l]));
    all.push(of(Broken, "a list and a truth at the end", &[&l, &t]));
    all
}

/// 32 operands at once are fine, 33 are not.
fn depths() -> Vec<Shape> {
    let (l, t) = (lit(), truth());
    let empty = composite::<&[u8]>(&[]);
    vec![
        of(Broken, "33 truths at once", &[&t.repeat(33), &[AND; 32]]),
        of(Broken, "33 at once, the last an empty composite", {
            &[&t.repeat(32), &empty, &[MEMBER_OF], &[AND; 32]]
        }),
        of(Broken, "33 literals, and then another token", &[&l.repeat(33), &[ATTRIBUTE]]),
        of(Other, "32 literals, and then another token", &[&l.repeat(32), &[ATTRIBUTE]]),
        of(Broken, "33 composites, and then another token", &[&empty.repeat(33), &[ATTRIBUTE]]),
        of(Other, "32 composites, and then another token", &[&empty.repeat(32), &[ATTRIBUTE]]),
        of(Other, "32 truths, and then another token", &[&t.repeat(32), &[ATTRIBUTE]]),
        of(
            Other,
            "32 literals, and not with 32 truths at once, and then another token",
            &[&t.repeat(32), &[NOT, ATTRIBUTE]],
        ),
        of(
            Other,
            "32 literals, and a composite with another token: it is read whole first",
            &[&l.repeat(32), &enclosing(COMPOSITE, &[ATTRIBUTE])],
        ),
        of(
            Broken,
            "32 literals, and a composite that does not fit, with another token inside",
            &[&l.repeat(32), &operand(COMPOSITE, 9, &[ATTRIBUTE])],
        ),
    ]
}

/// Every byte outside the profile is an other token, whether MS-DTYP defines it or not.
fn other_tokens() -> Vec<Shape> {
    let mut all = Vec::new();
    for (token, what) in [
        (0x01, "an 8-bit integer"),
        (0x10, "a text"),
        (0x18, "an octet string"),
        (0x4F, "one before the composite"),
        (0x52, "one behind the literal"),
        (0x80, "equal"),
        (0x87, "exists"),
        (0x88, "any of"),
        (0x8A, "Device_Member_of"),
        (0x8C, "Device_Member_of_Any"),
        (0x8E, "not contains"),
        (0x91, "not Device_Member_of"),
        (0x93, "not Device_Member_of_Any"),
        (0x9F, "one before and"),
        (0xA3, "one behind not"),
        (0xF8, "a local attribute"),
        (0xFF, "no token of MS-DTYP"),
    ] {
        all.push(of(
            Other,
            &format!("{token:#04x}, {what}, behind a literal"),
            &[&lit(), &[token]],
        ));
    }
    all.push(of(Other, "another token where the first should stand", &[&[ATTRIBUTE], &truth()]));
    all.push(of(Other, "another token behind a whole expression", &[&truth(), &[ATTRIBUTE]]));
    all
}

/// The first fault from the left decides.
fn firsts() -> Vec<Shape> {
    let (l, t) = (lit(), truth());
    vec![
        of(
            Other,
            "another token, and then a literal that is cut off",
            &[&t, &[ATTRIBUTE, LITERAL]],
        ),
        of(
            Other,
            "another token, and then a length that does not fit",
            &[&[ATTRIBUTE], &operand(COMPOSITE, u32::MAX, &[])],
        ),
        of(Other, "another token, and then and without operands", &[&[ATTRIBUTE, AND]]),
        of(Other, "another token, and then a zero and a one", &[&t, &[ATTRIBUTE, 0, 1]]),
        of(Other, "two lists, and then another token", &[&l, &l, &[ATTRIBUTE]]),
        of(Broken, "and without operands, and then another token", &[&[AND, ATTRIBUTE]]),
        of(Broken, "not of a list, and then another token", &[&l, &[NOT, ATTRIBUTE]]),
        of(
            Broken,
            "a literal that is too short, and then another token",
            &[&operand(LITERAL, 15, &u()), &[ATTRIBUTE]],
        ),
        of(
            Broken,
            "a literal of revision 2, and then another token",
            &[&literal(&patched(u(), 0, &[2])), &[ATTRIBUTE]],
        ),
    ]
}

//! Literals and composites that are broken, and composites with another token.

use super::{lit, of, truth, Shape, ATTRIBUTE};
use crate::case::*;
use crate::refusals::conditions::Fault::{self, Broken, Other};
use pirasteh_cases::expressions::*;
use pirasteh_cases::make::sid;

/// A literal's length is exactly its SID's.
pub fn literals() -> Vec<Shape> {
    let u = u();
    let said = |what: &str, length: u32, sid: &[u8], behind: &[u8]| {
        of(Broken, what, &[&operand(LITERAL, length, sid), behind])
    };
    let op: &[u8] = &[MEMBER_OF];
    vec![
        said("a literal of one byte less than its SID", 15, &u, op),
        said("a literal of one byte more than its SID", 17, &u, &[0, MEMBER_OF]),
        said("a literal of four bytes more than its SID", 20, &u, &[0, 0, 0, 0, MEMBER_OF]),
        said("a literal of no bytes", 0, &[], op),
        said("a literal of 7 bytes", 7, &u[..7], op),
        said("a literal of two SIDs", 32, &[&u[..], &u].concat(), op),
        said("a literal of 0xFFFFFFFF bytes", u32::MAX, &u, op),
        said("a literal of 0x80000010 bytes", 0x8000_0010, &u, op),
        said("a literal of 0x00010010 bytes", 0x1_0010, &u, op),
        said("a literal with its length in big-endian", 0x1000_0000, &u, op),
        said("a literal whose SID has revision 0", 16, &patched(u.clone(), 0, &[0]), op),
        said("a literal whose SID has revision 2", 16, &patched(u.clone(), 0, &[2]), op),
        said("a literal whose SID says one word more", 16, &patched(u.clone(), 1, &[3]), op),
        said("a literal whose SID says one word less", 16, &patched(u.clone(), 1, &[1]), op),
        said("a literal of a SID of 16 words", 72, &sid(5, &[7; 16]), op),
        said("a literal that is cut off by its last byte", 16, &u[..15], &[]),
        said("a literal that is cut off behind its SID's head", 16, &u[..11], &[]),
        of(Broken, "a literal whose length is cut off", &[&truth(), &[LITERAL, 16]]),
        of(Broken, "a literal that is cut off behind its token", &[&truth(), &[NOT, LITERAL]]),
    ]
}

/// A composite's length encloses literals.
pub fn composites() -> Vec<Shape> {
    let inside = lit();
    let any: &[u8] = &[MEMBER_OF_ANY];
    let said = |what: &str, length: u32, bytes: &[u8]| {
        of(Broken, what, &[&operand(COMPOSITE, length, bytes), any])
    };
    let holds = |fault: Fault, what: &str, bytes: &[u8]| {
        of(fault, what, &[&enclosing(COMPOSITE, bytes), any])
    };
    let mut all = vec![
        said("a composite that ends one byte inside its literal", 20, &inside),
        said("a composite that encloses its operator too", 22, &inside),
        said("a composite of 0xFFFFFFFF bytes", u32::MAX, &inside),
        said("a composite of 0xFFFFFFFB bytes", 0xFFFF_FFFB, &inside),
        said("a composite of 0x00010015 bytes", 0x1_0015, &inside),
        said("a composite of one byte, where its literal stands", 1, &inside),
        holds(
            Broken,
            "a composite in which a literal goes on behind its end",
            &operand(LITERAL, 17, &u()),
        ),
        holds(
            Broken,
            "a composite in which the second literal is too short",
            &[inside.clone(), operand(LITERAL, 8, &u())].concat(),
        ),
        holds(Other, "a composite of a SID alone, whose first byte is another token", &u()),
        holds(Broken, "a composite with a zero behind its literal", &[&inside[..], &[0]].concat()),
        holds(Broken, "a composite of zeros", &[0; 4]),
        holds(Broken, "a composite of a composite of a literal", &composite(&[u()])),
        holds(Broken, "a composite of an empty composite", &enclosing(COMPOSITE, &[])),
        of(Broken, "a composite whose length is cut off", &[&truth(), &[COMPOSITE, 0]]),
    ];
    for token in [MEMBER_OF, MEMBER_OF_ANY, NOT_MEMBER_OF, NOT_MEMBER_OF_ANY, AND, OR, NOT] {
        let bytes = [&inside[..], &[token]].concat();
        all.push(holds(Broken, &format!("a composite with the operator {token:#04x}"), &bytes));
    }
    all.push(holds(Other, "a composite with another token", &[ATTRIBUTE]));
    all.push(holds(Other, "a composite with an integer, 0x04", &[4]));
    all.push(holds(
        Other,
        "a composite with another token behind its literal",
        &[&inside[..], &[ATTRIBUTE]].concat(),
    ));
    all.push(holds(
        Other,
        "a composite with another token, and then a broken literal",
        &[ATTRIBUTE, LITERAL, 1, 0, 0, 0],
    ));
    all.push(holds(
        Broken,
        "a composite with a broken literal, and then another token",
        &[LITERAL, 1, 0, 0, 0, 1, ATTRIBUTE],
    ));
    all.push(holds(
        Broken,
        "a composite with an operator, and then another token",
        &[MEMBER_OF, ATTRIBUTE],
    ));
    all.push(holds(Broken, "a composite with a zero, and then another token", &[0, ATTRIBUTE]));
    all.push(said("a composite that does not fit, with another token inside", 9, &[ATTRIBUTE]));
    all
}

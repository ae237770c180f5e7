//! Conditions that are refused: broken in every way, or with another token in every place.

use super::super::cast::Cast;
use super::super::whole::{leaf, list, other_token, truth};
use super::Shape;
use crate::expressions::*;
use crate::rng::Rng;

/// A condition of this shape. In an entry it has whole words, where more zeros would change it.
pub fn condition(rng: &mut Rng, shape: Shape, in_entry: bool, cast: &Cast) -> Vec<u8> {
    let someone = |rng: &mut Rng| cast.someone(rng);
    match shape {
        Shape::NoBytes => Vec::new(),
        Shape::Zeros => vec![0; 1 + rng.below(9)],
        Shape::PrefixCut if in_entry => PREFIX[..3].to_vec(),
        Shape::PrefixCut => PREFIX[..1 + rng.below(3)].to_vec(),
        Shape::PrefixOff => {
            let mut bytes = expression(&[leaf(rng, &someone)]);
            bytes[rng.below(4)] ^= rng.of(&[1, 0x20, 0x80]);
            bytes
        }
        Shape::NoToken => expression(&[vec![0; 4 * rng.below(3)]]),
        Shape::LiteralCut => {
            let whole = literal(&cast.someone(rng));
            let length = 1 + rng.below(whole.len() - 1);
            aligned(rng, cast, &whole[..length])
        }
        Shape::CompositeHuge | Shape::HugeAroundOther => {
            let inside = match shape {
                Shape::CompositeHuge => literal(&cast.someone(rng)),
                _ => vec![other_token(rng)],
            };
            let length = inside.len() as u32;
            let more = rng.of(&[length + 1, length + 4, u32::MAX, u32::MAX - 4, 0x8000_0000]);
            aligned(rng, cast, &operand(COMPOSITE, more, &inside))
        }
        _ => {
            let mut bytes = expression(&[tokens(rng, shape, cast)]);
            let zeros = rng.of(&[0, 0, 1, 3, 8]);
            bytes.resize(bytes.len() + zeros, 0);
            bytes
        }
    }
}

/// A truth, and behind it these bytes, so that all are whole words.
fn aligned(rng: &mut Rng, cast: &Cast, end: &[u8]) -> Vec<u8> {
    let mut bytes = expression(&[leaf(rng, &|rng| cast.someone(rng))]);
    while (bytes.len() + end.len()) % 4 != 0 {
        bytes.push(NOT);
    }
    bytes.extend(end);
    bytes
}

/// The tokens of a shape behind which zeros change nothing.
fn tokens(rng: &mut Rng, shape: Shape, cast: &Cast) -> Vec<u8> {
    let who = |rng: &mut Rng| cast.someone(rng);
    let one = who(rng);
    let operator = rng.of(&MEMBERS);
    let size = rng.below(3);
    let whole = truth(rng, &who, size);
    let other = other_token(rng);
    let composed = |inside: &[u8]| [enclosing(COMPOSITE, inside), vec![operator]].concat();
    let length = one.len() as u32;
    match shape {
        Shape::BehindPadding => [whole, vec![0; 1 + rng.below(9)], vec![rng.of(&PROFILE)]].concat(),
        Shape::OtherBehindPadding => [whole, vec![0; 1 + rng.below(9)], vec![other]].concat(),
        Shape::LiteralLong => {
            // What it has more are bytes of its own, or those behind it.
            let more = rng.of(&[1, 4]);
            let own = vec![rng.of(&[0, 1]); if rng.one_in(2) { more as usize } else { 0 }];
            [operand(LITERAL, length + more, &one), own, vec![operator], vec![0; 4]].concat()
        }
        Shape::LiteralShort | Shape::LiteralHuge => {
            let said = match shape {
                Shape::LiteralShort => length - rng.of(&[1, 4, length]),
                _ => rng.of(&[u32::MAX, 0x8000_0000 + length, 0x1_0000 + length]),
            };
            [operand(LITERAL, said, &one), vec![operator], vec![0; 4]].concat()
        }
        Shape::LiteralRevision | Shape::LiteralWords => {
            let mut sid = one;
            if shape == Shape::LiteralRevision {
                sid[0] = rng.of(&[0, 2, 0xFF]);
            } else {
                sid[1] = rng.of(&[sid[1] + 1, sid[1].wrapping_sub(1), 16, 0xFF]);
            }
            [literal(&sid), vec![operator]].concat()
        }
        Shape::CompositeShort => {
            let inside = literal(&one);
            let length = inside.len() as u32 - rng.of(&[1, 4]);
            [operand(COMPOSITE, length, &inside), vec![operator]].concat()
        }
        Shape::CompositeLong => {
            let inside = literal(&one);
            let length = inside.len() as u32 + 1;
            [operand(COMPOSITE, length, &inside), vec![operator]].concat()
        }
        Shape::CompositeOpen => {
            let open = operand(LITERAL, length + rng.of(&[1, 4]), &one);
            composed(&[literal(&who(rng)), open].concat())
        }
        Shape::CompositeOperator => {
            let token = rng.of(&[operator, AND, OR, NOT]);
            composed(&[literal(&one), vec![token]].concat())
        }
        Shape::CompositeComposite => composed(&list_in_list(rng, cast)),
        Shape::CompositeZero => composed(&[literal(&one), vec![0; 1 + rng.below(4)]].concat()),
        _ => on_the_stack(rng, shape, cast, &whole, other),
    }
}

/// A composite, perhaps of none.
fn list_in_list(rng: &mut Rng, cast: &Cast) -> Vec<u8> {
    let sids: Vec<Vec<u8>> = (0..rng.below(3)).map(|_| cast.someone(rng)).collect();
    composite(&sids)
}

/// The tokens of the other shapes: operands that are missing, left or too many, and other tokens.
fn on_the_stack(rng: &mut Rng, shape: Shape, cast: &Cast, whole: &[u8], other: u8) -> Vec<u8> {
    let who = |rng: &mut Rng| cast.someone(rng);
    let lists = |rng: &mut Rng, count: usize| {
        (0..count).map(|_| list(rng, &who)).collect::<Vec<_>>().concat()
    };
    let truths = |rng: &mut Rng, count: usize| {
        (0..count).map(|_| leaf(rng, &who)).collect::<Vec<_>>().concat()
    };
    let broken = broken(rng, cast);
    match shape {
        Shape::NoOperand => {
            let logic = [&[rng.of(&[AND, OR])], whole].concat();
            let member = [&[rng.of(&MEMBERS)], whole].concat();
            let one = [whole, &[rng.of(&[AND, OR])]].concat();
            rng.pick(&[logic, member, one, [&[NOT], whole].concat()]).clone()
        }
        Shape::WrongOperand => broken,
        Shape::ListLeft => list(rng, &who),
        Shape::TwoLeft => [whole.to_vec(), truths(rng, 1)].concat(),
        Shape::ListBelow => [lists(rng, 1), whole.to_vec()].concat(),
        Shape::Truths33 => [truths(rng, 33), vec![rng.of(&[AND, OR]); 32]].concat(),
        Shape::Composite33 => {
            let last = [composite::<&[u8]>(&[]), vec![rng.of(&MEMBERS)]].concat();
            [truths(rng, 32), last, vec![AND; 32]].concat()
        }
        Shape::BrokenThenOther => [broken, vec![other]].concat(),
        Shape::Lists33ThenOther => [lists(rng, 33), vec![other]].concat(),
        Shape::OtherFirst => [&[other], whole].concat(),
        Shape::OtherLast => [whole, &[other]].concat(),
        Shape::OtherBetween => [lists(rng, 1), vec![other, rng.of(&MEMBERS)]].concat(),
        Shape::OtherInComposite | Shape::OtherBehindLiteral => {
            let mut inside = vec![other];
            if shape == Shape::OtherBehindLiteral {
                inside = [literal(&who(rng)), inside].concat();
            }
            inside.extend(rng.of(&[&[][..], &[0], &[LITERAL], &[MEMBER_OF]]));
            [enclosing(COMPOSITE, &inside), vec![rng.of(&MEMBERS)]].concat()
        }
        Shape::OtherThenBroken => {
            let cut = operand(LITERAL, rng.of(&[8, 0, u32::MAX]), &[1]);
            let behind = rng.pick(&[vec![LITERAL], cut, vec![0, 1], broken]).clone();
            [whole, &[other], &behind].concat()
        }
        Shape::Lists32ThenOther => [lists(rng, 32), vec![other]].concat(),
        _ => [lists(rng, 32), enclosing(COMPOSITE, &[other])].concat(),
    }
}

/// Operators whose operands are of the wrong kind.
fn broken(rng: &mut Rng, cast: &Cast) -> Vec<u8> {
    let who = |rng: &mut Rng| cast.someone(rng);
    let (one, other) = (list(rng, &who), leaf(rng, &who));
    let logic = rng.of(&[AND, OR]);
    match rng.below(5) {
        0 => [one, vec![NOT]].concat(),
        1 => [other, vec![rng.of(&MEMBERS)]].concat(),
        2 => [one, other, vec![logic]].concat(),
        3 => [other, one, vec![logic]].concat(),
        _ => [one.clone(), one, vec![logic]].concat(),
    }
}

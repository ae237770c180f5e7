use super::*;

/// S-1-5-1, a member, and S-1-5-2, who is none.
const IN: [u8; 12] = [1, 1, 0, 0, 0, 0, 0, 5, 1, 0, 0, 0];
const OUT: [u8; 12] = [1, 1, 0, 0, 0, 0, 0, 5, 2, 0, 0, 0];
/// A byte outside the profile.
const OTHER: u8 = 0xF8;

fn enclosed(token: u8, bytes: &[u8]) -> Vec<u8> {
    [&[token], &(bytes.len() as u32).to_le_bytes()[..], bytes].concat()
}

fn literal(sid: &[u8]) -> Vec<u8> {
    enclosed(LITERAL, sid)
}

fn composite(sids: &[&[u8]]) -> Vec<u8> {
    enclosed(COMPOSITE, &sids.iter().map(|sid| literal(sid)).collect::<Vec<_>>().concat())
}

/// Whether it holds, or its fault.
fn said(bytes: &[u8]) -> Result<bool, Fault> {
    Ok(read(bytes)?.holds(|sid| sid == IN))
}

/// The same of these tokens behind the prefix.
fn tokens(parts: &[&[u8]]) -> Result<bool, Fault> {
    said(&[PREFIX, &parts.concat()].concat())
}

/// A literal with Member_of: true, or false.
fn truth(is: bool) -> Vec<u8> {
    [literal(if is { &IN } else { &OUT }), vec![MEMBER_OF]].concat()
}

#[test]
fn member_operators() {
    // (list, Member_of, Member_of_Any)
    let cases: [(Vec<u8>, bool, bool); 8] = [
        (literal(&IN), true, true),
        (literal(&OUT), false, false),
        (composite(&[]), true, false),
        (composite(&[&IN]), true, true),
        (composite(&[&OUT]), false, false),
        (composite(&[&IN, &IN]), true, true),
        (composite(&[&IN, &OUT]), false, true),
        (composite(&[&OUT, &OUT]), false, false),
    ];
    for (list, all, any) in cases {
        for (token, expected) in [
            (MEMBER_OF, all),
            (MEMBER_OF_ANY, any),
            (NOT_MEMBER_OF, !all),
            (NOT_MEMBER_OF_ANY, !any),
        ] {
            assert_eq!(tokens(&[&list, &[token]]), Ok(expected), "{token:#04x} of {list:02x?}");
        }
    }
}

#[test]
fn logic() {
    for left in [false, true] {
        assert_eq!(tokens(&[&truth(left), &[NOT]]), Ok(!left));
        for right in [false, true] {
            let both = [truth(left), truth(right)].concat();
            assert_eq!(tokens(&[&both, &[AND]]), Ok(left && right), "{left} and {right}");
            assert_eq!(tokens(&[&both, &[OR]]), Ok(left || right), "{left} or {right}");
        }
    }
}

#[test]
fn padding() {
    for zeros in 0..9 {
        assert_eq!(tokens(&[&truth(true), &vec![0; zeros]]), Ok(true), "{zeros} zeros");
        assert_eq!(tokens(&[&truth(true), &vec![0; zeros], &[NOT]]), said_behind(zeros));
        assert_eq!(tokens(&[&vec![0; zeros]]), Err(Broken), "no token, {zeros} zeros");
    }
    assert_eq!(tokens(&[&truth(true), &[0, OTHER]]), Err(Broken));
    assert_eq!(tokens(&[&[0], &truth(true)]), Err(Broken));
}

/// What a token says so many zeros behind a whole expression.
fn said_behind(zeros: usize) -> Result<bool, Fault> {
    if zeros == 0 {
        Ok(false)
    } else {
        Err(Broken)
    }
}

#[test]
fn the_prefix() {
    for bytes in [&b""[..], b"a", b"art", b"artx", b"artX", b"xtra", b"\0\0\0\0"] {
        assert_eq!(said(bytes), Err(Broken), "{bytes:02x?}");
    }
    assert_eq!(said(&[b"Artx", &truth(true)[..]].concat()), Err(Broken));
    assert_eq!(said(&[b"artx", &truth(true)[..]].concat()), Ok(true));
}

#[test]
fn every_byte_by_itself() {
    for token in 0..=u8::MAX {
        let expected = if PROFILE.contains(&token) { Broken } else { OtherToken };
        assert_eq!(tokens(&[&[token]]), Err(expected), "{token:#04x} alone");
        let expected = if token == LITERAL { Broken } else { expected };
        let inside = enclosed(COMPOSITE, &[token]);
        assert_eq!(tokens(&[&inside, &[MEMBER_OF]]), Err(expected), "{token:#04x} inside");
    }
}

#[test]
fn lengths() {
    let said = |token: u8, length: u32, inside: &[u8], behind: &[u8]| {
        tokens(&[&[token], &length.to_le_bytes(), inside, behind])
    };
    assert_eq!(said(LITERAL, 12, &IN, &[MEMBER_OF]), Ok(true));
    for length in [0, 8, 11, 13, 16, u32::MAX] {
        assert_eq!(said(LITERAL, length, &IN, &[MEMBER_OF, 0, 0, 0, 0]), Err(Broken), "{length}");
    }
    // Enclosed are 17 bytes, or the operator too, or not all of the literal.
    let inside = literal(&IN);
    assert_eq!(said(COMPOSITE, 17, &inside, &[MEMBER_OF]), Ok(true));
    for length in [16, 18, 19, u32::MAX] {
        assert_eq!(said(COMPOSITE, length, &inside, &[MEMBER_OF]), Err(Broken), "{length}");
    }
    // A length is met before what it encloses.
    assert_eq!(said(COMPOSITE, 2, &[OTHER], &[]), Err(Broken));
    assert_eq!(said(COMPOSITE, 1, &[OTHER], &[]), Err(OtherToken));
}

#[test]
fn what_is_cut_off_is_broken() {
    let whole = [PREFIX, &composite(&[&IN, &OUT]), &[MEMBER_OF_ANY]].concat();
    assert_eq!(said(&whole), Ok(true));
    for length in 0..whole.len() {
        assert_eq!(said(&whole[..length]), Err(Broken), "{length} bytes");
    }
}

#[test]
fn operands_of_the_wrong_kind() {
    let (list, truth) = (literal(&IN), truth(true));
    for parts in [
        [&list[..], &[NOT]].concat(),
        [&truth[..], &[MEMBER_OF]].concat(),
        [&truth[..], &[AND]].concat(),
        [&list[..], &truth, &[OR]].concat(),
        [&truth[..], &list, &[OR]].concat(),
        [&list[..], &truth].concat(),
        [&truth[..], &truth].concat(),
        list,
    ] {
        assert_eq!(tokens(&[&parts]), Err(Broken), "{parts:02x?}");
    }
}

#[test]
fn the_stack() {
    let truths = |count: usize| truth(true).repeat(count);
    for count in 1..=32 {
        let ands = vec![AND; count - 1];
        assert_eq!(tokens(&[&truths(count), &ands]), Ok(true), "{count}");
        assert_eq!(tokens(&[&truths(count), &[NOT, NOT], &ands]), Ok(true), "{count}");
    }
    assert_eq!(tokens(&[&truths(33), &[AND; 32]]), Err(Broken));
    let lists = |count: usize| literal(&IN).repeat(count);
    assert_eq!(tokens(&[&lists(32), &[OTHER]]), Err(OtherToken));
    assert_eq!(tokens(&[&lists(33), &[OTHER]]), Err(Broken));
    // An operand is read whole before it counts.
    let composite = enclosed(COMPOSITE, &[OTHER]);
    assert_eq!(tokens(&[&lists(32), &composite]), Err(OtherToken));
}

#[test]
fn the_first_fault_decides() {
    assert_eq!(tokens(&[&[OTHER, LITERAL, 9]]), Err(OtherToken));
    assert_eq!(tokens(&[&[NOT, OTHER]]), Err(Broken));
    assert_eq!(tokens(&[&truth(true), &[OTHER]]), Err(OtherToken));
    assert_eq!(tokens(&[&literal(&IN), &[OTHER]]), Err(OtherToken));
}

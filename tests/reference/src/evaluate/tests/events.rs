//! Events: which audit entries raise one, what it says, and where it is written.

use super::*;
use crate::{check_and_events, lend_trail, refused, trail};

/// A group of U's, and a stranger.
const G: [u8; 16] = [1, 2, 0, 0, 0, 0, 0, 5, 32, 0, 0, 0, 32, 2, 0, 0];
const SUCCESS: u8 = 0x40;
const FAILURE: u8 = 0x80;
const BOTH: u8 = 0xC0;

/// A SACL of entries with type, flags, mask and SID.
fn sacl(entries: &[(u8, u8, u32, &[u8])]) -> Vec<u8> {
    let plain: Vec<_> = entries.iter().map(|(kind, _, mask, sid)| (*kind, *mask, *sid)).collect();
    let mut list = list(&plain);
    let mut at = 8;
    for (_, flags, _, sid) in entries {
        list[at + 1] = *flags;
        at += 8 + sid.len();
    }
    list
}

/// Owned by W, with the lists that are there.
fn descriptor(sacl: Option<&[u8]>, dacl: Option<&[u8]>) -> Vec<u8> {
    let mut bytes = vec![1, 0, 0, 0x80, 20];
    bytes.resize(20, 0);
    bytes.extend(W);
    for (bit, field, part) in [(0x10, 12, sacl), (0x04, 16, dacl)] {
        if let Some(part) = part {
            bytes[2] |= bit;
            bytes[field] = bytes.len() as u8;
            bytes.extend(part);
        }
    }
    bytes
}

/// Five sections for each rule.
fn policy_of(rules: &[[&[u8]; 5]]) -> Vec<u8> {
    let mut policy = vec![1, rules.len() as u8, 0, 0, 0];
    for section in rules.as_flattened() {
        policy.extend((section.len() as u32).to_le_bytes());
        policy.extend(*section);
    }
    policy
}

/// U asks for a file that allows him 7.
fn asks(mask: u32, token: &Token, sacl: &[u8], rules: &[u8]) -> Result<(Answer, Vec<Event>), u32> {
    let dacl = list(&[(0, 7, &U)]);
    let descriptor = descriptor(Some(sacl), Some(&dacl));
    check_and_events(FILE, mask, &record::write(token), &[], &descriptor, rules)
}

fn told(said: Result<(Answer, Vec<Event>), u32>) -> Vec<(u32, u32, u32)> {
    let (_, events) = said.expect("an answer");
    events.iter().map(|event| (event.source, event.entry, event.mask)).collect()
}

#[test]
fn an_entry_raises_an_event_if_all_four_hold() {
    let by =
        |mask, entry: (u8, u8, u32, &[u8])| told(asks(mask, &token(0, 0), &sacl(&[entry]), &[]));
    let one = vec![(0, 0, 3)];
    assert_eq!(by(1, (2, SUCCESS, 3, &U)), one);
    assert_eq!(by(1, (2, BOTH, 3, &U)), one);
    assert_eq!(by(1, (2, FAILURE, 3, &U)), []);
    assert_eq!(by(1, (2, 0, 3, &U)), []);
    assert_eq!(by(9, (2, FAILURE, 3, &U)), one);
    assert_eq!(by(9, (2, SUCCESS, 3, &U)), []);
    assert_eq!(by(1, (2, BOTH | 0x08, 3, &U)), []);
    assert_eq!(by(1, (3, BOTH, 3, &U)), []);
    assert_eq!(by(1, (0, BOTH, 3, &U)), []);
    assert_eq!(by(1, (2, BOTH, 3, &G)), []);
    assert_eq!(by(4, (2, BOTH, 3, &U)), []);
    assert_eq!(by(0, (2, BOTH, u32::MAX, &U)), []);
}

#[test]
fn masks_are_mapped_to_be_tried_and_not_to_be_told() {
    let by = |mask, of: u32| told(asks(mask, &token(0, 0), &sacl(&[(2, BOTH, of, &U)]), &[]));
    assert_eq!(by(1, 0x8000_0000), [(0, 0, 0x8000_0000)]);
    assert_eq!(by(2, 0x8000_0000), []);
    assert_eq!(by(0x8000_0000, 1), [(0, 0, 1)]);
    assert_eq!(by(0x0100_0000, 0x0100_0000), []);
    assert_eq!(by(0x0200_0000, u32::MAX), []);
    assert_eq!(by(0x0200_0001, u32::MAX), [(0, 0, u32::MAX)]);
    assert_eq!(by(0x0200_0001, 0x0200_0006), []);
}

#[test]
fn those_who_match_for_deny() {
    let with = |attributes| Token { groups: vec![(G.to_vec(), attributes)], ..token(0, 0) };
    let by = |token: &Token, sid: &[u8]| told(asks(1, token, &sacl(&[(2, BOTH, 1, sid)]), &[]));
    assert_eq!(by(&with(0x4), &G), [(0, 0, 1)]);
    assert_eq!(by(&with(0x10), &G), [(0, 0, 1)]);
    assert_eq!(by(&with(0), &G), []);
    // W owns the object, and nobody is the self identity.
    assert_eq!(by(&token(0, 0), &sid::OWNER_RIGHTS), []);
    assert_eq!(by(&token(0, 0), &sid::PRINCIPAL_SELF), []);
    let w = Token { groups: vec![(W.to_vec(), 0x10)], ..token(0, 0) };
    assert_eq!(by(&w, &sid::OWNER_RIGHTS), [(0, 0, 1)]);
    // Confinement is neither asked nor listed.
    let confined = Token { groups: vec![], ..token(CONFINED, 0) };
    let events = sacl(&[(2, FAILURE, 1, &PACKAGE), (2, FAILURE, 1, &U)]);
    assert_eq!(told(asks(1, &confined, &events, &[])), [(0, 1, 1)]);
}

#[test]
fn entries_and_rules_are_counted_whether_they_are_read_or_not() {
    let seven = list(&[(0, 7, &U)]);
    let events = sacl(&[(17, 0, 0, &W), (2, BOTH, 5, &G), (2, BOTH, 5, &U)]);
    let never = [b'a', b'r', b't', b'x', 0x50, 0, 0, 0, 0, 0x8b];
    let rules =
        policy_of(&[[&never, &seven, &events, &[], &[]], [&[], &seven, &events, &[], &events]]);
    let said = asks(1, &token(0, 0), &events, &rules);
    assert_eq!(told(said.clone()), [(0, 2, 5), (2, 2, 5)]);
    assert!(!said.unwrap().0.staged);
}

#[test]
fn a_staged_sacl_flags_where_its_masks_are_others() {
    let seven = list(&[(0, 7, &U)]);
    let flag = |effective: &[u8], staged: &[u8]| {
        let rules = policy_of(&[[&[], &seven, effective, &[], staged]]);
        asks(1, &token(0, 0), &sacl(&[]), &rules).unwrap().0.staged
    };
    let one = sacl(&[(2, SUCCESS, 1, &U)]);
    let later = sacl(&[(2, SUCCESS, 1, &G), (2, BOTH, 1, &U), (2, FAILURE, 7, &U)]);
    let three = sacl(&[(2, SUCCESS, 3, &U)]);
    let both = sacl(&[(2, SUCCESS, 1, &U), (2, SUCCESS, 3, &U)]);
    let other_way = sacl(&[(2, SUCCESS, 3, &U), (2, SUCCESS, 1, &U)]);
    assert!(!flag(&one, &[]));
    assert!(!flag(&one, &later));
    assert!(flag(&one, &three));
    assert!(flag(&one, &sacl(&[])));
    assert!(flag(&[], &one));
    assert!(!flag(&[], &sacl(&[])));
    assert!(flag(&one, &both));
    assert!(flag(&both, &other_way));
}

#[test]
fn shapes_of_audit_entries() {
    let short = |flags| {
        let mut list = sacl(&[(2, flags, 1, &U)]);
        list[17] = 3;
        list
    };
    let seven = list(&[(0, 7, &U)]);
    assert_eq!(asks(1, &token(0, 0), &short(BOTH), &[]), Err(refused::DESCRIPTOR_SHAPE));
    assert_eq!(asks(1, &token(0, 0), &short(0x08), &[]), Err(refused::DESCRIPTOR_SHAPE));
    for place in [2, 4] {
        let list = short(0x08);
        let mut rule: [&[u8]; 5] = [&[], &seven, &[], &[], &[]];
        rule[place] = &list;
        let said = asks(1, &token(0, 0), &sacl(&[]), &policy_of(&[rule]));
        assert_eq!(said, Err(refused::POLICY_SHAPE));
    }
    // In a DACL it is an other type, and nothing more is asked of it.
    let said = check_and_events(
        FILE,
        1,
        &record::write(&token(0, 0)),
        &[],
        &descriptor(None, Some(&short(0))),
        &[],
    );
    assert_eq!(said, Err(refused::DACL_TYPE));
    let said = asks(1, &token(0, 0), &sacl(&[]), &policy_of(&[[&[], &short(0), &[], &[], &[]]]));
    assert_eq!(said, Err(refused::POLICY_TYPE));
}

#[test]
fn a_trail_is_written_whole_or_not_at_all() {
    let said = asks(1, &token(0, 0), &sacl(&[(2, BOTH, 0x81, &U), (2, SUCCESS, 1, &U)]), &[]);
    let bytes = trail(&said.as_ref().unwrap().1);
    assert_eq!(bytes, [0, 0, 0x81, 1, 0, 1, 1]);
    for room in 0..10 {
        let mut out = vec![0x5A; room];
        let lent = lend_trail(said.clone(), &mut out);
        if room < 7 {
            assert_eq!(lent, Err(refused::SHORT_BUFFER));
            assert_eq!(out, vec![0x5A; room]);
        } else {
            assert_eq!(lent.map(|(_, written)| written), Ok(7));
            assert_eq!(out, [&bytes[..], &vec![0x5A; room - 7]].concat());
        }
    }
    assert_eq!(lend_trail(Err(6), &mut []), Err(6));
}

//! The four masks and the events, by small questions: U asks, W owns, unless said.

mod events;

use super::*;
use crate::acl::dacl_at_front;
use crate::token::Confinement;
use crate::{check, masks, policy, record};

const U: [u8; 16] = [1, 2, 0, 0, 0, 0, 0, 5, 0, 0, 0, 0, 7, 0, 0, 0];
const W: [u8; 12] = [1, 1, 0, 0, 0, 0, 0, 5, 7, 0, 0, 0];
/// The confinement identity of card c8, S-1-15-2-9.
const PACKAGE: [u8; 16] = [1, 2, 0, 0, 0, 0, 0, 15, 2, 0, 0, 0, 9, 0, 0, 0];
const FILE: u32 = 1;
const KEY: u32 = 2;
const CONFINED: u32 = 1;
const EXEMPT: u32 = 3;

fn token(flags: u32, privileges: u64) -> Token {
    let confinement = (flags != 0).then(|| Confinement {
        identity: PACKAGE.to_vec(),
        capabilities: vec![sid::ALL_RESTRICTED.to_vec()],
    });
    Token { flags, privileges, user: U.to_vec(), groups: vec![], confinement }
}

/// A list of allow (0) and deny (1) entries.
fn list(entries: &[(u8, u32, &[u8])]) -> Vec<u8> {
    let mut body = Vec::new();
    for (kind, mask, sid) in entries {
        body.extend([*kind, 0, 8 + sid.len() as u8, 0]);
        body.extend(mask.to_le_bytes());
        body.extend(*sid);
    }
    let mut list = vec![2, 0, 8 + body.len() as u8, 0, entries.len() as u8, 0, 0, 0];
    list.extend(body);
    list
}

/// A policy with a rule for each effective list and, if there is one, staged list.
fn rules(lists: &[(&[u8], &[u8])]) -> Vec<u8> {
    let mut policy = vec![1, lists.len() as u8, 0, 0, 0];
    for (effective, staged) in lists {
        for section in [&[][..], effective, &[], staged, &[]] {
            policy.extend((section.len() as u32).to_le_bytes());
            policy.extend(section);
        }
    }
    policy
}

fn ask(
    kind: u32,
    mask: u32,
    token: &Token,
    owner: &[u8],
    dacl: Option<&[u8]>,
    rules: &[u8],
) -> Answer {
    let rights = masks::rights_of(kind).expect("a kind");
    let dacl = dacl.map(|list| dacl_at_front(list).expect("a list"));
    let rules = policy::read(rules).expect("a policy");
    let lists = Lists { dacl: dacl.as_ref(), sacl: None };
    answer(&Setting { rights, token, owner, self_id: &[] }, mask, &lists, &rules).0
}

/// The asked bits and the four masks.
fn told(answer: Answer) -> (u32, [u32; 4]) {
    (answer.asked, answer.masks())
}

#[test]
fn each_step_takes_what_it_takes() {
    // Normal evaluation leaves 7 of 0xF, confinement 3 of these, the rule 1 of these.
    let dacl = list(&[(0, 7, &U), (0, 0xB, &PACKAGE)]);
    let rule = rules(&[(&list(&[(0, 0xD, &U)]), &[])]);
    for kind in [FILE, KEY] {
        let asks =
            |flags, rules: &[u8]| told(ask(kind, 0xF, &token(flags, 0), &W, Some(&dacl), rules));
        assert_eq!(asks(0, &[]), (0xF, [7, 7, 7, 7]));
        assert_eq!(asks(CONFINED, &[]), (0xF, [7, 3, 3, 3]));
        assert_eq!(asks(0, &rule), (0xF, [7, 7, 5, 5]));
        assert_eq!(asks(CONFINED, &rule), (0xF, [7, 3, 1, 1]));
        assert_eq!(asks(EXEMPT, &rule), (0xF, [7, 7, 5, 5]));
        assert_eq!(asks(CONFINED, &rules(&[])), (0xF, [7, 3, 3, 3]));
    }
}

#[test]
fn privileges_and_owners_rights_are_inside_the_first() {
    let both = SECURITY_PRIVILEGE | TAKE_OWNERSHIP_PRIVILEGE;
    let empty = list(&[]);
    let asks = |flags, owner: &[u8], rules: &[u8]| {
        told(ask(FILE, 0x010E_0000, &token(flags, both), owner, Some(&empty), rules))
    };
    let nothing = rules(&[(&empty, &[])]);
    assert_eq!(asks(0, &W, &[]), (0x010E_0000, [0x0108_0000; 4]));
    assert_eq!(asks(0, &U, &[]), (0x010E_0000, [0x010E_0000; 4]));
    // They are in every rule's result too, and none of them passes confinement.
    assert_eq!(asks(0, &U, &nothing), (0x010E_0000, [0x010E_0000; 4]));
    assert_eq!(asks(CONFINED, &U, &nothing), (0x010E_0000, [0x010E_0000, 0, 0, 0]));
    assert_eq!(asks(EXEMPT, &U, &nothing), (0x010E_0000, [0x010E_0000; 4]));
}

#[test]
fn only_asked_bits_are_in_a_mask() {
    let all = |sid| list(&[(0, u32::MAX, sid)]);
    let both = token(0, SECURITY_PRIVILEGE | TAKE_OWNERSHIP_PRIVILEGE);
    let asks = |kind, mask| told(ask(kind, mask, &both, &U, Some(&all(&U)), &[]));
    assert_eq!(asks(FILE, 0), (0, [0; 4]));
    assert_eq!(asks(FILE, 2), (2, [2; 4]));
    assert_eq!(asks(FILE, 0x8000_0000), (0x12_0089, [0x12_0089; 4]));
    assert_eq!(asks(KEY, 0x8000_0000), (0x2_0019, [0x2_0019; 4]));
    assert_eq!(asks(FILE, 0x0200_0000), (0x1F_01FF, [0x1F_01FF; 4]));
    assert_eq!(asks(KEY, 0x0200_0000), (0xF_003F, [0xF_003F; 4]));
    assert_eq!(asks(KEY, 0x0300_0000), (0x010F_003F, [0x010F_003F; 4]));
}

#[test]
fn a_null_dacl_passes_confinement_but_for_system_security() {
    let asks =
        |flags, mask| told(ask(FILE, mask, &token(flags, SECURITY_PRIVILEGE), &W, None, &[]));
    assert_eq!(asks(CONFINED, 0x0100_0001), (0x0100_0001, [0x0100_0001, 1, 1, 1]));
    assert_eq!(asks(EXEMPT, 0x0100_0001), (0x0100_0001, [0x0100_0001; 4]));
}

#[test]
fn a_rule_gives_nothing_back_and_a_staged_list_takes_nothing() {
    let [one, three] = [list(&[(0, 1, &U)]), list(&[(0, 3, &U)])];
    let asks = |rules: &[u8]| ask(FILE, 3, &token(0, 0), &W, Some(&one), rules);
    assert_eq!(told(asks(&rules(&[(&three, &[])]))), (3, [1; 4]));
    let staged = asks(&rules(&[(&three, &list(&[]))]));
    assert_eq!(told(staged), (3, [1; 4]));
    assert!(staged.staged);
}

#[test]
fn a_gained_rule_leaves_the_first_two_as_they_were() {
    let dacl = list(&[(0, 7, &U), (0, 3, &PACKAGE)]);
    let [one, three, none] = [list(&[(0, 1, &U)]), list(&[(0, 3, &U)]), list(&[])];
    let asks = |rules: &[u8]| ask(FILE, 0xF, &token(CONFINED, 0), &W, Some(&dacl), rules);
    let mut last = asks(&[]);
    for lists in [
        &[(&three[..], &[][..])][..],
        &[(&one, &[]), (&three, &[])],
        &[(&one, &none), (&none, &[])],
    ] {
        let now = asks(&rules(lists));
        assert_eq!([now.normal, now.confined], [last.normal, last.confined]);
        assert_eq!(now.ruled & !last.ruled, 0);
        last = now;
    }
    assert_eq!(told(last), (0xF, [7, 3, 0, 0]));
}

#[test]
fn a_refusal_has_no_masks() {
    let record = record::write(&token(0, 0));
    for (kind, mask, token, number) in
        [(3, 1, &record[..], 1), (1, 0x200, &record, 2), (1, 1, &[], 3)]
    {
        let said = check(kind, mask, token, &[], &[], &[]);
        assert_eq!(said, Err(number));
        assert_eq!(crate::masks(&said), [0; 4]);
    }
    assert_eq!(crate::question(&[]), Err(12));
    assert_eq!(crate::masks(&Err(12)), [0; 4]);
}

//! Tokens of 21 to 257 identities, some of which share a key, at distances about 16. Identities
//! have numbers: the user or the package is number 1, and the others follow.

use crate::case::*;
use pirasteh_cases::key::key;
use pirasteh_cases::make::{acl, allow, deny, sid, Descriptor, Question, Token};

/// Somebody of a domain.
fn one(number: u32) -> Vec<u8> {
    sid(5, &[21, 1_000_000_007, 77, number, 1001])
}

/// The key that matters here.
fn the_key() -> usize {
    key(&one(0))
}

/// The nth that has the key, or the nth that has another. All end in the same word.
fn of_key(nth: usize) -> Vec<u8> {
    (0..).map(one).filter(|sid| key(sid) == the_key()).nth(nth).unwrap_or_default()
}

fn of_other_key(nth: usize) -> Vec<u8> {
    (0..).map(one).filter(|sid| key(sid) != the_key()).nth(nth).unwrap_or_default()
}

/// Somebody who has the key, and ends in another word.
fn of_key_elsewhere() -> Vec<u8> {
    let mut all = (0..).map(|number| sid(5, &[21, 1_000_000_007, 77, number, 512]));
    all.find(|sid| key(sid) == the_key()).unwrap_or_default()
}

/// So many identities, of which those with these numbers have the key, in this order.
fn crowd(size: usize, numbers: &[usize]) -> Vec<Vec<u8>> {
    let mut all: Vec<Vec<u8>> = (1..=size).map(of_other_key).collect();
    for (nth, number) in numbers.iter().enumerate() {
        all[number - 1] = of_key(nth);
    }
    all
}

/// The first as the user, and the others as enabled groups.
fn token(crowd: &[Vec<u8>]) -> Token {
    crowd[1..].iter().fold(Token::of(&crowd[0]), |token, group| token.group(group, 4))
}

/// U, confined to the first, with the others and S-1-15-2-2 as capabilities. That has number 2.
fn confined(crowd: &[Vec<u8>]) -> Token {
    let all: Vec<Vec<u8>> =
        [all_restricted()].into_iter().chain(crowd[1..].iter().cloned()).collect();
    let all: Vec<&[u8]> = all.iter().map(Vec::as_slice).collect();
    tu().confined(&crowd[0], &all)
}

/// A right for each of these, behind all rights for U.
fn rights(token: Token, named: &[&[u8]]) -> Question {
    let mut entries = vec![allow(0xFF, &u())];
    entries.extend(named.iter().enumerate().map(|(nth, sid)| allow(1 << nth, sid)));
    on_list(token, 0xFF, &entries)
}

pub fn cases() -> Vec<Case> {
    let mut all = full();
    all.extend(chains());
    all.extend(twice());
    all.extend(stood_for());
    all
}

/// The last, the first, and a stranger.
fn full() -> Vec<Case> {
    let mut all = Vec::new();
    for groups in [30, 31, 126, 127] {
        let crowd = crowd(groups + 1, &[]);
        all.push(ask(
            &format!("{groups} groups, and the entries name the last, the user and a stranger"),
            rights(token(&crowd), &[&crowd[groups], &crowd[0], &of_other_key(groups + 2)]),
            no(3),
        ));
    }
    for (groups, capabilities) in [(0, 30), (0, 31), (127, 64)] {
        let crowd = crowd(capabilities, &[]);
        let mut token = confined(&crowd);
        token.groups = (0..groups).map(|number| (sid(5, &[9, number]), 4)).collect();
        all.push(ask(
            &format!(
                "{capabilities} capabilities and {groups} groups, and the entries name the last \
                 capability, the package and a stranger"
            ),
            rights(token, &[&crowd[capabilities - 1], &crowd[0], &of_other_key(capabilities + 2)]),
            no(3).after(0xFF, 3),
        ));
    }
    all.push(last_group_beside_capabilities());
    all
}

/// The package has all rights here, so that the answer hangs on the groups.
fn last_group_beside_capabilities() -> Case {
    let crowd = crowd(128, &[]);
    let token = token(&crowd).confined(&package(), &[&all_restricted()]);
    let entries = [allow(7, &package()), allow(1, &crowd[127]), allow(2, &of_other_key(129))];
    ask(
        "127 groups and one capability, and the entries name the last group and a stranger",
        on_list(token, 3, &entries),
        no(1),
    )
}

/// Three who share the key are named, and then two strangers who have it.
fn chain(token: Token, nths: [usize; 3], stranger: usize) -> Question {
    let [first, between, last] = nths.map(of_key);
    let strangers = [of_key(stranger), of_key_elsewhere()];
    rights(token, &[&first, &between, &last, &strangers[0], &strangers[1]])
}

fn chains() -> Vec<Case> {
    let mut all = Vec::new();
    for numbers in [[1, 16, 17], [1, 17, 33], [3, 19, 34], [5, 6, 23]] {
        let [a, b, c] = numbers;
        all.push(ask(
            &format!("40 identities, and those with the numbers {a}, {b} and {c} share a key"),
            chain(token(&crowd(40, &numbers)), [0, 1, 2], 3),
            no(7),
        ));
    }
    let ladder: Vec<usize> = (1..=257).step_by(16).collect();
    all.push(ask(
        "257 identities, and every sixteenth shares a key, from the user on",
        chain(token(&crowd(257, &ladder)), [0, 7, 16], 17),
        no(7),
    ));
    let every: Vec<usize> = (1..=21).collect();
    all.push(ask(
        "21 identities that share a key",
        chain(token(&crowd(21, &every)), [0, 7, 20], 21),
        no(7),
    ));
    // S-1-15-2-2 has number 2.
    // U has all rights in normal evaluation.
    all.push(ask(
        "a package and 40 capabilities, and those with the numbers 1, 18 and 34 share a key",
        chain(confined(&crowd(40, &[1, 17, 33])), [0, 1, 2], 3),
        no(7).after(0xFF, 7),
    ));
    all
}

/// One group with two listings, before another that shares its key.
fn twice() -> Vec<Case> {
    let mut all = Vec::new();
    for (distance, attributes, listed) in
        [(15, [0x10, 4], "deny-only and enabled"), (16, [4, 0x10], "enabled and deny-only")]
    {
        let crowd = crowd(60, &[2, 2 + distance, 2 + 2 * distance]);
        let mut token = token(&crowd);
        // The first group has number 2.
        token.groups[0] = (of_key(0), attributes[0]);
        token.groups[distance] = (of_key(0), attributes[1]);
        let entries = [allow(1, &of_key(0)), deny(2, &of_key(0)), allow(2, &crowd[0])];
        all.push(ask(
            &format!(
                "a group is listed twice, {listed}, {distance} numbers apart, and shares a key"
            ),
            on_list(token, 3, &entries),
            no(1),
        ));
    }
    all
}

/// The owner and the self identity have low numbers, and others share their key.
fn stood_for() -> Vec<Case> {
    let owner = Descriptor::owned_by(&of_key(0));
    let list = acl(&[allow(1, &owner_rights()), allow(2, &principal_self())]);
    let near = token(&crowd(40, &[1, 2, 18]));
    let far = token(&crowd(40, &[2, 18, 35]));
    vec![
        ask(
            "owner and self identity have number 1, and the numbers 2 and 18 share their key",
            on(near.clone(), 3, owner.clone().dacl(&list)).self_id(&of_key(0)),
            yes(3),
        ),
        ask(
            "owner and self identity have number 2, and the numbers 18 and 35 share their key",
            on(far, 3, owner.clone().dacl(&list)).self_id(&of_key(0)),
            yes(3),
        ),
        ask(
            "an owner's two rights, and the numbers 2 and 18 share the user's key",
            on(near, 0x6_0000, owner.dacl(&acl(&[]))),
            yes(0x6_0000),
        ),
    ]
}

#[cfg(test)]
mod tests {
    use super::*;

    #[test]
    fn those_with_the_numbers_share_the_key() {
        let crowd = crowd(40, &[3, 19, 34]);
        let numbers: Vec<usize> =
            (1..=40).filter(|number| key(&crowd[number - 1]) == the_key()).collect();
        assert_eq!(numbers, [3, 19, 34]);
        assert_eq!(key(&of_key(3)), the_key());
        assert_eq!(key(&of_key_elsewhere()), the_key());
    }
}

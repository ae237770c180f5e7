//! Who is a member: whoever matches for allow in the pass that is made.

use super::{granted, owned};
use crate::case::*;
use pirasteh_cases::expressions::*;
use pirasteh_cases::make::{allow, sid, Question, Token};

pub fn cases() -> Vec<Case> {
    let mut all = of_the_token();
    all.extend(in_deny_entries());
    all.extend(virtual_identities());
    all.extend(confined_tokens());
    all.extend(virtual_in_confinement());
    all.extend(crowds());
    all
}

fn member(sid: &[u8]) -> Vec<u8> {
    asks(MEMBER_OF, &literal(sid))
}

fn case(reason: &str, question: Question, is: bool) -> Case {
    ask(&format!("membership: {reason}"), question, granted(is))
}

/// The same where normal evaluation leaves 1, and confinement asks who is a member.
fn in_confinement(reason: &str, question: Question, is: bool) -> Case {
    let confined = u32::from(is);
    ask(&format!("membership: {reason}"), question, granted(is).after(1, confined))
}

/// This token asks, and an entry allows 1 to U if somebody is a member.
fn if_member(reason: &str, token: Token, who: &[u8], is: bool) -> Case {
    case(reason, owned(token, &w(), &[callback_allow(1, &u(), &member(who))]), is)
}

fn of_the_token() -> Vec<Case> {
    let with_g = |attributes: &[u32]| {
        attributes.iter().fold(tu(), |token, &attributes| token.group(&g(), attributes))
    };
    let in_group = |reason: &str, attributes: &[u32], is: bool| {
        if_member(reason, with_g(attributes), &g(), is)
    };
    vec![
        if_member("the user", tu(), &u(), true),
        in_group("an enabled group", &[7], true),
        in_group("an enabled group with other attributes too", &[0xC000_000F], true),
        in_group("a deny-only group is no member", &[0x10], false),
        in_group("a deny-only group that is enabled is no member", &[0x14], false),
        in_group("a disabled group is no member", &[3], false),
        in_group("a group listed as deny-only and as enabled", &[0x10, 4], true),
        in_group("a group listed as disabled and as deny-only is no member", &[0, 0x10], false),
        if_member(
            "a user who is listed as a deny-only group too",
            tu().group(&u(), 0x10),
            &u(),
            true,
        ),
        if_member("one with a word more than the user", tu(), &sid(5, &[0, 7, 0]), false),
        if_member(
            "one with a word less than the group",
            tu().group(&g(), 4),
            &sid(5, &[32]),
            false,
        ),
        case(
            "the owner, named directly, where somebody else asks",
            owned(tu(), &w(), &[callback_allow(1, &u(), &member(&w()))]),
            false,
        ),
        case(
            "the self identity, named directly, where somebody else asks",
            owned(tu(), &w(), &[callback_allow(1, &u(), &member(&g()))]).self_id(&g()),
            false,
        ),
    ]
}

/// In a deny entry too it is matching for allow.
fn in_deny_entries() -> Vec<Case> {
    let denied = |token: Token, entry: Vec<u8>| owned(token, &w(), &[entry, allow(1, &u())]);
    let deny_only = || tu().group(&g(), 0x10);
    vec![
        case(
            "a deny entry with an enabled group in its condition denies",
            denied(tu().group(&g(), 4), callback_deny(1, &u(), &member(&g()))),
            false,
        ),
        case(
            "a deny entry with a deny-only group in its condition says nothing",
            denied(deny_only(), callback_deny(1, &u(), &member(&g()))),
            true,
        ),
        case(
            "a deny entry, if a deny-only group is no member, denies",
            denied(deny_only(), callback_deny(1, &u(), &asks(NOT_MEMBER_OF, &literal(&g())))),
            false,
        ),
        case(
            "a deny entry for a deny-only group, if the user is a member, denies",
            denied(deny_only(), callback_deny(1, &g(), &member(&u()))),
            false,
        ),
        case(
            "a deny entry for a deny-only group, if that group is a member, says nothing",
            denied(deny_only(), callback_deny(1, &g(), &member(&g()))),
            true,
        ),
        case(
            "a deny entry, if the owner is a member, where a deny-only group owns the object",
            owned(
                deny_only(),
                &g(),
                &[callback_deny(1, &u(), &member(&owner_rights())), allow(1, &u())],
            ),
            true,
        ),
    ]
}

/// S-1-3-4 for the owner and S-1-5-10 for the self identity.
fn virtual_identities() -> Vec<Case> {
    let by = |token: Token, owner: &[u8], self_id: &[u8], who: &[u8]| {
        owned(token, owner, &[callback_allow(1, &u(), &member(who))]).self_id(self_id)
    };
    let (own, me) = (owner_rights(), principal_self());
    let enabled = || tu().group(&g(), 4);
    let deny_only = || tu().group(&g(), 0x10);
    vec![
        case("S-1-3-4, where the user owns the object", by(tu(), &u(), &[], &own), true),
        case("S-1-3-4, where somebody else owns it", by(tu(), &w(), &[], &own), false),
        case("S-1-3-4, where an enabled group owns it", by(enabled(), &g(), &[], &own), true),
        case("S-1-3-4, where a deny-only group owns it", by(deny_only(), &g(), &[], &own), false),
        case("S-1-3-4 is not the self identity", by(tu(), &w(), &u(), &own), false),
        case("S-1-3-4, where S-1-3-4 owns the object", by(tu(), &own, &u(), &own), false),
        case("S-1-3-4 is not followed to S-1-5-10", by(tu(), &me, &u(), &own), false),
        case("S-1-5-10, where it is the user", by(tu(), &w(), &u(), &me), true),
        case("S-1-5-10, where it is somebody else", by(tu(), &w(), &w(), &me), false),
        case("S-1-5-10, where it is an enabled group", by(enabled(), &w(), &g(), &me), true),
        case("S-1-5-10, where it is a deny-only group", by(deny_only(), &w(), &g(), &me), false),
        case("S-1-5-10 without a self identity", by(tu(), &u(), &[], &me), false),
        case("S-1-5-10 is not the owner", by(tu(), &u(), &w(), &me), false),
        case("S-1-5-10, where it is S-1-5-10 itself", by(tu(), &u(), &me, &me), false),
        case("S-1-5-10 is not followed to S-1-3-4", by(tu(), &u(), &own, &me), false),
        case("S-1-3-4-0 is nobody", by(tu(), &u(), &[], &sid(3, &[4, 0])), false),
    ]
}

/// In confinement only the confinement identities count, in normal evaluation the others.
fn confined_tokens() -> Vec<Case> {
    let one = sid(15, &[3, 1]);
    let token = || tu().group(&g(), 4).confined(&package(), &[&one, &all_restricted()]);
    // Normal evaluation grants 1 by the first entry.
    let inside = |reason: &str, who: &[u8], is: bool| {
        let list = [allow(1, &u()), callback_allow(1, &package(), &member(who))];
        in_confinement(reason, owned(token(), &w(), &list), is)
    };
    let denied = |reason: &str, who: &[u8], is: bool| {
        let deny = callback_deny(1, &one, &member(who));
        let list = [allow(1, &u()), deny, allow(1, &package())];
        in_confinement(reason, owned(token(), &w(), &list), is)
    };
    // Confinement grants 1 by the last entry.
    let outside = |reason: &str, token: Token, who: &[u8], is: bool| {
        let list = [callback_allow(1, &u(), &member(who)), allow(1, &package())];
        case(reason, owned(token, &w(), &list), is)
    };
    // The package is a group too, so that one entry is taken in both passes.
    let both = |condition: &[u8]| {
        let token = token().group(&package(), 4);
        owned(token, &w(), &[callback_allow(1, &package(), condition)])
    };
    let either = asks(MEMBER_OF_ANY, &composite(&[u(), one.clone()]));
    vec![
        inside("in confinement the package", &package(), true),
        inside("in confinement a capability", &one, true),
        inside("in confinement S-1-15-2-2", &all_restricted(), true),
        inside("in confinement S-1-15-2-1 without that capability", &sid(15, &[2, 1]), false),
        inside("in confinement the user is no member", &u(), false),
        inside("in confinement an enabled group is no member", &g(), false),
        denied("in confinement a deny entry, if the package is a member", &package(), false),
        denied("in confinement a deny entry, if the user is a member, says nothing", &u(), true),
        outside("in normal evaluation the package is no member", token(), &package(), false),
        outside("in normal evaluation a capability is no member", token(), &one, false),
        outside("in normal evaluation of a confined token the user", token(), &u(), true),
        outside("an exempt token: the package is no member", token().exempt(), &package(), false),
        outside("an exempt token: the user", token().exempt(), &u(), true),
        in_confinement(
            "one entry in both passes, if the user is a member",
            both(&member(&u())),
            false,
        ),
        // In normal evaluation no capability is a member, so nothing is left to confinement.
        case("one entry in both passes, if a capability is a member", both(&member(&one)), false),
        in_confinement(
            "one entry in both passes, if the package is a member",
            both(&member(&package())),
            true,
        ),
        in_confinement(
            "one entry in both passes, if user or capability is a member",
            both(&either),
            true,
        ),
    ]
}

/// Virtual identities follow the set of the pass.
fn virtual_in_confinement() -> Vec<Case> {
    let (own, me) = (owner_rights(), principal_self());
    let inside = |owner: &[u8], self_id: &[u8], who: &[u8]| {
        let list = [allow(1, &u()), callback_allow(1, &package(), &member(who))];
        owned(confined(), owner, &list).self_id(self_id)
    };
    let outside = |owner: &[u8], self_id: &[u8], who: &[u8]| {
        let list = [callback_allow(1, &u(), &member(who)), allow(1, &package())];
        owned(confined(), owner, &list).self_id(self_id)
    };
    vec![
        in_confinement(
            "in confinement S-1-3-4, where the package owns",
            inside(&package(), &[], &own),
            true,
        ),
        in_confinement(
            "in confinement S-1-3-4, where the user owns",
            inside(&u(), &[], &own),
            false,
        ),
        in_confinement(
            "in confinement S-1-5-10 is the package",
            inside(&w(), &package(), &me),
            true,
        ),
        in_confinement(
            "in confinement S-1-5-10 is the user: no member",
            inside(&w(), &u(), &me),
            false,
        ),
        case(
            "in normal evaluation S-1-3-4, where the package owns",
            outside(&package(), &[], &own),
            false,
        ),
        case("in normal evaluation S-1-3-4, where the user owns", outside(&u(), &[], &own), true),
        case("in normal evaluation S-1-5-10 is the package", outside(&w(), &package(), &me), false),
        case("in normal evaluation S-1-5-10 is the user", outside(&w(), &u(), &me), true),
    ]
}

/// Members of tokens that list as many as there can be.
fn crowds() -> Vec<Case> {
    let other = |i: u32| sid(5, &[100 + i]);
    let crowd = || {
        let mut token = tu();
        token.groups = (0..255).map(|i| (other(i), 7)).collect();
        token.group(&g(), 4)
    };
    let last = sid(15, &[3, 1]);
    let shelf = || {
        let mut capabilities: Vec<Vec<u8>> = (0..62).map(other).collect();
        capabilities.extend([all_restricted(), last.clone()]);
        let capabilities: Vec<&[u8]> = capabilities.iter().map(Vec::as_slice).collect();
        tu().confined(&package(), &capabilities)
    };
    let inside = |who: &[u8]| {
        let list = [allow(1, &u()), callback_allow(1, &package(), &member(who))];
        owned(shelf(), &w(), &list)
    };
    let every = |who: &[u8]| {
        let mut all: Vec<Vec<u8>> = (0..255).map(other).collect();
        all.push(who.to_vec());
        owned(crowd(), &w(), &[callback_allow(1, &u(), &asks(MEMBER_OF, &composite(&all)))])
    };
    vec![
        if_member("the last of 256 groups", crowd(), &g(), true),
        if_member("the 255th of 256 groups", crowd(), &other(254), true),
        if_member("one who is none of 256 groups", crowd(), &other(255), false),
        case("all of 256 groups", every(&g()), true),
        case("255 of 256 groups, and one who is none of them", every(&other(255)), false),
        in_confinement("in confinement the last of 64 capabilities", inside(&last), true),
        in_confinement(
            "in confinement one who is none of 64 capabilities",
            inside(&other(62)),
            false,
        ),
    ]
}

//! The named bits mean to the library what their names say.

mod common;

use common::{open_to_all, open_to_group, user_with, C1};
use pirasteh::mask::{
    ACCESS_SYSTEM_SECURITY, DELETE, FILE_ALL_ACCESS, FILE_APPEND_DATA, FILE_DELETE_CHILD,
    FILE_EXECUTE, FILE_GENERIC_EXECUTE, FILE_GENERIC_READ, FILE_GENERIC_WRITE,
    FILE_READ_ATTRIBUTES, FILE_READ_DATA, FILE_READ_EA, FILE_WRITE_ATTRIBUTES, FILE_WRITE_DATA,
    FILE_WRITE_EA, GENERIC_ALL, GENERIC_EXECUTE, GENERIC_READ, GENERIC_WRITE, KEY_ALL_ACCESS,
    KEY_CREATE_LINK, KEY_CREATE_SUB_KEY, KEY_ENUMERATE_SUB_KEYS, KEY_EXECUTE, KEY_NOTIFY,
    KEY_QUERY_VALUE, KEY_READ, KEY_SET_VALUE, KEY_WRITE, MAXIMUM_ALLOWED, READ_CONTROL,
    SYNCHRONIZE, WRITE_DAC, WRITE_OWNER,
};
use pirasteh::{
    allows, attribute, check, privilege, token_flag, Descriptor, Error, Kind, Question, Token,
};

const STANDARD: u32 = DELETE | READ_CONTROL | WRITE_DAC | WRITE_OWNER;

#[test]
fn mapped_rights_are_made_of_single_ones() {
    let common = READ_CONTROL | SYNCHRONIZE;
    let read = FILE_READ_DATA | FILE_READ_EA | FILE_READ_ATTRIBUTES;
    assert_eq!(FILE_GENERIC_READ, common | read);
    let write = FILE_WRITE_DATA | FILE_APPEND_DATA | FILE_WRITE_EA | FILE_WRITE_ATTRIBUTES;
    assert_eq!(FILE_GENERIC_WRITE, common | write);
    assert_eq!(FILE_GENERIC_EXECUTE, common | FILE_EXECUTE | FILE_READ_ATTRIBUTES);
    let all = STANDARD | SYNCHRONIZE | read | write | FILE_EXECUTE | FILE_DELETE_CHILD;
    assert_eq!(FILE_ALL_ACCESS, all);

    let read = KEY_QUERY_VALUE | KEY_ENUMERATE_SUB_KEYS | KEY_NOTIFY;
    assert_eq!(KEY_READ, READ_CONTROL | read);
    let write = KEY_SET_VALUE | KEY_CREATE_SUB_KEY;
    assert_eq!(KEY_WRITE, READ_CONTROL | write);
    assert_eq!(KEY_EXECUTE, KEY_READ);
    assert_eq!(KEY_ALL_ACCESS, STANDARD | read | write | KEY_CREATE_LINK);
}

#[test]
fn generic_bits_are_mapped_by_the_kind() {
    let file = [FILE_GENERIC_READ, FILE_GENERIC_WRITE, FILE_GENERIC_EXECUTE, FILE_ALL_ACCESS];
    let key = [KEY_READ, KEY_WRITE, KEY_EXECUTE, KEY_ALL_ACCESS];
    let generic = [GENERIC_READ, GENERIC_WRITE, GENERIC_EXECUTE, GENERIC_ALL];
    let open = open_to_all();
    for (kind, rights) in [(Kind::File, file), (Kind::Key, key)] {
        let question = Question { kind, descriptor: Descriptor(&open), ..C1 };
        for (mask, granted) in generic.into_iter().zip(rights) {
            let answer = check(&Question { mask, ..question }).expect("an answer");
            assert!(answer.allowed);
            assert_eq!(answer.granted, granted);
        }
        let answer = check(&Question { mask: MAXIMUM_ALLOWED, ..question }).expect("an answer");
        assert_eq!((answer.granted, answer.allowed), (rights[3], true));
    }
}

#[test]
fn bits_of_no_right_are_refused() {
    let special = GENERIC_READ | GENERIC_WRITE | GENERIC_EXECUTE | GENERIC_ALL;
    let special = special | MAXIMUM_ALLOWED | ACCESS_SYSTEM_SECURITY;
    for (kind, all) in [(Kind::File, FILE_ALL_ACCESS), (Kind::Key, KEY_ALL_ACCESS)] {
        for mask in (0..32).map(|bit| 1 << bit) {
            let refused = check(&Question { kind, mask, ..C1 }) == Err(Error::Mask);
            assert_eq!(refused, mask & (special | all) == 0, "{kind:?}, {mask:#010x}");
        }
    }
}

#[test]
fn privileges_give_their_bit() {
    for (privileges, mask) in [
        (privilege::SE_SECURITY, ACCESS_SYSTEM_SECURITY),
        (privilege::SE_TAKE_OWNERSHIP, WRITE_OWNER),
    ] {
        let [with, without] = [user_with(privileges, 0), user_with(!privileges, 0)];
        assert!(allows(&Question { token: Token(&with), mask, ..C1 }));
        assert!(!allows(&Question { token: Token(&without), mask, ..C1 }));
    }
}

#[test]
fn two_attributes_are_read() {
    let other = attribute::MANDATORY
        | attribute::ENABLED_BY_DEFAULT
        | attribute::OWNER
        | attribute::INTEGRITY
        | attribute::INTEGRITY_ENABLED
        | attribute::RESOURCE
        | attribute::LOGON_ID;
    let both = attribute::ENABLED | attribute::USE_FOR_DENY_ONLY;
    assert_eq!((both, both & other), (0x14, 0));
    let descriptor = open_to_group();
    for (attributes, matches) in [
        (attribute::ENABLED, true),
        (attribute::ENABLED | other, true),
        (other, false),
        (attribute::USE_FOR_DENY_ONLY, false),
        (both, false),
    ] {
        let token = user_with(0, attributes);
        let question = Question { token: Token(&token), descriptor: Descriptor(&descriptor), ..C1 };
        assert_eq!(allows(&question), matches, "{attributes:#x}");
    }
}

/// Card c8: confinement takes everything, unless the token is exempt.
#[test]
fn flags_confine_and_exempt() {
    let mut token = [1, 0, 0, 2, 5, 0, 7, 0, 2, 15, 2, 9, 1, 2, 15, 2, 2];
    for (flags, allowed) in
        [(token_flag::CONFINED, false), (token_flag::CONFINED | token_flag::EXEMPT, true)]
    {
        token[1] = u8::try_from(flags).expect("two bits");
        let answer = check(&Question { token: Token(&token), ..C1 }).expect("an answer");
        assert_eq!(answer.allowed, allowed);
    }
}

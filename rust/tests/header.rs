//! The C header and this crate have the same functions, names, values and version.

use pirasteh::{attribute, mask, privilege, rights, token_flag, Error, Kind};
use std::collections::BTreeMap;

const HEADER: &str = include_str!("../../include/pirasteh.h");
const RAW: &str = include_str!("../src/raw.rs");

/// The names of a module with their values, for the header's names that begin with a prefix.
macro_rules! values {
    ($prefix:literal, $module:ident: $($name:ident)*) => {
        [$((concat!($prefix, stringify!($name)).to_owned(), u64::from($module::$name))),*]
    };
}

/// Every name of the header that stands for a number, as this crate has it.
fn ours() -> BTreeMap<String, u64> {
    let mut all = BTreeMap::new();
    all.extend(values!("", mask:
        GENERIC_READ GENERIC_WRITE GENERIC_EXECUTE GENERIC_ALL MAXIMUM_ALLOWED
        ACCESS_SYSTEM_SECURITY DELETE READ_CONTROL WRITE_DAC WRITE_OWNER SYNCHRONIZE
        FILE_READ_DATA FILE_WRITE_DATA FILE_APPEND_DATA FILE_READ_EA FILE_WRITE_EA FILE_EXECUTE
        FILE_DELETE_CHILD FILE_READ_ATTRIBUTES FILE_WRITE_ATTRIBUTES
        FILE_GENERIC_READ FILE_GENERIC_WRITE FILE_GENERIC_EXECUTE FILE_ALL_ACCESS
        KEY_QUERY_VALUE KEY_SET_VALUE KEY_CREATE_SUB_KEY KEY_ENUMERATE_SUB_KEYS KEY_NOTIFY
        KEY_CREATE_LINK KEY_READ KEY_WRITE KEY_EXECUTE KEY_ALL_ACCESS));
    all.extend(values!("GROUP_", attribute:
        MANDATORY ENABLED_BY_DEFAULT ENABLED OWNER USE_FOR_DENY_ONLY INTEGRITY INTEGRITY_ENABLED
        RESOURCE LOGON_ID));
    all.extend(values!("", privilege: SE_SECURITY SE_TAKE_OWNERSHIP));
    all.extend(values!("TOKEN_", token_flag: CONFINED EXEMPT));
    let number = |n: usize| u64::try_from(n).expect("a small number");
    all.extend([
        ("FILE".to_owned(), u64::from(Kind::File.number())),
        ("KEY".to_owned(), u64::from(Kind::Key.number())),
        ("LISTING_MAX".to_owned(), number(pirasteh::LISTING_MAX)),
        ("RECORD_MAX".to_owned(), number(pirasteh::RECORD_MAX)),
        ("TRAIL_MAX".to_owned(), number(pirasteh::TRAIL_MAX)),
        ("TRAIL_QUESTION_MAX".to_owned(), number(pirasteh::TRAIL_QUESTION_MAX)),
        ("DESCRIPTOR_MAX".to_owned(), number(pirasteh::DESCRIPTOR_MAX)),
        ("POLICY_MAX".to_owned(), number(pirasteh::POLICY_MAX)),
        ("QUESTION_MAX".to_owned(), number(pirasteh::QUESTION_MAX)),
    ]);
    all
}

fn value(text: &str) -> Option<u64> {
    let digits = text.trim_end_matches('u');
    match digits.strip_prefix("0x") {
        Some(digits) => u64::from_str_radix(digits, 16).ok(),
        None => digits.parse().ok(),
    }
}

/// The header's `#define PIRASTEH_NAME NUMBER` lines.
fn theirs() -> BTreeMap<String, u64> {
    let defined = HEADER.lines().filter_map(|line| {
        let mut words = line.strip_prefix("#define PIRASTEH_")?.split_whitespace();
        Some((words.next()?.to_owned(), value(words.next()?)?))
    });
    defined.filter(|(name, _)| name != "VERSION_NUMBER").collect()
}

#[test]
fn numbers_have_the_same_names() {
    assert_eq!(ours(), theirs());
}

/// The functions that are declared behind this word, each as its name, `(`, and what it takes.
fn declared<'a>(text: &'a str, before: &str) -> Vec<&'a str> {
    text.split(before).skip(1).filter_map(|rest| Some(rest.split_once(')')?.0)).collect()
}

/// A parameter of the header in the words of Rust: `const uint8_t *file` is `file: *const u8`.
fn in_rust(parameter: &str) -> String {
    let (kind, name) = parameter.rsplit_once(' ').expect("a type and a name");
    let pointer = name.starts_with('*');
    let name = name.trim_start_matches('*');
    let (constant, plain) = match kind.strip_prefix("const ") {
        Some(plain) => (true, plain),
        None => (false, kind),
    };
    let plain = match plain {
        "uint8_t" => "u8",
        "uint32_t" => "u32",
        "size_t" => "usize",
        other => panic!("{other} is a type that no function should have"),
    };
    match (pointer, constant) {
        (true, true) => format!("{name}: *const {plain}"),
        (true, false) => format!("{name}: *mut {plain}"),
        (false, _) => format!("{name}: {plain}"),
    }
}

/// The name of a function, and what it takes in this order, each put into other words.
fn taken(function: &str, words: impl Fn(&str) -> String) -> (String, Vec<String>) {
    let (name, parameters) = function.split_once('(').expect("parameters");
    let parameters = parameters
        .split(',')
        .map(|parameter| words(&parameter.split_whitespace().collect::<Vec<_>>().join(" ")));
    (name.to_owned(), parameters.filter(|parameter| !parameter.is_empty()).collect())
}

#[test]
fn functions_take_the_same() {
    let theirs: BTreeMap<_, _> =
        declared(HEADER, "\nuint32_t ").iter().map(|function| taken(function, in_rust)).collect();
    let ours: BTreeMap<_, _> =
        declared(RAW, "pub fn ").iter().map(|function| taken(function, str::to_owned)).collect();
    assert_eq!(ours, theirs);
    assert_eq!(ours.len(), 8);
}

/// The names of single rights are the words of their constants, with abbreviations written out.
#[test]
fn rights_are_called_as_their_constants() {
    let theirs = theirs();
    let mut found = 0;
    for (kind, prefix) in [(Kind::File, "FILE_"), (Kind::Key, "KEY_")] {
        for bit in (0..32).map(|place| 1 << place) {
            let Some(name) = rights::name(kind, bit) else { continue };
            let words = name.replace("extended attributes", "ea").replace("subkey", "sub_key");
            let constant = words.replace(' ', "_").to_uppercase();
            let value = theirs.get(&format!("{prefix}{constant}")).or(theirs.get(&constant));
            assert_eq!(value, Some(&u64::from(bit)), "{name}");
            found += 1;
        }
    }
    assert_eq!(found, 15 + 11);
}

#[test]
fn refusals_have_the_same_names() {
    let mut found = 0;
    for line in HEADER.lines().filter(|line| line.starts_with("    PIRASTEH_")) {
        let words: Vec<&str> = line.split_whitespace().collect();
        let [name, "=", number, ..] = words[..] else { continue };
        let number = number.trim_end_matches(',').parse().expect("a status number");
        let ours = Error::from_number(number)
            .map_or("Answered".to_owned(), |error| format!("{error:?}"))
            .to_uppercase();
        assert_eq!(name.replace('_', ""), format!("PIRASTEH{ours}"));
        found += 1;
    }
    assert_eq!(found, 13);
}

#[test]
fn the_version_is_the_same() {
    let version = concat!("\"", env!("CARGO_PKG_VERSION"), "\"");
    let defined = HEADER.lines().any(|line| {
        line.split_whitespace().collect::<Vec<_>>() == ["#define", "PIRASTEH_VERSION", version]
    });
    assert!(defined, "the header's PIRASTEH_VERSION is not {version}");
}

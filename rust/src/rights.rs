//! Names of single rights, by the kind of object.
//!
//! They are the words of Microsoft's constants in [`mask`], in lower case and written out, but for
//! `dac`. They are for people to read; programs compare bits.

use crate::mask;
use crate::Kind;

/// Rights of both kinds.
const BOTH: [(u32, &str); 5] = [
    (mask::DELETE, "delete"),
    (mask::READ_CONTROL, "read control"),
    (mask::WRITE_DAC, "write dac"),
    (mask::WRITE_OWNER, "write owner"),
    (mask::ACCESS_SYSTEM_SECURITY, "access system security"),
];

/// Rights of files alone.
const FILE: [(u32, &str); 10] = [
    (mask::FILE_READ_DATA, "read data"),
    (mask::FILE_WRITE_DATA, "write data"),
    (mask::FILE_APPEND_DATA, "append data"),
    (mask::FILE_READ_EA, "read extended attributes"),
    (mask::FILE_WRITE_EA, "write extended attributes"),
    (mask::FILE_EXECUTE, "execute"),
    (mask::FILE_DELETE_CHILD, "delete child"),
    (mask::FILE_READ_ATTRIBUTES, "read attributes"),
    (mask::FILE_WRITE_ATTRIBUTES, "write attributes"),
    (mask::SYNCHRONIZE, "synchronize"),
];

/// Rights of keys alone.
const KEY: [(u32, &str); 6] = [
    (mask::KEY_QUERY_VALUE, "query value"),
    (mask::KEY_SET_VALUE, "set value"),
    (mask::KEY_CREATE_SUB_KEY, "create subkey"),
    (mask::KEY_ENUMERATE_SUB_KEYS, "enumerate subkeys"),
    (mask::KEY_NOTIFY, "notify"),
    (mask::KEY_CREATE_LINK, "create link"),
];

/// What a single bit is called for this kind of object, if it is a right of it.
///
/// Every bit of [`FILE_ALL_ACCESS`](mask::FILE_ALL_ACCESS) has a name for a file, every bit of
/// [`KEY_ALL_ACCESS`](mask::KEY_ALL_ACCESS) for a key, and
/// [`ACCESS_SYSTEM_SECURITY`](mask::ACCESS_SYSTEM_SECURITY) for both. Nothing else has one: no
/// generic bit, no bit of another kind, and no mask of several bits.
///
/// ```
/// use pirasteh::{mask, rights, Kind};
///
/// assert_eq!(rights::name(Kind::File, mask::FILE_WRITE_DATA), Some("write data"));
/// assert_eq!(rights::name(Kind::Key, mask::KEY_SET_VALUE), Some("set value"));
/// assert_eq!(rights::name(Kind::Key, mask::SYNCHRONIZE), None);
/// assert_eq!(rights::name(Kind::File, mask::FILE_GENERIC_READ), None);
/// ```
#[must_use]
pub fn name(kind: Kind, bit: u32) -> Option<&'static str> {
    let own = match kind {
        Kind::File => &FILE[..],
        Kind::Key => &KEY[..],
    };
    let mut rights = own.iter().chain(&BOTH);
    rights.find(|(right, _)| *right == bit).map(|(_, name)| *name)
}

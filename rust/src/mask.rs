//! Bits of a rights mask, with Microsoft's names and values.
//!
//! The generic bits, [`MAXIMUM_ALLOWED`] and [`ACCESS_SYSTEM_SECURITY`] can be asked of any kind
//! of object, and beside them the bits in [`FILE_ALL_ACCESS`] of a file and those in
//! [`KEY_ALL_ACCESS`] of a key. Any other bit is refused, with [`Error::Mask`](crate::Error::Mask).

/// What the kind of object calls reading: [`FILE_GENERIC_READ`] or [`KEY_READ`].
pub const GENERIC_READ: u32 = 0x8000_0000;
/// What the kind of object calls writing: [`FILE_GENERIC_WRITE`] or [`KEY_WRITE`].
pub const GENERIC_WRITE: u32 = 0x4000_0000;
/// What the kind of object calls executing: [`FILE_GENERIC_EXECUTE`] or [`KEY_EXECUTE`].
pub const GENERIC_EXECUTE: u32 = 0x2000_0000;
/// All rights of the kind of object: [`FILE_ALL_ACCESS`] or [`KEY_ALL_ACCESS`].
pub const GENERIC_ALL: u32 = 0x1000_0000;
/// Asks for every right of the kind that would be granted. It is allowed if there is any, and if
/// the bits named beside it are granted.
pub const MAXIMUM_ALLOWED: u32 = 0x0200_0000;
/// Reading and changing the SACL. It comes from
/// [`SE_SECURITY`](crate::privilege::SE_SECURITY) alone, and only when it is asked by name.
pub const ACCESS_SYSTEM_SECURITY: u32 = 0x0100_0000;

/// Deleting the object.
pub const DELETE: u32 = 0x0001_0000;
/// Reading the descriptor, but for the SACL. An owner has it.
pub const READ_CONTROL: u32 = 0x0002_0000;
/// Changing the DACL. An owner has it.
pub const WRITE_DAC: u32 = 0x0004_0000;
/// Changing the owner. [`SE_TAKE_OWNERSHIP`](crate::privilege::SE_TAKE_OWNERSHIP) gives it.
pub const WRITE_OWNER: u32 = 0x0008_0000;
/// Waiting on the object. A right of files and not of keys.
pub const SYNCHRONIZE: u32 = 0x0010_0000;

/// File: reading data; in a directory, listing names.
pub const FILE_READ_DATA: u32 = 0x0000_0001;
/// File: writing data; in a directory, adding a file.
pub const FILE_WRITE_DATA: u32 = 0x0000_0002;
/// File: appending data; in a directory, adding a directory.
pub const FILE_APPEND_DATA: u32 = 0x0000_0004;
/// File: reading extended attributes.
pub const FILE_READ_EA: u32 = 0x0000_0008;
/// File: writing extended attributes.
pub const FILE_WRITE_EA: u32 = 0x0000_0010;
/// File: executing; in a directory, passing through.
pub const FILE_EXECUTE: u32 = 0x0000_0020;
/// Directory: deleting what it holds.
pub const FILE_DELETE_CHILD: u32 = 0x0000_0040;
/// File: reading attributes.
pub const FILE_READ_ATTRIBUTES: u32 = 0x0000_0080;
/// File: writing attributes.
pub const FILE_WRITE_ATTRIBUTES: u32 = 0x0000_0100;

/// Key: reading values.
pub const KEY_QUERY_VALUE: u32 = 0x0000_0001;
/// Key: writing values.
pub const KEY_SET_VALUE: u32 = 0x0000_0002;
/// Key: making keys below it.
pub const KEY_CREATE_SUB_KEY: u32 = 0x0000_0004;
/// Key: listing the keys below it.
pub const KEY_ENUMERATE_SUB_KEYS: u32 = 0x0000_0008;
/// Key: being told of changes.
pub const KEY_NOTIFY: u32 = 0x0000_0010;
/// Key: making a link.
pub const KEY_CREATE_LINK: u32 = 0x0000_0020;

/// File: what [`GENERIC_READ`] means.
pub const FILE_GENERIC_READ: u32 = 0x0012_0089;
/// File: what [`GENERIC_WRITE`] means.
pub const FILE_GENERIC_WRITE: u32 = 0x0012_0116;
/// File: what [`GENERIC_EXECUTE`] means.
pub const FILE_GENERIC_EXECUTE: u32 = 0x0012_00A0;
/// File: what [`GENERIC_ALL`] means, every right that a file has.
pub const FILE_ALL_ACCESS: u32 = 0x001F_01FF;

/// Key: what [`GENERIC_READ`] means.
pub const KEY_READ: u32 = 0x0002_0019;
/// Key: what [`GENERIC_WRITE`] means.
pub const KEY_WRITE: u32 = 0x0002_0006;
/// Key: what [`GENERIC_EXECUTE`] means, the same as reading.
pub const KEY_EXECUTE: u32 = 0x0002_0019;
/// Key: what [`GENERIC_ALL`] means, every right that a key has.
pub const KEY_ALL_ACCESS: u32 = 0x000F_003F;

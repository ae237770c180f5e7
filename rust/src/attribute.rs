//! Attributes of a token's groups, with Microsoft's values.
//!
//! Only [`ENABLED`] and [`USE_FOR_DENY_ONLY`] are read. A group matches an allow entry if it has
//! the first and not the second, and a deny entry if it has either. All other bits are kept by the
//! converters and change no answer.
//!
//! An attribute word is no rights mask. Both have 32 bits; do not mix them up.

/// The group cannot be disabled. Not read: without [`ENABLED`] it does not match.
pub const MANDATORY: u32 = 0x0000_0001;
/// The group is enabled unless somebody changes it. Not read.
pub const ENABLED_BY_DEFAULT: u32 = 0x0000_0002;
/// The group is enabled.
pub const ENABLED: u32 = 0x0000_0004;
/// The group can be made the owner of an object. Not read.
pub const OWNER: u32 = 0x0000_0008;
/// The group matches deny entries only, enabled or not.
pub const USE_FOR_DENY_ONLY: u32 = 0x0000_0010;
/// The group is an integrity level. Not read.
pub const INTEGRITY: u32 = 0x0000_0020;
/// The integrity level is in force. Not read.
pub const INTEGRITY_ENABLED: u32 = 0x0000_0040;
/// The group is local to a domain. Not read.
pub const RESOURCE: u32 = 0x2000_0000;
/// The group stands for one logon. Not read.
pub const LOGON_ID: u32 = 0xC000_0000;

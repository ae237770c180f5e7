//! Enabled privileges of a token, as bits of its 64-bit word.
//!
//! The other bits are kept by the converters and change no answer.

/// `SeSecurityPrivilege`: gives [`ACCESS_SYSTEM_SECURITY`](crate::mask::ACCESS_SYSTEM_SECURITY)
/// where that is asked by name.
pub const SE_SECURITY: u64 = 1 << 8;
/// `SeTakeOwnershipPrivilege`: gives [`WRITE_OWNER`](crate::mask::WRITE_OWNER).
pub const SE_TAKE_OWNERSHIP: u64 = 1 << 9;

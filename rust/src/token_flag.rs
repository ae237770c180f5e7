//! Flags of a token. Other bits make it misshapen.

/// The token is confined. It has a confinement identity and capabilities, S-1-15-2-2 among them,
/// and keeps only the bits that the list grants to these as well.
pub const CONFINED: u32 = 1;
/// The confinement is not enforced. Only together with [`CONFINED`].
pub const EXEMPT: u32 = 2;

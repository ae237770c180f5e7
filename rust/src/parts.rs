//! The parts of a question. All are bytes; a type of its own for each keeps them in their places.

/// A packed token record: who asks.
///
/// At most [`RECORD_MAX`](crate::RECORD_MAX) bytes are ever accepted.
#[derive(Clone, Copy, Debug, PartialEq, Eq, Hash)]
pub struct Token<'a>(pub &'a [u8]);

/// The flat listing of a token: the same fields with fixed sizes.
///
/// [`pack`](crate::pack) turns it into a [`Token`], and [`list`](crate::list) a token into it.
#[derive(Clone, Copy, Debug, PartialEq, Eq, Hash)]
pub struct Listing<'a>(pub &'a [u8]);

/// The self identity, one SID or nothing: whom S-1-5-10 stands for in a list.
#[derive(Clone, Copy, Debug, PartialEq, Eq, Hash)]
pub struct SelfId<'a>(pub &'a [u8]);

impl SelfId<'_> {
    /// No self identity. S-1-5-10 then matches nobody.
    pub const NONE: SelfId<'static> = SelfId(&[]);
}

/// A self-relative security descriptor: who owns the object, and who may do what to it.
///
/// At most [`DESCRIPTOR_MAX`](crate::DESCRIPTOR_MAX) bytes are ever accepted.
#[derive(Clone, Copy, Debug, PartialEq, Eq, Hash)]
pub struct Descriptor<'a>(pub &'a [u8]);

/// A central policy, or nothing: rules that narrow what the descriptor grants.
///
/// At most [`POLICY_MAX`](crate::POLICY_MAX) bytes are ever accepted.
#[derive(Clone, Copy, Debug, PartialEq, Eq, Hash)]
pub struct Policy<'a>(pub &'a [u8]);

impl Policy<'_> {
    /// No policy.
    pub const NONE: Policy<'static> = Policy(&[]);
}

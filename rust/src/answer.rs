//! What a question that is not refused is answered with.

use std::fmt;

/// The answer to a question that was not refused. It can be no: see [`allowed`](Answer::allowed).
///
/// It prints as the project's programs print it:
///
/// ```
/// let answer = pirasteh::Answer { granted: 0x0002_0000, allowed: false, staged: false };
/// assert_eq!(answer.to_string(), "granted 0x00020000 allowed no staged no");
/// ```
#[derive(Clone, Copy, Debug, PartialEq, Eq, Hash)]
pub struct Answer {
    /// The asked bits that are granted, also where others are missing. Generic bits are mapped.
    pub granted: u32,
    /// Whether access is allowed: every named bit is granted, and at least one bit is if
    /// [`MAXIMUM_ALLOWED`](crate::mask::MAXIMUM_ALLOWED) was asked for.
    pub allowed: bool,
    /// Whether a staged list of some rule that applies would have said otherwise: a staged DACL,
    /// on the asked bits, or a staged SACL, by other events in the [`trail`](crate::trail()). It
    /// changes nothing in the other two.
    pub staged: bool,
}

impl fmt::Display for Answer {
    fn fmt(&self, f: &mut fmt::Formatter<'_>) -> fmt::Result {
        let [allowed, staged] =
            [self.allowed, self.staged].map(|yes| if yes { "yes" } else { "no" });
        write!(f, "granted 0x{:08x} allowed {allowed} staged {staged}", self.granted)
    }
}

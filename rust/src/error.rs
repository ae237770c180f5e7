//! Why a question or a conversion was refused.

use std::fmt;

/// The refusals, in the order in which the library checks for them.
///
/// Of several that apply the one with the lowest number is given, except that
/// [`FileShape`](Error::FileShape) comes before all others. A refusal grants nothing and writes
/// nothing.
///
/// ```
/// use pirasteh::{list_vec, Error, Token};
///
/// let error = list_vec(Token(&[])).unwrap_err();
/// assert_eq!(error, Error::TokenShape);
/// assert_eq!(error.to_string(), "refused 3: the token record or listing is misshapen");
/// ```
#[derive(Clone, Copy, Debug, PartialEq, Eq, Hash)]
#[non_exhaustive]
pub enum Error {
    /// 1: the kind is neither 1 nor 2. Question files only: a [`Kind`](crate::Kind) is always
    /// one of the two.
    Kind,
    /// 2: the desired mask has a bit that means nothing for this kind.
    Mask,
    /// 3: the token record or the listing is misshapen.
    TokenShape,
    /// 4: the token breaks a token rule: it is exempt and not confined, has S-1-3-4 or S-1-5-10
    /// somewhere, or is confined without S-1-15-2-2 among its capabilities.
    TokenRule,
    /// 5: the self identity is neither empty nor exactly one SID.
    SelfId,
    /// 6: the descriptor is misshapen.
    DescriptorShape,
    /// 7: the descriptor has no owner.
    NoOwner,
    /// 8: the descriptor's DACL has an entry of a type other than 0, 1, 9 and 10, or a condition
    /// with a token that is not read.
    DaclType,
    /// 9: the policy is misshapen.
    PolicyShape,
    /// 10: the same in a DACL of some rule of the policy, or in its `applies_to`.
    PolicyType,
    /// 11: the converted result, or the trail, is longer than the lent buffer.
    /// [`list`](crate::list), [`pack`](crate::pack), [`trail`](crate::trail()) and
    /// [`trail_question`](crate::trail_question) only. It comes last.
    ShortBuffer,
    /// 12: the question file is misshapen or longer than
    /// [`QUESTION_MAX`](crate::QUESTION_MAX). [`question`](crate::question),
    /// [`why_question`](crate::why_question) and [`trail_question`](crate::trail_question) only.
    FileShape,
    /// A number that this wrapper has no name for. A library newer than the wrapper may give it.
    Unknown(u32),
}

impl Error {
    /// The refusal that has this number. Only 0 has none: it says answered, or converted.
    ///
    /// ```
    /// use pirasteh::Error;
    ///
    /// assert_eq!(Error::from_number(6), Some(Error::DescriptorShape));
    /// assert_eq!(Error::from_number(0), None);
    /// ```
    #[must_use]
    pub const fn from_number(number: u32) -> Option<Error> {
        Some(match number {
            0 => return None,
            1 => Error::Kind,
            2 => Error::Mask,
            3 => Error::TokenShape,
            4 => Error::TokenRule,
            5 => Error::SelfId,
            6 => Error::DescriptorShape,
            7 => Error::NoOwner,
            8 => Error::DaclType,
            9 => Error::PolicyShape,
            10 => Error::PolicyType,
            11 => Error::ShortBuffer,
            12 => Error::FileShape,
            other => Error::Unknown(other),
        })
    }

    /// The number that the library gave.
    ///
    /// ```
    /// assert_eq!(pirasteh::Error::DescriptorShape.number(), 6);
    /// ```
    #[must_use]
    pub const fn number(self) -> u32 {
        match self {
            Error::Kind => 1,
            Error::Mask => 2,
            Error::TokenShape => 3,
            Error::TokenRule => 4,
            Error::SelfId => 5,
            Error::DescriptorShape => 6,
            Error::NoOwner => 7,
            Error::DaclType => 8,
            Error::PolicyShape => 9,
            Error::PolicyType => 10,
            Error::ShortBuffer => 11,
            Error::FileShape => 12,
            Error::Unknown(number) => number,
        }
    }

    /// What the number means, in one line.
    ///
    /// ```
    /// use pirasteh::Error;
    ///
    /// assert_eq!(Error::DescriptorShape.meaning(), "the security descriptor is misshapen");
    /// ```
    #[must_use]
    pub const fn meaning(self) -> &'static str {
        match self {
            Error::Kind => "the kind of object is neither 1 (file) nor 2 (key)",
            Error::Mask => "the desired mask has a bit that means nothing for this kind of object",
            Error::TokenShape => "the token record or listing is misshapen",
            Error::TokenRule => {
                "the token breaks a rule: exempt and not confined, S-1-3-4 or S-1-5-10 in it, \
                 or confined without S-1-15-2-2"
            }
            Error::SelfId => "the self identity is neither empty nor exactly one SID",
            Error::DescriptorShape => "the security descriptor is misshapen",
            Error::NoOwner => "the security descriptor has no owner",
            Error::DaclType => {
                "the access list has an entry of a type, or a condition with a token, \
                 that is not read"
            }
            Error::PolicyShape => "the policy is misshapen",
            Error::PolicyType => {
                "a rule of the policy has an entry of a type, or a condition with a token, \
                 that is not read"
            }
            Error::ShortBuffer => "the buffer is too short for the trail or the converted token",
            Error::FileShape => "the question file is misshapen or longer than 65,536 bytes",
            Error::Unknown(_) => "the library gave a number that this wrapper does not know",
        }
    }
}

impl fmt::Display for Error {
    fn fmt(&self, f: &mut fmt::Formatter<'_>) -> fmt::Result {
        write!(f, "refused {}: {}", self.number(), self.meaning())
    }
}

impl std::error::Error for Error {}

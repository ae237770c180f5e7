//! Questions, asked by their parts or by a question file.

use crate::{raw, Answer, Descriptor, Error, Kind, Policy, SelfId, Token};

/// One question: who asks, for what, of which object.
///
/// Every part has a type of its own, so that parts cannot change places. With the bytes of the
/// crate page this compiles:
///
/// ```
/// # use pirasteh::{mask, Descriptor, Kind, Policy, Question, SelfId, Token};
#[doc = include_str!("../doc/c1.txt")]
/// let question = Question {
///     kind: Kind::File,
///     mask: mask::GENERIC_READ,
///     token: Token(&TOKEN),
///     self_id: SelfId::NONE,
///     descriptor: Descriptor(&DESCRIPTOR),
///     policy: Policy::NONE,
/// };
/// ```
///
/// and this, where token and descriptor stand in each other's place, does not:
///
/// ```compile_fail,E0308
/// # use pirasteh::{mask, Descriptor, Kind, Policy, Question, SelfId, Token};
#[doc = include_str!("../doc/c1.txt")]
/// let question = Question {
///     kind: Kind::File,
///     mask: mask::GENERIC_READ,
///     token: Descriptor(&DESCRIPTOR),
///     self_id: SelfId::NONE,
///     descriptor: Token(&TOKEN),
///     policy: Policy::NONE,
/// };
/// ```
#[derive(Clone, Copy, Debug, PartialEq, Eq, Hash)]
pub struct Question<'a> {
    /// The kind of object.
    pub kind: Kind,
    /// The desired mask: bits of [`mask`](crate::mask) that this kind has.
    pub mask: u32,
    /// Who asks.
    pub token: Token<'a>,
    /// Whom S-1-5-10 stands for, or [`SelfId::NONE`].
    pub self_id: SelfId<'a>,
    /// The object.
    pub descriptor: Descriptor<'a>,
    /// What narrows the answer, or [`Policy::NONE`].
    pub policy: Policy<'a>,
}

/// Asks one question.
///
/// The answer can be no: look at [`Answer::allowed`].
///
/// ```
/// use pirasteh::{check, mask, Descriptor, Error, Kind, Policy, Question, SelfId, Token};
#[doc = include_str!("../doc/c1.txt")]
/// // TOKEN and DESCRIPTOR are those of the crate page.
/// let read = Question {
///     kind: Kind::File,
///     mask: mask::GENERIC_READ,
///     token: Token(&TOKEN),
///     self_id: SelfId::NONE,
///     descriptor: Descriptor(&DESCRIPTOR),
///     policy: Policy::NONE,
/// };
/// let answer = check(&read)?;
/// assert_eq!((answer.granted, answer.allowed), (mask::FILE_GENERIC_READ, true));
///
/// // Answered, and not allowed: one of the two bits is missing.
/// let write = Question { mask: mask::FILE_READ_DATA | mask::FILE_WRITE_DATA, ..read };
/// let answer = check(&write)?;
/// assert_eq!((answer.granted, answer.allowed), (mask::FILE_READ_DATA, false));
///
/// // Refused: the descriptor is cut short.
/// let cut = Question { descriptor: Descriptor(&DESCRIPTOR[..60]), ..read };
/// assert_eq!(check(&cut), Err(Error::DescriptorShape));
/// # Ok::<(), pirasteh::Error>(())
/// ```
///
/// # Errors
///
/// The refusal with the lowest number that applies. It is never [`Error::Kind`],
/// [`Error::ShortBuffer`] or [`Error::FileShape`].
pub fn check(question: &Question<'_>) -> Result<Answer, Error> {
    let Question { token, self_id, descriptor, policy, .. } = question;
    let (mut granted, mut allowed, mut staged) = (0, 0, 0);
    // SAFETY: every pointer is of a live reference, and none that is written to is shared. An
    // empty slice has a pointer that is not null.
    let status = unsafe {
        raw::pirasteh_check(
            question.kind.number(),
            question.mask,
            token.0.as_ptr(),
            token.0.len(),
            self_id.0.as_ptr(),
            self_id.0.len(),
            descriptor.0.as_ptr(),
            descriptor.0.len(),
            policy.0.as_ptr(),
            policy.0.len(),
            &raw mut granted,
            &raw mut allowed,
            &raw mut staged,
        )
    };
    answer(status, granted, allowed, staged)
}

/// Whether access is allowed. A refused question is not.
///
/// ```
/// use pirasteh::{allows, mask, Descriptor, Kind, Policy, Question, SelfId, Token};
#[doc = include_str!("../doc/c1.txt")]
/// // TOKEN and DESCRIPTOR are those of the crate page.
/// let read = Question {
///     kind: Kind::File,
///     mask: mask::GENERIC_READ,
///     token: Token(&TOKEN),
///     self_id: SelfId::NONE,
///     descriptor: Descriptor(&DESCRIPTOR),
///     policy: Policy::NONE,
/// };
/// assert!(allows(&read));
/// assert!(!allows(&Question { mask: mask::GENERIC_WRITE, ..read }));
/// assert!(!allows(&Question { token: Token(b"not a token"), ..read }));
/// ```
#[must_use]
pub fn allows(question: &Question<'_>) -> bool {
    check(question).is_ok_and(|answer| answer.allowed)
}

/// Asks the question that the bytes of a question file hold.
///
/// A question file has the kind, the mask, then token, self identity, descriptor and policy with
/// a length before each. The six numbers are written in groups of seven bits.
///
/// ```
/// use pirasteh::{question, Error};
#[doc = include_str!("../doc/c1.txt")]
/// // TOKEN and DESCRIPTOR are those of the crate page.
/// let kind_and_mask = [0x01, 0x80, 0x80, 0x80, 0x80, 0x08]; // a file, 0x80000000
/// let file = [&kind_and_mask, &[8][..], &TOKEN, &[0], &[64], &DESCRIPTOR, &[0]].concat();
/// assert_eq!(question(&file)?.to_string(), "granted 0x00120089 allowed yes staged no");
///
/// // Refused: a byte is missing.
/// assert_eq!(question(&file[..81]), Err(Error::FileShape));
/// # Ok::<(), pirasteh::Error>(())
/// ```
///
/// # Errors
///
/// [`Error::FileShape`] before all others, else the refusal with the lowest number that applies.
/// It is never [`Error::ShortBuffer`].
pub fn question(file: &[u8]) -> Result<Answer, Error> {
    let (mut granted, mut allowed, mut staged) = (0, 0, 0);
    // SAFETY: as in `check`.
    let status = unsafe {
        raw::pirasteh_question(
            file.as_ptr(),
            file.len(),
            &raw mut granted,
            &raw mut allowed,
            &raw mut staged,
        )
    };
    answer(status, granted, allowed, staged)
}

fn answer(status: u32, granted: u32, allowed: u32, staged: u32) -> Result<Answer, Error> {
    let answer = Answer { granted, allowed: allowed != 0, staged: staged != 0 };
    Error::from_number(status).map_or(Ok(answer), Err)
}

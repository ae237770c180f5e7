//! Where the rights went: what is left of the asked bits after each step of a check.

use crate::{raw, rights, Answer, Error, Kind, Question};
use std::fmt;

/// An answer, and for each step of the check what was left of the asked bits after it.
///
/// The steps are normal evaluation, confinement and policy. Each mask lies within the one before
/// it, and nothing is given back later, so each bit that is missing in the end was taken by one
/// step: [`lost`](Why::lost) tells which.
///
/// It can be no, as every answer: see [`allowed`](Why::allowed). It prints as `pirasteh why` prints
/// it, but for the lost rights:
///
/// ```
/// use pirasteh::{Kind, Why};
///
/// let why = Why {
///     kind: Kind::File,
///     asked: 0x23,
///     normal: 0x23,
///     confined: 0x3,
///     ruled: 0x1,
///     granted: 0x1,
///     allowed: false,
///     staged: false,
/// };
/// let text = "\
/// granted 0x00000001 allowed no staged no
/// normal 0x00000023
/// confined 0x00000003
/// policy 0x00000001
/// granted 0x00000001";
/// assert_eq!(why.to_string(), text);
/// ```
#[derive(Clone, Copy, Debug, PartialEq, Eq, Hash)]
pub struct Why {
    /// The kind of object. It says what the bits mean.
    pub kind: Kind,
    /// The bits asked for: the desired mask with its generic bits mapped, and with
    /// [`MAXIMUM_ALLOWED`](crate::mask::MAXIMUM_ALLOWED) replaced by all bits of the kind.
    pub asked: u32,
    /// The asked bits that normal evaluation leaves: the list, the owner's rights and the
    /// privileges.
    pub normal: u32,
    /// The bits of `normal` that confinement leaves: all of them if the token is not confined, or
    /// is exempt.
    pub confined: u32,
    /// The bits of `confined` that the policy leaves: all of them if no rule applies.
    pub ruled: u32,
    /// The bits that are granted, the same as `ruled`.
    pub granted: u32,
    /// Whether access is allowed, as [`Answer::allowed`] has it.
    pub allowed: bool,
    /// Whether a staged list would have said otherwise, as [`Answer::staged`] has it.
    pub staged: bool,
}

impl Why {
    /// The answer without the steps: what [`check`](crate::check) gives for the same question.
    #[must_use]
    pub const fn answer(&self) -> Answer {
        Answer { granted: self.granted, allowed: self.allowed, staged: self.staged }
    }

    /// The bits that were asked for and are not granted, each with the step that took it, from the
    /// lowest bit up.
    ///
    /// ```
    /// use pirasteh::{Kind, Step, Why};
    ///
    /// let why = Why {
    ///     kind: Kind::File,
    ///     asked: 0x0001_0023,
    ///     normal: 0x23,
    ///     confined: 0x3,
    ///     ruled: 0x1,
    ///     granted: 0x1,
    ///     allowed: false,
    ///     staged: false,
    /// };
    /// let lost: Vec<_> = why.lost().map(|lost| (lost.name, lost.step)).collect();
    /// assert_eq!(
    ///     lost,
    ///     [
    ///         ("write data", Step::Policy),
    ///         ("execute", Step::Confinement),
    ///         ("delete", Step::NormalEvaluation),
    ///     ]
    /// );
    /// ```
    pub fn lost(&self) -> impl Iterator<Item = Lost> {
        let why = *self;
        (0..u32::BITS).map(|place| 1 << place).filter_map(move |bit| why.lost_at(bit))
    }

    /// What became of one bit, if it was asked for and is not granted.
    fn lost_at(&self, bit: u32) -> Option<Lost> {
        if self.asked & !self.granted & bit == 0 {
            return None;
        }
        let step = if self.normal & bit == 0 {
            Step::NormalEvaluation
        } else if self.confined & bit == 0 {
            Step::Confinement
        } else {
            Step::Policy
        };
        Some(Lost { bit, name: rights::name(self.kind, bit).unwrap_or("unnamed right"), step })
    }
}

impl fmt::Display for Why {
    fn fmt(&self, f: &mut fmt::Formatter<'_>) -> fmt::Result {
        let Why { normal, confined, ruled, granted, .. } = self;
        writeln!(f, "{}", self.answer())?;
        writeln!(f, "normal 0x{normal:08x}")?;
        writeln!(f, "confined 0x{confined:08x}")?;
        writeln!(f, "policy 0x{ruled:08x}")?;
        write!(f, "granted 0x{granted:08x}")
    }
}

/// A right that was asked for and is not granted.
///
/// ```
/// use pirasteh::{mask, Lost, Step};
///
/// let lost =
///     Lost { bit: mask::FILE_WRITE_DATA, name: "write data", step: Step::Confinement };
/// assert_eq!(lost.to_string(), "lost 0x00000002 write data: confinement");
/// ```
#[derive(Clone, Copy, Debug, PartialEq, Eq, Hash)]
pub struct Lost {
    /// The one bit.
    pub bit: u32,
    /// What [`rights::name`] calls it for the kind of object. The library's masks have no bit
    /// without a name; in a [`Why`] of other bits they are called `unnamed right`.
    pub name: &'static str,
    /// The step that took it.
    pub step: Step,
}

impl fmt::Display for Lost {
    fn fmt(&self, f: &mut fmt::Formatter<'_>) -> fmt::Result {
        write!(f, "lost 0x{:08x} {}: {}", self.bit, self.name, self.step)
    }
}

/// The steps of a check that can take a right, in their order.
///
/// ```
/// use pirasteh::Step;
///
/// assert_eq!(Step::NormalEvaluation.to_string(), "normal evaluation");
/// ```
#[derive(Clone, Copy, Debug, PartialEq, Eq, Hash)]
pub enum Step {
    /// The descriptor's list does not allow it to user and groups, and neither owner's rights nor
    /// a privilege give it.
    NormalEvaluation,
    /// The list does not allow it to the confinement identity and the capabilities.
    Confinement,
    /// Some rule of the policy does not leave it.
    Policy,
}

impl fmt::Display for Step {
    fn fmt(&self, f: &mut fmt::Formatter<'_>) -> fmt::Result {
        f.write_str(match self {
            Step::NormalEvaluation => "normal evaluation",
            Step::Confinement => "confinement",
            Step::Policy => "policy",
        })
    }
}

/// Asks one question, and where the rights went.
///
/// The answer is the one that [`check`](crate::check) gives, and can be no: look at
/// [`Why::allowed`].
///
/// ```
/// use pirasteh::{mask, why, Descriptor, Error, Kind, Policy, Question, SelfId, Token};
#[doc = include_str!("../doc/c1.txt")]
/// // TOKEN and DESCRIPTOR are those of the crate page.
/// let question = Question {
///     kind: Kind::File,
///     mask: mask::GENERIC_READ | mask::DELETE,
///     token: Token(&TOKEN),
///     self_id: SelfId::NONE,
///     descriptor: Descriptor(&DESCRIPTOR),
///     policy: Policy::NONE,
/// };
/// let why = why(&question)?;
/// assert!(!why.allowed);
/// assert_eq!(why.asked, mask::FILE_GENERIC_READ | mask::DELETE);
/// assert_eq!(why.normal, mask::FILE_GENERIC_READ);
/// let lost: Vec<String> = why.lost().map(|lost| lost.to_string()).collect();
/// assert_eq!(lost, ["lost 0x00010000 delete: normal evaluation"]);
///
/// // Refused: there are no masks.
/// let cut = Question { descriptor: Descriptor(&DESCRIPTOR[..60]), ..question };
/// assert_eq!(pirasteh::why(&cut), Err(Error::DescriptorShape));
/// # Ok::<(), pirasteh::Error>(())
/// ```
///
/// # Errors
///
/// Those of [`check`](crate::check).
pub fn why(question: &Question<'_>) -> Result<Why, Error> {
    let Question { token, self_id, descriptor, policy, .. } = question;
    let mut words = Words { kind: question.kind.number(), ..Words::default() };
    // SAFETY: every pointer is of a live reference or a live word, and none that is written to is
    // shared. An empty slice has a pointer that is not null.
    let status = unsafe {
        raw::pirasteh_why(
            question.kind.number(),
            question.mask,
            token.0.as_ptr(),
            token.0.len(),
            self_id.0.as_ptr(),
            self_id.0.len(),
            descriptor.0.as_ptr(),
            descriptor.0.len(),
            policy.0.as_ptr(),
            policy.0.len(),
            &raw mut words.asked,
            &raw mut words.normal,
            &raw mut words.confined,
            &raw mut words.ruled,
            &raw mut words.granted,
            &raw mut words.allowed,
            &raw mut words.staged,
        )
    };
    words.read(status)
}

/// Asks the question that the bytes of a question file hold, and where the rights went.
///
/// The answer is the one that [`question`](crate::question) gives, and can be no: look at
/// [`Why::allowed`].
///
/// ```
/// use pirasteh::{why_question, Error, Kind};
#[doc = include_str!("../doc/c1.txt")]
/// // TOKEN and DESCRIPTOR are those of the crate page.
/// let file = [&[1, 3, 8][..], &TOKEN, &[0, 64], &DESCRIPTOR, &[0]].concat(); // a file, 0x3
/// let why = why_question(&file)?;
/// assert_eq!((why.kind, why.asked, why.granted), (Kind::File, 0x3, 0x1));
/// let lost: Vec<String> = why.lost().map(|lost| lost.to_string()).collect();
/// assert_eq!(lost, ["lost 0x00000002 write data: normal evaluation"]);
///
/// // Refused: a byte is missing.
/// assert_eq!(why_question(&file[..77]), Err(Error::FileShape));
/// # Ok::<(), pirasteh::Error>(())
/// ```
///
/// # Errors
///
/// Those of [`question`](crate::question). The library answers questions of kind 1 and 2 alone;
/// should it ever answer one of a kind that [`Kind`] has no name for, this wrapper cannot tell what
/// its bits mean, and gives [`Error::Kind`].
pub fn why_question(file: &[u8]) -> Result<Why, Error> {
    let mut words = Words::default();
    // SAFETY: as in `why`.
    let status = unsafe {
        raw::pirasteh_why_question(
            file.as_ptr(),
            file.len(),
            &raw mut words.kind,
            &raw mut words.asked,
            &raw mut words.normal,
            &raw mut words.confined,
            &raw mut words.ruled,
            &raw mut words.granted,
            &raw mut words.allowed,
            &raw mut words.staged,
        )
    };
    words.read(status)
}

/// What the library writes.
#[derive(Default)]
struct Words {
    kind: u32,
    asked: u32,
    normal: u32,
    confined: u32,
    ruled: u32,
    granted: u32,
    allowed: u32,
    staged: u32,
}

impl Words {
    fn read(&self, status: u32) -> Result<Why, Error> {
        if let Some(error) = Error::from_number(status) {
            return Err(error);
        }
        Ok(Why {
            kind: Kind::from_number(self.kind).ok_or(Error::Kind)?,
            asked: self.asked,
            normal: self.normal,
            confined: self.confined,
            ruled: self.ruled,
            granted: self.granted,
            allowed: self.allowed != 0,
            staged: self.staged != 0,
        })
    }
}

#[cfg(test)]
mod tests {
    use super::{Error, Kind, Words};

    /// A kind without a name is no panic, and no answer.
    #[test]
    fn a_kind_that_is_none_is_refused() {
        for number in [0, 3, u32::MAX] {
            let words = Words { kind: number, allowed: 1, ..Words::default() };
            assert_eq!(words.read(0), Err(Error::Kind), "kind {number}");
        }
        let words = Words { kind: 2, ..Words::default() };
        assert_eq!(words.read(0).map(|why| why.kind), Ok(Kind::Key));
    }

    /// The number of a refusal comes before whatever the words hold.
    #[test]
    fn a_refusal_is_told_first() {
        let words = Words { kind: 3, granted: 1, allowed: 1, ..Words::default() };
        assert_eq!(words.read(6), Err(Error::DescriptorShape));
        assert_eq!(words.read(99), Err(Error::Unknown(99)));
    }
}

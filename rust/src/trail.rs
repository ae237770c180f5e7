//! The audit trail of a question: what it is written in, and a reader of it.

use crate::{raw, Answer, Error, Question};
use std::fmt;

/// An answer, and how long the trail is that was written.
///
/// It can be no, as every answer: see [`Answer::allowed`]. It prints as its answer does.
#[derive(Clone, Copy, Debug, PartialEq, Eq, Hash)]
pub struct Traced {
    /// The answer: what [`check`](crate::check) gives for the same question.
    pub answer: Answer,
    /// The length of the trail, which stands at the front of the lent buffer.
    pub length: usize,
}

impl fmt::Display for Traced {
    fn fmt(&self, f: &mut fmt::Formatter<'_>) -> fmt::Result {
        self.answer.fmt(f)
    }
}

/// How many bytes are enough for any trail of a question whose descriptor and policy have these
/// lengths: 9 for each 16 of theirs, rounded down.
///
/// ```
/// use pirasteh::{trail_bound, DESCRIPTOR_MAX, POLICY_MAX, QUESTION_MAX};
/// use pirasteh::{TRAIL_MAX, TRAIL_QUESTION_MAX};
///
/// assert_eq!(trail_bound(120, 89), 117);
/// assert_eq!(trail_bound(DESCRIPTOR_MAX, POLICY_MAX), TRAIL_MAX);
/// assert_eq!(trail_bound(QUESTION_MAX, 0), TRAIL_QUESTION_MAX);
/// ```
#[must_use]
pub const fn trail_bound(descriptor_len: usize, policy_len: usize) -> usize {
    // Two lengths of slices do not overflow; of other numbers the most is taken.
    let both = descriptor_len.saturating_add(policy_len);
    both / 16 * 9 + both % 16 * 9 / 16
}

/// Asks one question, and has the audit trail written that it leaves.
///
/// The answer is the one that [`check`](crate::check) gives, and can be no: look at
/// [`Answer::allowed`]. The trail stands at the front of the lent buffer, [`Traced::length`] bytes
/// of it; past them the buffer is as it was. [`events`] reads it. As many bytes as [`trail_bound`]
/// says are always enough.
///
/// ```
/// use pirasteh::{events, mask, trail, trail_bound};
/// use pirasteh::{Descriptor, Error, Kind, Policy, Question, SelfId, Token};
#[doc = include_str!("../doc/audited.txt")]
/// // TOKEN is that of the crate page. DESCRIPTOR allows its user read data and write data, and has
/// // a SACL of two audit entries for the same user: failure at anything, and success in reading.
/// let question = Question {
///     kind: Kind::File,
///     mask: mask::FILE_READ_DATA,
///     token: Token(&TOKEN),
///     self_id: SelfId::NONE,
///     descriptor: Descriptor(&DESCRIPTOR),
///     policy: Policy::NONE,
/// };
/// let mut room = vec![0; trail_bound(DESCRIPTOR.len(), 0)];
/// let traced = trail(&question, &mut room)?;
/// assert!(traced.answer.allowed);
/// let told: Result<Vec<_>, _> = events(&room[..traced.length]).collect();
/// let told = told.expect("a trail");
/// assert_eq!(told.len(), 1);
/// assert_eq!(told[0].to_string(), "event source 0 entry 1 mask 0x00000001");
///
/// // Not allowed: the other entry speaks.
/// let delete = Question { mask: mask::DELETE, ..question };
/// let traced = trail(&delete, &mut room)?;
/// assert!(!traced.answer.allowed);
/// let first = events(&room[..traced.length]).next().expect("an event").expect("a trail");
/// assert_eq!((first.source, first.entry, first.mask), (0, 0, mask::GENERIC_ALL));
///
/// // Refused: the trail does not fit, so there is no answer either.
/// assert_eq!(trail(&question, &mut [0; 2]), Err(Error::ShortBuffer));
/// # Ok::<(), pirasteh::Error>(())
/// ```
///
/// # Errors
///
/// Those of [`check`](crate::check), and last of all [`Error::ShortBuffer`]. All of the buffer is
/// then as it was.
pub fn trail(question: &Question<'_>, trail: &mut [u8]) -> Result<Traced, Error> {
    let Question { token, self_id, descriptor, policy, .. } = question;
    let mut words = Words::default();
    // SAFETY: every pointer is of a live reference or a live word, and none that is written to is
    // shared: the buffer is borrowed for writing. An empty slice has a pointer that is not null.
    let status = unsafe {
        raw::pirasteh_trail(
            question.kind.number(),
            question.mask,
            token.0.as_ptr(),
            token.0.len(),
            self_id.0.as_ptr(),
            self_id.0.len(),
            descriptor.0.as_ptr(),
            descriptor.0.len(),
            policy.0.as_ptr(),
            policy.0.len(),
            trail.as_mut_ptr(),
            trail.len(),
            &raw mut words.written,
            &raw mut words.granted,
            &raw mut words.allowed,
            &raw mut words.staged,
        )
    };
    words.read(status)
}

/// Asks the question that the bytes of a question file hold, and has the audit trail written that
/// it leaves.
///
/// The answer is the one that [`question`](crate::question) gives, and can be no: look at
/// [`Answer::allowed`]. [`TRAIL_QUESTION_MAX`](crate::TRAIL_QUESTION_MAX) bytes are always enough
/// for the trail.
///
/// ```
/// use pirasteh::{events, trail_question, Error, TRAIL_QUESTION_MAX};
#[doc = include_str!("../doc/audited.txt")]
/// // TOKEN and DESCRIPTOR are those of `trail`.
/// let file = [&[1, 1, 8][..], &TOKEN, &[0, 120], &DESCRIPTOR, &[0]].concat(); // a file, 0x1
/// let mut room = [0; TRAIL_QUESTION_MAX];
/// let traced = trail_question(&file, &mut room)?;
/// assert_eq!(traced.to_string(), "granted 0x00000001 allowed yes staged no");
/// for event in events(&room[..traced.length]) {
///     assert_eq!(event.expect("a trail").entry, 1);
/// }
///
/// // Refused: a byte is missing.
/// assert_eq!(trail_question(&file[..132], &mut room), Err(Error::FileShape));
/// # Ok::<(), pirasteh::Error>(())
/// ```
///
/// # Errors
///
/// Those of [`question`](crate::question), and last of all [`Error::ShortBuffer`]. All of the
/// buffer is then as it was.
pub fn trail_question(file: &[u8], trail: &mut [u8]) -> Result<Traced, Error> {
    let mut words = Words::default();
    // SAFETY: as in `trail`.
    let status = unsafe {
        raw::pirasteh_trail_question(
            file.as_ptr(),
            file.len(),
            trail.as_mut_ptr(),
            trail.len(),
            &raw mut words.written,
            &raw mut words.granted,
            &raw mut words.allowed,
            &raw mut words.staged,
        )
    };
    words.read(status)
}

/// What the library writes beside the trail.
#[derive(Default)]
struct Words {
    written: usize,
    granted: u32,
    allowed: u32,
    staged: u32,
}

impl Words {
    fn read(&self, status: u32) -> Result<Traced, Error> {
        let answer =
            Answer { granted: self.granted, allowed: self.allowed != 0, staged: self.staged != 0 };
        Error::from_number(status).map_or(Ok(Traced { answer, length: self.written }), Err)
    }
}

/// One event of a trail: an audit entry that speaks of the question.
///
/// It prints as `pirasteh trail` prints it:
///
/// ```
/// let event = pirasteh::Event { source: 0, entry: 3, mask: 0x0001_0000 };
/// assert_eq!(event.to_string(), "event source 0 entry 3 mask 0x00010000");
/// ```
#[derive(Clone, Copy, Debug, PartialEq, Eq, Hash)]
pub struct Event {
    /// Where the entry stands: 0 for the descriptor's SACL, else the number of the rule, from 1
    /// on. Rules that do not apply count too.
    pub source: u32,
    /// The number of the entry in that SACL, from 0 on. Entries of other types count too.
    pub entry: u32,
    /// The entry's mask as it is stored: generic bits are not mapped.
    pub mask: u32,
}

impl fmt::Display for Event {
    fn fmt(&self, f: &mut fmt::Formatter<'_>) -> fmt::Result {
        write!(f, "event source {} entry {} mask 0x{:08x}", self.source, self.entry, self.mask)
    }
}

/// Why bytes are no trail.
///
/// ```
/// use pirasteh::{events, NoTrail};
///
/// assert_eq!(events(&[0, 0]).next(), Some(Err(NoTrail::CutShort)));
/// assert_eq!(NoTrail::CutShort.to_string(), "no trail: it is cut short");
/// ```
#[derive(Clone, Copy, Debug, PartialEq, Eq, Hash)]
pub enum NoTrail {
    /// The bytes end inside an event.
    CutShort,
    /// A number has more bytes than it needs.
    LongerForm,
    /// A number has more than 32 bits.
    TooWide,
}

impl fmt::Display for NoTrail {
    fn fmt(&self, f: &mut fmt::Formatter<'_>) -> fmt::Result {
        f.write_str(match self {
            NoTrail::CutShort => "no trail: it is cut short",
            NoTrail::LongerForm => "no trail: a number is in a longer form",
            NoTrail::TooWide => "no trail: a number has more than 32 bits",
        })
    }
}

impl std::error::Error for NoTrail {}

/// The events of a trail, in its order.
///
/// What [`trail`] and [`trail_question`] wrote is always a trail. Of bytes that come from elsewhere
/// the events are given up to where they are no trail; then that is said, and nothing follows.
///
/// ```
/// use pirasteh::{events, Event, NoTrail};
///
/// // Rule 1, entry 0, 0x10000000; and then what is no event.
/// let kept = [1, 0, 0x80, 0x80, 0x80, 0x80, 0x01, 0, 0x80, 0, 0];
/// let mut told = events(&kept);
/// assert_eq!(told.next(), Some(Ok(Event { source: 1, entry: 0, mask: 0x1000_0000 })));
/// assert_eq!(told.next(), Some(Err(NoTrail::LongerForm)));
/// assert_eq!(told.next(), None);
/// ```
#[must_use]
pub fn events(trail: &[u8]) -> Events<'_> {
    Events { rest: trail }
}

/// The iterator of [`events`].
#[derive(Clone, Debug)]
pub struct Events<'a> {
    /// What is not read yet; nothing, behind bytes that are no event.
    rest: &'a [u8],
}

impl Iterator for Events<'_> {
    type Item = Result<Event, NoTrail>;

    fn next(&mut self) -> Option<Self::Item> {
        if self.rest.is_empty() {
            return None;
        }
        let event = self.event();
        if event.is_err() {
            self.rest = &[];
        }
        Some(event)
    }
}

impl std::iter::FusedIterator for Events<'_> {}

impl Events<'_> {
    fn event(&mut self) -> Result<Event, NoTrail> {
        Ok(Event { source: self.number()?, entry: self.number()?, mask: self.number()? })
    }

    /// The number in sevens that stands in front.
    fn number(&mut self) -> Result<u32, NoTrail> {
        let mut value: u32 = 0;
        for shift in (0..u32::BITS).step_by(7) {
            let (&byte, rest) = self.rest.split_first().ok_or(NoTrail::CutShort)?;
            self.rest = rest;
            let group = u32::from(byte & 0x7F);
            if group > u32::MAX >> shift {
                return Err(NoTrail::TooWide);
            }
            value |= group << shift;
            if byte < 0x80 {
                return if byte == 0 && shift > 0 { Err(NoTrail::LongerForm) } else { Ok(value) };
            }
        }
        Err(NoTrail::TooWide)
    }
}

//! A proved Windows-style access check, for Rust.
//!
//! One question is: may this user (a token) do this (a mask of rights) to this file or registry
//! key (its security descriptor)? [`check`] answers it, [`why()`] tells at which step a right was
//! lost that is not granted, and [`trail()`] writes down the events that the object's audit entries
//! ask for.
//!
//! ```
//! use pirasteh::{check, mask, why, Descriptor, Kind, Policy, Question, SelfId, Token};
//!
//! // The user S-1-5-0-7, without groups.
//! const TOKEN: [u8; 8] = [0x01, 0x00, 0x00, 0x02, 0x05, 0x00, 0x07, 0x00];
//!
//! // Owned by S-1-5-7; its list allows S-1-5-0-7 generic read.
//! const DESCRIPTOR: [u8; 64] = [
//!     0x01, 0x00, 0x04, 0x80, 0x14, 0x00, 0x00, 0x00, 0x00, 0x00, 0x00, 0x00, 0x00, 0x00, 0x00, 0x00,
//!     0x20, 0x00, 0x00, 0x00, 0x01, 0x01, 0x00, 0x00, 0x00, 0x00, 0x00, 0x05, 0x07, 0x00, 0x00, 0x00,
//!     0x02, 0x00, 0x20, 0x00, 0x01, 0x00, 0x00, 0x00, 0x00, 0x00, 0x18, 0x00, 0x00, 0x00, 0x00, 0x80,
//!     0x01, 0x02, 0x00, 0x00, 0x00, 0x00, 0x00, 0x05, 0x00, 0x00, 0x00, 0x00, 0x07, 0x00, 0x00, 0x00,
//! ];
//!
//! let read = Question {
//!     kind: Kind::File,
//!     mask: mask::GENERIC_READ,
//!     token: Token(&TOKEN),
//!     self_id: SelfId::NONE,
//!     descriptor: Descriptor(&DESCRIPTOR),
//!     policy: Policy::NONE,
//! };
//! let answer = check(&read)?;
//! assert!(answer.allowed);
//! assert_eq!(answer.granted, mask::FILE_GENERIC_READ);
//! assert_eq!(answer.to_string(), "granted 0x00120089 allowed yes staged no");
//!
//! // May they delete it as well? No, and the list is why: neither a confinement nor a policy.
//! let why = why(&Question { mask: mask::GENERIC_READ | mask::DELETE, ..read })?;
//! assert!(!why.allowed);
//! assert_eq!(why.asked & !why.normal, mask::DELETE);
//! let lost: Vec<String> = why.lost().map(|lost| lost.to_string()).collect();
//! assert_eq!(lost, ["lost 0x00010000 delete: normal evaluation"]);
//! # Ok::<(), pirasteh::Error>(())
//! ```
//!
//! # Answered is not allowed
//!
//! `Ok` says that the question was answered. The answer can still be no: look at
//! [`Answer::allowed`], or use [`allows`], which is true for yes and for nothing else.
//! [`Answer::granted`] does not tell: it has the asked bits that are granted, also where others
//! are missing. `Err` is a refusal: some part is misshapen or not understood, nothing is granted,
//! and the [`Error`] says which part. So it is with [`Why`] and [`Traced`] too.
//!
//! # Where the bytes come from
//!
//! A descriptor is self-relative, as Windows keeps it. A token is a packed record of this project.
//! To make one, write its flat listing, whose fields are easy to write, and turn it into the
//! record with [`pack_vec`]. `docs/FORMATS.md` of the repository describes every form, and
//! `docs/COMING-FROM-WINDOWS.md` says where other systems answer otherwise.
//!
//! # What is proved
//!
//! The work is done by a library that is written and proved in another language, Rattle. It is
//! proved that its functions end, whatever the bytes; that they touch no memory but what they are
//! lent; that they refuse by the written rules; and that what is not refused is answered by the
//! written rules. `docs/PROMISES.md` says it in full, with what is assumed: the compiler and the
//! machine, among others.
//!
//! This wrapper is not proved. It hands pointers and lengths over, gives names to numbers and bits,
//! tells from the library's masks which step took a bit, and reads the events of a trail. It decides
//! nothing.
//!
//! # What a call takes
//!
//! The library allocates nothing, keeps no pointer and has no state. It can be called from many
//! threads at once. A call uses less than 256 KiB of stack. Of the functions here only
//! [`list_vec`] and [`pack_vec`] allocate, for their result.
//!
//! # Linking
//!
//! The library is the archive `libpirasteh.a`. It is looked for in the directory that the variable
//! `PIRASTEH_LIB_DIR` names by its absolute path, and without that variable in `target/native` of
//! the repository, where `scripts/archive target/native` puts it. `cargo check` and `cargo doc`
//! work without it.

#![warn(missing_docs)]
#![warn(clippy::pedantic)]
#![deny(unsafe_op_in_unsafe_fn)]

mod answer;
mod ask;
pub mod attribute;
mod convert;
mod error;
mod kind;
pub mod mask;
mod parts;
pub mod privilege;
pub mod raw;
pub mod rights;
pub mod token_flag;
mod trail;
mod why;

pub use answer::Answer;
pub use ask::{allows, check, question, Question};
pub use convert::{list, list_vec, pack, pack_vec};
pub use error::Error;
pub use kind::Kind;
pub use parts::{Descriptor, Listing, Policy, SelfId, Token};
pub use trail::{events, trail, trail_bound, trail_question, Event, Events, NoTrail, Traced};
pub use why::{why, why_question, Lost, Step, Why};

/// A buffer of this size holds any flat listing, so that [`list`] never finds it too short.
pub const LISTING_MAX: usize = 22_940;
/// A buffer of this size holds any packed record, so that [`pack`] never finds it too short.
pub const RECORD_MAX: usize = 28_021;
/// A buffer of this size holds any trail, so that [`trail()`] never finds it too short.
pub const TRAIL_MAX: usize = 184_319;
/// A buffer of this size holds any trail of a question file, so that [`trail_question`] never finds
/// it too short.
pub const TRAIL_QUESTION_MAX: usize = 36_864;
/// A longer descriptor is refused, with [`Error::DescriptorShape`].
pub const DESCRIPTOR_MAX: usize = 65_535;
/// A longer policy is refused, with [`Error::PolicyShape`].
pub const POLICY_MAX: usize = 262_144;
/// A longer question file is refused, with [`Error::FileShape`].
pub const QUESTION_MAX: usize = 65_536;

//! A case, and short names for what cases are made of.

use pirasteh_cases::hex;
use pirasteh_cases::make::{self, Descriptor, Question, Token};

pub struct Case {
    pub reason: String,
    pub body: Body,
}

pub enum Body {
    Ask { file: Vec<u8>, line: Line },
    Convert { record: Vec<u8>, listing: Vec<u8> },
    RefusedRecord { record: Vec<u8>, number: u32 },
    RefusedListing { listing: Vec<u8>, number: u32 },
}

impl Case {
    pub fn text(&self) -> String {
        let reason = &self.reason;
        match &self.body {
            Body::Ask { file, line } => {
                let masks = line.masks.map_or(String::new(), |masks| {
                    let words = masks.map(|mask| format!(" 0x{mask:08x}"));
                    format!("masks ={}\n", words.concat())
                });
                let trail = if line.events.is_empty() {
                    String::new()
                } else {
                    format!("trail = {}\n", hex::encode(&line.trail()))
                };
                let file = hex::encode(file);
                format!("# {reason}\nask = {file}\nline = {}\n{masks}{trail}", line.text)
            }
            Body::Convert { record, listing } => format!(
                "# {reason}\nrecord = {}\nlisting = {}\n",
                hex::encode(record),
                hex::encode(listing)
            ),
            Body::RefusedRecord { record, number } => {
                format!("# {reason}\nrecord = {}\nrefused = {number}\n", hex::encode(record))
            }
            Body::RefusedListing { listing, number } => {
                format!("# {reason}\nlisting = {}\nrefused = {number}\n", hex::encode(listing))
            }
        }
    }
}

/// A question, by its file.
pub fn ask(reason: &str, question: Question, line: Line) -> Case {
    ask_file(reason, question.file(), line)
}

pub fn ask_file(reason: &str, file: Vec<u8>, line: Line) -> Case {
    Case { reason: reason.into(), body: Body::Ask { file, line } }
}

/// What is expected of a question: the line that the program prints and, if it is answered, the
/// four masks and the events. An event has a source, an entry number and a mask.
pub struct Line {
    pub text: String,
    pub masks: Option<[u32; 4]>,
    pub events: Vec<[u32; 3]>,
}

impl Line {
    /// An answer in which normal evaluation alone takes something, if anything does: all four masks
    /// are the granted one.
    fn answer(granted: u32, allowed: &str, staged: &str) -> Line {
        let text = format!("granted 0x{granted:08x} allowed {allowed} staged {staged}");
        Line { text, masks: Some([granted; 4]), events: vec![] }
    }

    /// The same where confinement or the policy takes something: what normal evaluation leaves of
    /// the bits asked, and what confinement leaves of these.
    pub fn after(mut self, normal: u32, confined: u32) -> Line {
        let masks = self.masks.as_mut().expect("a refusal has no masks");
        masks[..2].copy_from_slice(&[normal, confined]);
        self
    }

    /// The same where audit entries raise these events.
    pub fn raising(mut self, events: &[[u32; 3]]) -> Line {
        assert!(self.masks.is_some(), "a refusal has no events");
        self.events = events.to_vec();
        self
    }

    /// The bytes of the events, one number after the other in sevens.
    pub fn trail(&self) -> Vec<u8> {
        self.events.as_flattened().iter().flat_map(|&n| make::sevens(u64::from(n))).collect()
    }
}

pub fn yes(granted: u32) -> Line {
    Line::answer(granted, "yes", "no")
}

pub fn no(granted: u32) -> Line {
    Line::answer(granted, "no", "no")
}

pub fn yes_staged(granted: u32) -> Line {
    Line::answer(granted, "yes", "yes")
}

pub fn no_staged(granted: u32) -> Line {
    Line::answer(granted, "no", "yes")
}

pub fn refused(number: u32) -> Line {
    Line { text: format!("refused {number}"), masks: None, events: vec![] }
}

/// S-1-5-0-7, S-1-5-7 and S-1-5-32-544.
pub fn u() -> Vec<u8> {
    make::sid(5, &[0, 7])
}

pub fn w() -> Vec<u8> {
    make::sid(5, &[7])
}

pub fn g() -> Vec<u8> {
    make::sid(5, &[32, 544])
}

/// S-1-3-4, S-1-5-10 and S-1-15-2-2.
pub fn owner_rights() -> Vec<u8> {
    make::sid(3, &[4])
}

pub fn principal_self() -> Vec<u8> {
    make::sid(5, &[10])
}

pub fn all_restricted() -> Vec<u8> {
    make::sid(15, &[2, 2])
}

/// The confinement identity of card c8, S-1-15-2-9.
pub fn package() -> Vec<u8> {
    make::sid(15, &[2, 9])
}

pub fn tu() -> Token {
    Token::of(&u())
}

/// U, confined to the package, with S-1-15-2-2 as its capability: card c8's token.
pub fn confined() -> Token {
    tu().confined(&package(), &[&all_restricted()])
}

/// Descriptor D, as document 01 has it.
pub fn d() -> Vec<u8> {
    hex::bytes(
        "01 00 04 80 14 00 00 00 00 00 00 00 00 00 00 00 20 00 00 00 01 01 00 00 00 00 00 05 \
         07 00 00 00 02 00 20 00 01 00 00 00 00 00 18 00 00 00 00 80 01 02 00 00 00 00 00 05 \
         00 00 00 00 07 00 00 00",
    )
}

/// Card c1: TU on D, a file, asks for generic read. Other cases start from it.
pub fn c1() -> Question {
    Question {
        kind: 1,
        mask: 0x8000_0000,
        token: tu().record(),
        self_id: vec![],
        descriptor: d(),
        policy: vec![],
    }
}

/// Who asks for what, of an object owned by W with these entries.
pub fn on_list(token: Token, mask: u32, entries: &[Vec<u8>]) -> Question {
    on(token, mask, Descriptor::owned_by(&w()).dacl(&make::acl(entries)))
}

pub fn on(token: Token, mask: u32, descriptor: Descriptor) -> Question {
    Question { mask, token: token.record(), descriptor: descriptor.bytes(), ..c1() }
}

/// Small changes to a question, to be chained.
pub trait With: Sized {
    fn kind(self, kind: u32) -> Self;
    fn mask(self, mask: u32) -> Self;
    fn token(self, token: Vec<u8>) -> Self;
    fn self_id(self, self_id: &[u8]) -> Self;
    fn descriptor(self, descriptor: Vec<u8>) -> Self;
    fn policy(self, policy: Vec<u8>) -> Self;
}

impl With for Question {
    fn kind(self, kind: u32) -> Self {
        Question { kind, ..self }
    }

    fn mask(self, mask: u32) -> Self {
        Question { mask, ..self }
    }

    fn token(self, token: Vec<u8>) -> Self {
        Question { token, ..self }
    }

    fn self_id(self, self_id: &[u8]) -> Self {
        Question { self_id: self_id.to_vec(), ..self }
    }

    fn descriptor(self, descriptor: Vec<u8>) -> Self {
        Question { descriptor, ..self }
    }

    fn policy(self, policy: Vec<u8>) -> Self {
        Question { policy, ..self }
    }
}

/// The bytes with some of them replaced.
pub fn patched(mut bytes: Vec<u8>, at: usize, new: &[u8]) -> Vec<u8> {
    bytes[at..at + new.len()].copy_from_slice(new);
    bytes
}

/// The bytes with more behind them.
pub fn followed_by(mut bytes: Vec<u8>, more: &[u8]) -> Vec<u8> {
    bytes.extend(more);
    bytes
}

/// An allow or deny entry with spare bytes behind its SID.
pub fn long_allow(mask: u32, sid: &[u8], spare: &[u8]) -> Vec<u8> {
    make::long_entry(0, 0, mask, sid, spare)
}

pub fn long_deny(mask: u32, sid: &[u8], spare: &[u8]) -> Vec<u8> {
    make::long_entry(1, 0, mask, sid, spare)
}

/// The flags of an audit entry.
pub const SUCCESS: u8 = 0x40;
pub const FAILURE: u8 = 0x80;
pub const BOTH: u8 = SUCCESS | FAILURE;

pub fn audit(flags: u8, mask: u32, sid: &[u8]) -> Vec<u8> {
    make::entry(2, flags, mask, sid)
}

/// An entry whose SID says that it has so many words, whatever the entry holds.
pub fn saying(entry: Vec<u8>, words: u8) -> Vec<u8> {
    patched(entry, 9, &[words])
}

/// The first `length` bytes.
pub fn cut(mut bytes: Vec<u8>, length: usize) -> Vec<u8> {
    bytes.truncate(length);
    bytes
}

//! The access check once more, in plain Rust.
//!
//! Written from document 01 alone, with requests 101, 102, 103, 105 and 106 of document 02, and not
//! from the proved library, so that the two can be compared. It is meant to be read: it copies and
//! allocates freely, and every step stands where the document has it. For speed look elsewhere.
//!
//! Refusals are the document's numbers as they are, in `Err`.

mod acl;
mod condition;
mod descriptor;
mod evaluate;
mod file;
mod listing;
mod masks;
mod policy;
mod record;
mod sevens;
mod sid;
mod token;

/// The refusals, with the document's numbers.
pub mod refused {
    pub const KIND: u32 = 1;
    pub const MASK: u32 = 2;
    pub const TOKEN_SHAPE: u32 = 3;
    pub const TOKEN_RULE: u32 = 4;
    pub const SELF_ID: u32 = 5;
    pub const DESCRIPTOR_SHAPE: u32 = 6;
    pub const NO_OWNER: u32 = 7;
    pub const DACL_TYPE: u32 = 8;
    pub const POLICY_SHAPE: u32 = 9;
    pub const POLICY_TYPE: u32 = 10;
    pub const SHORT_BUFFER: u32 = 11;
    pub const FILE_SHAPE: u32 = 12;
}

/// What an accepted question is answered with.
#[derive(Clone, Copy, Debug, PartialEq, Eq)]
pub struct Answer {
    /// The bits asked for.
    pub asked: u32,
    /// What is left of these after normal evaluation, after confinement and after the policy.
    pub normal: u32,
    pub confined: u32,
    pub ruled: u32,
    pub granted: u32,
    pub allowed: bool,
    pub staged: bool,
}

/// An answer without its way there: what the program prints in one line.
#[derive(Clone, Copy, Debug, PartialEq, Eq)]
pub struct Verdict {
    pub granted: u32,
    pub allowed: bool,
    pub staged: bool,
}

impl Answer {
    /// The masks in the order of the steps; each lies within the one before.
    pub fn masks(&self) -> [u32; 4] {
        [self.normal, self.confined, self.ruled, self.granted]
    }

    pub fn verdict(&self) -> Verdict {
        Verdict { granted: self.granted, allowed: self.allowed, staged: self.staged }
    }
}

/// One event: an audit entry that has something to say about an answer.
#[derive(Clone, Copy, Debug, PartialEq, Eq)]
pub struct Event {
    /// 0 for the descriptor's SACL, else the number of the rule, from 1.
    pub source: u32,
    /// The entry's number in its SACL, from 0.
    pub entry: u32,
    /// The entry's mask as stored.
    pub mask: u32,
}

/// One question, from its parts.
pub fn check(
    kind: u32,
    mask: u32,
    token: &[u8],
    self_id: &[u8],
    descriptor: &[u8],
    policy: &[u8],
) -> Result<Answer, u32> {
    let said = check_and_events(kind, mask, token, self_id, descriptor, policy);
    said.map(|(answer, _)| answer)
}

/// The same, with the events. The refusals come in the order of their numbers.
pub fn check_and_events(
    kind: u32,
    mask: u32,
    token: &[u8],
    self_id: &[u8],
    descriptor: &[u8],
    policy: &[u8],
) -> Result<(Answer, Vec<Event>), u32> {
    let rights = masks::rights_of(kind).ok_or(refused::KIND)?;
    if !rights.may_be_asked(mask) {
        return Err(refused::MASK);
    }

    let token = record::read(token).ok_or(refused::TOKEN_SHAPE)?;
    if !token.keeps_the_rules() {
        return Err(refused::TOKEN_RULE);
    }

    if !self_id.is_empty() && !sid::is_exactly_one(self_id) {
        return Err(refused::SELF_ID);
    }

    let descriptor = descriptor::read(descriptor).ok_or(refused::DESCRIPTOR_SHAPE)?;
    let owner = descriptor.owner.ok_or(refused::NO_OWNER)?;
    if descriptor.dacl.as_ref().is_some_and(|dacl| dacl.has_unread_parts) {
        return Err(refused::DACL_TYPE);
    }

    let rules = policy::read(policy).ok_or(refused::POLICY_SHAPE)?;
    if rules.iter().any(policy::Rule::has_unread_parts) {
        return Err(refused::POLICY_TYPE);
    }

    Ok(evaluate::answer(
        &evaluate::Setting { rights, token: &token, owner, self_id },
        mask,
        &evaluate::Lists { dacl: descriptor.dacl.as_ref(), sacl: descriptor.sacl.as_ref() },
        &rules,
    ))
}

/// One question, from a question file.
pub fn question(bytes: &[u8]) -> Result<Answer, u32> {
    question_and_kind(bytes).map(|(answer, _)| answer)
}

/// The same, with the kind of object that the file asks about.
pub fn question_and_kind(bytes: &[u8]) -> Result<(Answer, u32), u32> {
    let q = file::read(bytes).ok_or(refused::FILE_SHAPE)?;
    let answer = check(q.kind, q.mask, q.token, q.self_id, q.descriptor, q.policy)?;
    Ok((answer, q.kind))
}

/// The same, with the events.
pub fn question_and_events(bytes: &[u8]) -> Result<(Answer, Vec<Event>), u32> {
    let q = file::read(bytes).ok_or(refused::FILE_SHAPE)?;
    check_and_events(q.kind, q.mask, q.token, q.self_id, q.descriptor, q.policy)
}

/// The bytes of some events: source, entry number and mask of each, in sevens.
pub fn trail(events: &[Event]) -> Vec<u8> {
    let mut out = Vec::new();
    for event in events {
        for number in [event.source, event.entry, event.mask] {
            sevens::put(&mut out, u64::from(number));
        }
    }
    out
}

/// What becomes of an answer for whose trail a buffer is lent. The trail is written only if all of
/// it fits, and only as far as it goes; else there is no answer. This refusal comes after all
/// others.
pub fn lend_trail(
    result: Result<(Answer, Vec<Event>), u32>,
    out: &mut [u8],
) -> Result<(Answer, usize), u32> {
    let (answer, events) = result?;
    let length = lend(Ok(trail(&events)), out)?;
    Ok((answer, length))
}

/// Packed token record to flat listing.
pub fn list(bytes: &[u8]) -> Result<Vec<u8>, u32> {
    let token = record::read(bytes).ok_or(refused::TOKEN_SHAPE)?;
    if !token.keeps_the_rules() {
        return Err(refused::TOKEN_RULE);
    }
    Ok(listing::write(&token))
}

/// Flat listing to packed token record.
pub fn pack(bytes: &[u8]) -> Result<Vec<u8>, u32> {
    let token = listing::read(bytes).ok_or(refused::TOKEN_SHAPE)?;
    if !token.keeps_the_rules() {
        return Err(refused::TOKEN_RULE);
    }
    Ok(record::write(&token))
}

/// What is done with a lent buffer: it is written only if the whole result fits, and only as far as
/// the result goes.
pub fn lend(result: Result<Vec<u8>, u32>, out: &mut [u8]) -> Result<usize, u32> {
    let bytes = result?;
    if bytes.len() > out.len() {
        return Err(refused::SHORT_BUFFER);
    }
    out[..bytes.len()].copy_from_slice(&bytes);
    Ok(bytes.len())
}

/// The line that the program prints for a question, without its newline.
pub fn line(result: &Result<Answer, u32>) -> String {
    let word = |yes| if yes { "yes" } else { "no" };
    match result {
        Ok(a) => format!(
            "granted 0x{:08x} allowed {} staged {}",
            a.granted,
            word(a.allowed),
            word(a.staged)
        ),
        Err(number) => format!("refused {number}"),
    }
}

/// The four masks of an answer. A refusal has none: all four are 0.
pub fn masks(result: &Result<Answer, u32>) -> [u32; 4] {
    match result {
        Ok(answer) => answer.masks(),
        Err(_) => [0; 4],
    }
}

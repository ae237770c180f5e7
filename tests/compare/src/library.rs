//! Calls the library on fenced copies of its inputs, and watches what it does to memory.

pub mod trail;

use crate::fence::{Fence, Spot};
use pirasteh::{raw, Descriptor, Kind, Listing, Policy, SelfId, Token};
use pirasteh_cases::make::Question;
use pirasteh_reference::{Answer, Verdict};
use std::array::from_fn;

/// What a call gave back. `Err` is a refusal; a call that broke a promise about memory is told
/// in words.
pub type Said<T> = Result<Result<T, u32>, String>;

pub struct Library {
    inputs: [Fence; 4],
    out: Fence,
}

/// Longer than anything that the cases hold.
const ROOM: usize = 655_360;
/// What the words hold before a call: neither 0 nor 1 nor a mask that is ever granted.
const STALE: u32 = 0xA5A5_A5A5;
const STALE_LENGTH: usize = 0xA5A5_A5A5;

/// Up to eight result words, with a guard word on each side of each.
struct Words([u32; 17]);

impl Words {
    fn new() -> Words {
        Words([STALE; 17])
    }

    /// Where the first so many are.
    fn pointers<const N: usize>(&mut self) -> [*mut u32; N] {
        assert!(N <= 8);
        let first = self.0.as_mut_ptr();
        // SAFETY: inside the array.
        from_fn(|i| unsafe { first.add(2 * i + 1) })
    }

    /// What they hold after a call. A refusal has to have zeroed them all.
    fn said<const N: usize>(&self, status: u32) -> Said<[u32; N]> {
        let words: [u32; N] = from_fn(|i| self.0[2 * i + 1]);
        let is_guard = |at: usize| at % 2 == 0 || at > 2 * N;
        if (0..17).any(|at| is_guard(at) && self.0[at] != STALE) {
            return Err("a word beside the result words was written".into());
        }
        if status == 0 {
            return Ok(Ok(words));
        }
        if words == [0; N] {
            return Ok(Err(status));
        }
        Err(format!("refused {status}, but the result words are {words:x?}"))
    }
}

/// A flag of an answer: 0 or 1.
fn flag(name: &str, word: u32) -> Result<bool, String> {
    if word > 1 {
        return Err(format!("{name} is {word:#x}"));
    }
    Ok(word == 1)
}

fn verdict([granted, allowed, staged]: [u32; 3]) -> Result<Verdict, String> {
    let (allowed, staged) = (flag("allowed", allowed)?, flag("staged", staged)?);
    Ok(Verdict { granted, allowed, staged })
}

fn answer(words: [u32; 7]) -> Result<Answer, String> {
    let [asked, normal, confined, ruled, granted, allowed, staged] = words;
    let Verdict { allowed, staged, .. } = verdict([granted, allowed, staged])?;
    Ok(Answer { asked, normal, confined, ruled, granted, allowed, staged })
}

/// What was made of the words of a call, unless it is a refusal.
fn made<T, const N: usize>(
    said: Result<[u32; N], u32>,
    make: impl Fn([u32; N]) -> Result<T, String>,
) -> Said<T> {
    match said {
        Ok(words) => make(words).map(Ok),
        Err(number) => Ok(Err(number)),
    }
}

/// The function that tells less says the same, as far as it goes.
fn tells_alike(told: Result<Verdict, u32>, said: Result<Answer, u32>) -> Result<(), String> {
    if told == said.map(|answer| answer.verdict()) {
        Ok(())
    } else {
        Err(format!("without the masks the library says {told:?}, with them {said:?}"))
    }
}

type Converter = unsafe extern "C" fn(*const u8, usize, *mut u8, usize, *mut usize) -> u32;

impl Library {
    pub fn new() -> Library {
        Library { inputs: [(); 4].map(|_| Fence::new(ROOM)), out: Fence::new(ROOM) }
    }

    /// Puts each input behind its fence.
    fn put<const N: usize>(&mut self, inputs: [&[u8]; N], dice: u64) -> [Spot; N] {
        let mut number = 0;
        inputs.map(|bytes| {
            number += 1;
            self.inputs[number - 1].put(bytes, dice.rotate_right(16 * (number - 1) as u32))
        })
    }

    fn inputs_hold<const N: usize>(&self, spots: [Spot; N], inputs: [&[u8]; N]) -> bool {
        (0..N).all(|i| self.inputs[i].holds(spots[i], inputs[i]))
    }

    /// One question through `pirasteh_check` and `pirasteh_why`, which have to agree.
    pub fn check(&mut self, q: &Question, dice: u64) -> Said<Answer> {
        let inputs = [&q.token[..], &q.self_id, &q.descriptor, &q.policy];
        let spots = self.put(inputs, dice);
        let parts = [0, 1, 2, 3].map(|i| self.inputs[i].bytes(spots[i]));
        let told = check(q.kind, q.mask, parts)?;
        let said = why(q.kind, q.mask, parts)?;
        tells_alike(told, said)?;
        // The safe wrapper, on the same bytes, now and then.
        if dice >> 61 == 0 {
            checks_alike(said, Kind::from_number(q.kind), q.mask, parts)?;
        }
        if !self.inputs_hold(spots, inputs) {
            return Err("an input, or a byte beside one, was written".into());
        }
        Ok(said)
    }

    /// One question file through `pirasteh_question` and `pirasteh_why_question`, which have to
    /// agree. Gives the kind of object too.
    pub fn question(&mut self, file: &[u8], dice: u64) -> Said<(Answer, u32)> {
        let spots = self.put([file], dice);
        let bytes = self.inputs[0].bytes(spots[0]);
        let told = question(bytes)?;
        let said = why_question(bytes)?;
        tells_alike(told, said.map(|(answer, _)| answer))?;
        if dice >> 61 == 0 {
            agrees(told, pirasteh::question(bytes))?;
            wrapper_why_question(said, bytes)?;
        }
        if !self.inputs_hold(spots, [file]) {
            return Err("the file, or a byte beside it, was written".into());
        }
        Ok(said)
    }

    /// Converts a record into a buffer of `room` bytes. Gives the bytes written.
    pub fn list(&mut self, record: &[u8], room: usize, dice: u64) -> Said<Vec<u8>> {
        let said = self.convert(raw::pirasteh_list, record, room, dice)?;
        if dice >> 61 == 0 {
            let token = Token(record);
            let mut out = vec![0; room];
            let length = pirasteh::list(token, &mut out);
            converts_alike(&said, length.map(|n| out[..n].to_vec()))?;
            let whole = self.convert(raw::pirasteh_list, record, pirasteh::LISTING_MAX, dice)?;
            converts_alike(&whole, pirasteh::list_vec(token))?;
        }
        Ok(said)
    }

    /// Converts a listing into a buffer of `room` bytes. Gives the bytes written.
    pub fn pack(&mut self, listing: &[u8], room: usize, dice: u64) -> Said<Vec<u8>> {
        let said = self.convert(raw::pirasteh_pack, listing, room, dice)?;
        if dice >> 61 == 0 {
            let flat = Listing(listing);
            let mut out = vec![0; room];
            let length = pirasteh::pack(flat, &mut out);
            converts_alike(&said, length.map(|n| out[..n].to_vec()))?;
            let whole = self.convert(raw::pirasteh_pack, listing, pirasteh::RECORD_MAX, dice)?;
            converts_alike(&whole, pirasteh::pack_vec(flat))?;
        }
        Ok(said)
    }

    fn convert(&mut self, f: Converter, input: &[u8], room: usize, dice: u64) -> Said<Vec<u8>> {
        let spots = self.put([input], dice);
        let before: Vec<u8> = (0..room).map(|i| (i as u64 ^ dice >> 40) as u8).collect();
        let lent = self.out.put(&before, dice.rotate_right(32));
        let bytes = self.inputs[0].bytes(spots[0]);
        let out = self.out.bytes_mut(lent);
        let mut lengths = [STALE_LENGTH; 3];
        // SAFETY: live slices that do not overlap, and a word of our own.
        let status = unsafe {
            f(bytes.as_ptr(), bytes.len(), out.as_mut_ptr(), out.len(), lengths.as_mut_ptr().add(1))
        };
        if !self.inputs_hold(spots, [input]) {
            return Err("the input, or a byte beside it, was written".into());
        }
        let [g0, written, g1] = lengths;
        if [g0, g1] != [STALE_LENGTH; 2] {
            return Err("a word beside the length was written".into());
        }
        if status != 0 {
            if written != 0 {
                return Err(format!("refused {status}, but the length is {written}"));
            }
            if !self.out.holds(lent, &before) {
                return Err(format!("refused {status}, but the buffer was written"));
            }
            return Ok(Err(status));
        }
        if written > room {
            return Err(format!("wrote {written} bytes into a buffer of {room}"));
        }
        let result = self.out.bytes(lent)[..written].to_vec();
        let after = [&result[..], &before[written..]].concat();
        if !self.out.holds(lent, &after) {
            return Err(format!("bytes past the {written} written were changed"));
        }
        Ok(Ok(result))
    }
}

fn check(kind: u32, mask: u32, [token, self_id, descriptor, policy]: [&[u8]; 4]) -> Said<Verdict> {
    let mut words = Words::new();
    let [granted, allowed, staged] = words.pointers();
    // SAFETY: live slices, and words of our own.
    let status = unsafe {
        raw::pirasteh_check(
            kind,
            mask,
            token.as_ptr(),
            token.len(),
            self_id.as_ptr(),
            self_id.len(),
            descriptor.as_ptr(),
            descriptor.len(),
            policy.as_ptr(),
            policy.len(),
            granted,
            allowed,
            staged,
        )
    };
    made(words.said(status)?, verdict)
}

fn why(kind: u32, mask: u32, [token, self_id, descriptor, policy]: [&[u8]; 4]) -> Said<Answer> {
    let mut words = Words::new();
    let [asked, normal, confined, ruled, granted, allowed, staged] = words.pointers();
    // SAFETY: live slices, and words of our own.
    let status = unsafe {
        raw::pirasteh_why(
            kind,
            mask,
            token.as_ptr(),
            token.len(),
            self_id.as_ptr(),
            self_id.len(),
            descriptor.as_ptr(),
            descriptor.len(),
            policy.as_ptr(),
            policy.len(),
            asked,
            normal,
            confined,
            ruled,
            granted,
            allowed,
            staged,
        )
    };
    made(words.said(status)?, answer)
}

fn question(file: &[u8]) -> Said<Verdict> {
    let mut words = Words::new();
    let [granted, allowed, staged] = words.pointers();
    // SAFETY: a live slice, and words of our own.
    let status =
        unsafe { raw::pirasteh_question(file.as_ptr(), file.len(), granted, allowed, staged) };
    made(words.said(status)?, verdict)
}

/// One question file through `pirasteh_why_question` alone.
pub fn why_question(file: &[u8]) -> Said<(Answer, u32)> {
    let mut words = Words::new();
    let [kind, asked, normal, confined, ruled, granted, allowed, staged] = words.pointers();
    // SAFETY: a live slice, and words of our own.
    let status = unsafe {
        raw::pirasteh_why_question(
            file.as_ptr(),
            file.len(),
            kind,
            asked,
            normal,
            confined,
            ruled,
            granted,
            allowed,
            staged,
        )
    };
    made(words.said(status)?, |[kind, rest @ ..]: [u32; 8]| Ok((answer(rest)?, kind)))
}

/// The wrapper's `check`, `allows` and `why` against what the library said. A kind that is not there
/// is no question of the wrapper's: the library has to have refused it for its kind.
fn checks_alike(
    said: Result<Answer, u32>,
    kind: Option<Kind>,
    mask: u32,
    [token, self_id, descriptor, policy]: [&[u8]; 4],
) -> Result<(), String> {
    let told = said.map(|answer| answer.verdict());
    let Some(kind) = kind else {
        return agrees(told, Err(pirasteh::Error::Kind));
    };
    let question = pirasteh::Question {
        kind,
        mask,
        token: Token(token),
        self_id: SelfId(self_id),
        descriptor: Descriptor(descriptor),
        policy: Policy(policy),
    };
    agrees(told, pirasteh::check(&question))?;
    wrapper_why(said, &question)?;
    if pirasteh::allows(&question) == said.is_ok_and(|answer| answer.allowed) {
        Ok(())
    } else {
        Err(format!("`allows` says otherwise than the library, {said:?}"))
    }
}

fn agrees(
    told: Result<Verdict, u32>,
    safe: Result<pirasteh::Answer, pirasteh::Error>,
) -> Result<(), String> {
    let safe = safe
        .map(|a| Verdict { granted: a.granted, allowed: a.allowed, staged: a.staged })
        .map_err(pirasteh::Error::number);
    if safe == told {
        Ok(())
    } else {
        Err(format!("the safe wrapper says {safe:?}, the library {told:?}"))
    }
}

fn converts_alike(
    said: &Result<Vec<u8>, u32>,
    safe: Result<Vec<u8>, pirasteh::Error>,
) -> Result<(), String> {
    if safe.map_err(pirasteh::Error::number) == *said {
        Ok(())
    } else {
        Err("the safe wrapper converts otherwise".into())
    }
}

/// The wrapper's `why` against what the library said.
fn wrapper_why(said: Result<Answer, u32>, question: &pirasteh::Question) -> Result<(), String> {
    explains_alike(said.map(|answer| (answer, question.kind.number())), pirasteh::why(question))
}

/// The wrapper's `why_question` against what the library said.
fn wrapper_why_question(said: Result<(Answer, u32), u32>, file: &[u8]) -> Result<(), String> {
    explains_alike(said, pirasteh::why_question(file))
}

fn explains_alike(
    said: Result<(Answer, u32), u32>,
    safe: Result<pirasteh::Why, pirasteh::Error>,
) -> Result<(), String> {
    let all = |why: &pirasteh::Why| {
        let answer = Answer {
            asked: why.asked,
            normal: why.normal,
            confined: why.confined,
            ruled: why.ruled,
            granted: why.granted,
            allowed: why.allowed,
            staged: why.staged,
        };
        (answer, why.kind.number())
    };
    if safe.as_ref().map(all).map_err(|error| error.number()) != said {
        return Err(format!("the safe wrapper says {safe:?}, the library {said:?}"));
    }
    safe.map_or(Ok(()), |why| loses_alike(&why))
}

/// What `why` says was lost: each bit once, from the lowest up, at the step that took it.
fn loses_alike(why: &pirasteh::Why) -> Result<(), String> {
    let steps = [
        (why.asked & !why.normal, pirasteh::Step::NormalEvaluation),
        (why.normal & !why.confined, pirasteh::Step::Confinement),
        (why.confined & !why.ruled, pirasteh::Step::Policy),
    ];
    let step_of = |bit: u32| steps.iter().find(|(lost, _)| lost & bit != 0).map(|(_, step)| *step);
    let bits = (0..32).map(|place| 1 << place);
    let expected: Vec<_> = bits.filter_map(|bit| Some((bit, step_of(bit)?))).collect();
    let said: Vec<_> = why.lost().map(|lost| (lost.bit, lost.step)).collect();
    if said == expected {
        Ok(())
    } else {
        Err(format!("the safe wrapper says that {said:x?} is lost, expected {expected:x?}"))
    }
}

//! Questions with a buffer lent for their trail, which may be too short.

use super::{Library, Said, Words, STALE_LENGTH};
use crate::fence::Spot;
use crate::trails;
use pirasteh::{raw, Descriptor, Kind, Policy, SelfId, Token};
use pirasteh_cases::make::Question;
use pirasteh_reference::{refused, Verdict};
use std::array::from_fn;

/// An answer, and the bytes of its trail.
pub type Trail = (Verdict, Vec<u8>);

/// What a call may write: the lent buffer, the length that it says of it and the result words.
struct Lent<'a> {
    out: &'a mut [u8],
    written: *mut usize,
    words: [*mut u32; 3],
}

/// Calls a function with these inputs. Gives its status.
type Call<'a, const N: usize> = &'a dyn Fn([&[u8]; N], Lent) -> u32;

impl Library {
    /// One question through `pirasteh_trail`, into buffers of all these lengths.
    pub fn trail(
        &mut self,
        q: &Question,
        rooms: &[usize],
        expected: &Result<Trail, u32>,
        dice: u64,
    ) -> Result<(), String> {
        self.ask_with_rooms(parts_of(q), rooms, expected, dice, &|parts, lent| {
            by_parts(q, parts, lent)
        })?;
        // The safe wrapper, now and then. A kind that is not there is no question of the wrapper's.
        match Kind::from_number(q.kind).filter(|_| dice >> 61 == 0) {
            Some(kind) => {
                let question = pirasteh::Question {
                    kind,
                    mask: q.mask,
                    token: Token(&q.token),
                    self_id: SelfId(&q.self_id),
                    descriptor: Descriptor(&q.descriptor),
                    policy: Policy(&q.policy),
                };
                let bound = pirasteh::trail_bound(q.descriptor.len(), q.policy.len());
                tells_alike(rooms, bound, expected, |out| pirasteh::trail(&question, out))
            }
            None => Ok(()),
        }
    }

    /// One question file through `pirasteh_trail_question`, into buffers of all these lengths.
    pub fn trail_question(
        &mut self,
        file: &[u8],
        rooms: &[usize],
        expected: &Result<Trail, u32>,
        dice: u64,
    ) -> Result<(), String> {
        self.ask_with_rooms([file], rooms, expected, dice, &|[file], lent| by_file(file, lent))?;
        if dice >> 61 == 0 {
            let bound = pirasteh::TRAIL_QUESTION_MAX;
            tells_alike(rooms, bound, expected, |out| pirasteh::trail_question(file, out))?;
        }
        Ok(())
    }

    /// What `pirasteh_trail` says of a question, with a buffer of this length.
    pub fn trail_of(&mut self, q: &Question, room: usize, dice: u64) -> Said<Trail> {
        let spots = self.put(parts_of(q), dice);
        let said =
            self.ask_with_room(spots, room, dice, &|parts, lent| by_parts(q, parts, lent))?;
        if !self.inputs_hold(spots, parts_of(q)) {
            return Err("an input, or a byte beside one, was written".into());
        }
        Ok(said)
    }

    fn ask_with_rooms<const N: usize>(
        &mut self,
        inputs: [&[u8]; N],
        rooms: &[usize],
        expected: &Result<Trail, u32>,
        dice: u64,
        call: Call<N>,
    ) -> Result<(), String> {
        let spots = self.put(inputs, dice);
        for &room in rooms {
            let said = self.ask_with_room(spots, room, dice ^ room as u64, call);
            let said = said.map_err(|what| format!("into a buffer of {room} bytes: {what}"))?;
            let fits = fitting(expected, room);
            if said != fits {
                let (said, fits) = (shown(&said), shown(&fits));
                let into = format!("into a buffer of {room} bytes");
                return Err(format!("{into}: library {said}, reference {fits}"));
            }
        }
        if !self.inputs_hold(spots, inputs) {
            return Err("an input, or a byte beside one, was written".into());
        }
        Ok(())
    }

    /// One call, whatever it says: a refusal has to have written nothing, and an answer no byte
    /// past its trail.
    fn ask_with_room<const N: usize>(
        &mut self,
        spots: [Spot; N],
        room: usize,
        dice: u64,
        call: Call<N>,
    ) -> Said<Trail> {
        let before: Vec<u8> = (0..room).map(|i| (i as u64 ^ dice >> 40) as u8).collect();
        let lent = self.out.put(&before, dice.rotate_right(32));
        let mut words = Words::new();
        let mut lengths = [STALE_LENGTH; 3];
        let inputs = from_fn(|i| self.inputs[i].bytes(spots[i]));
        let out = self.out.bytes_mut(lent);
        let written = &raw mut lengths[1];
        let status = call(inputs, Lent { out, written, words: words.pointers() });

        let [guard, written, other_guard] = lengths;
        if [guard, other_guard] != [STALE_LENGTH; 2] {
            return Err("a word beside the length was written".into());
        }
        let said = super::made(words.said(status)?, super::verdict)?;
        if said.is_err() && written != 0 {
            return Err(format!("refused {status}, but the length is {written}"));
        }
        if written > room {
            return Err(format!("the length is {written}"));
        }
        let trail = self.out.bytes(lent)[..written].to_vec();
        if !self.out.holds(lent, &[&trail[..], &before[written..]].concat()) {
            return Err(format!("bytes past the {written} of the trail were changed"));
        }
        Ok(said.map(|verdict| (verdict, trail)))
    }
}

fn parts_of(q: &Question) -> [&[u8]; 4] {
    [&q.token, &q.self_id, &q.descriptor, &q.policy]
}

fn by_parts(q: &Question, [token, self_id, descriptor, policy]: [&[u8]; 4], lent: Lent) -> u32 {
    let [granted, allowed, staged] = lent.words;
    // SAFETY: live slices, of which the buffer overlaps none, and words of our own.
    unsafe {
        raw::pirasteh_trail(
            q.kind,
            q.mask,
            token.as_ptr(),
            token.len(),
            self_id.as_ptr(),
            self_id.len(),
            descriptor.as_ptr(),
            descriptor.len(),
            policy.as_ptr(),
            policy.len(),
            lent.out.as_mut_ptr(),
            lent.out.len(),
            lent.written,
            granted,
            allowed,
            staged,
        )
    }
}

fn by_file(file: &[u8], lent: Lent) -> u32 {
    let [granted, allowed, staged] = lent.words;
    // SAFETY: a live slice, which the buffer does not overlap, and words of our own.
    unsafe {
        raw::pirasteh_trail_question(
            file.as_ptr(),
            file.len(),
            lent.out.as_mut_ptr(),
            lent.out.len(),
            lent.written,
            granted,
            allowed,
            staged,
        )
    }
}

/// The wrapper's function against what is expected, into buffers of all these lengths and of one
/// that is always enough; and its reader of trails.
fn tells_alike(
    rooms: &[usize],
    bound: usize,
    expected: &Result<Trail, u32>,
    ask: impl Fn(&mut [u8]) -> Result<pirasteh::Traced, pirasteh::Error>,
) -> Result<(), String> {
    for &room in rooms.iter().chain([&bound]) {
        let mut out = vec![0x5A; room];
        let safe = ask(&mut out).map_err(pirasteh::Error::number).map(|traced| {
            let pirasteh::Answer { granted, allowed, staged, .. } = traced.answer;
            let trail = out.get(..traced.length).unwrap_or(&out).to_vec();
            (Verdict { granted, allowed, staged }, trail)
        });
        let fits = fitting(expected, room);
        let written = fits.as_ref().map_or(0, |(_, trail)| trail.len());
        if safe != fits || out[written..].iter().any(|&byte| byte != 0x5A) {
            let (safe, fits) = (shown(&safe), shown(&fits));
            return Err(format!(
                "into a buffer of {room} bytes: the safe wrapper says {safe}, expected {fits}"
            ));
        }
    }
    let trail = expected.as_ref().map_or(&[][..], |(_, trail)| trail);
    let events: Option<Vec<[u32; 3]>> = pirasteh::events(trail)
        .map(|event| event.ok().map(|event| [event.source, event.entry, event.mask]))
        .collect();
    if events == trails::read(trail) {
        Ok(())
    } else {
        Err(format!("the safe wrapper reads the events {events:?}"))
    }
}

/// What is expected of a buffer of this length.
fn fitting(expected: &Result<Trail, u32>, room: usize) -> Result<Trail, u32> {
    match expected {
        Ok((_, trail)) if trail.len() > room => Err(refused::SHORT_BUFFER),
        other => other.clone(),
    }
}

/// An answer, and the front of its trail.
fn shown(said: &Result<Trail, u32>) -> String {
    match said {
        Ok((verdict, trail)) => {
            let front = pirasteh_cases::hex::encode(&trail[..trail.len().min(300)]);
            format!("{verdict:?} with a trail of {} bytes, {front}", trail.len())
        }
        Err(number) => format!("refused {number}"),
    }
}

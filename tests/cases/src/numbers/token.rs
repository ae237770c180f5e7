//! Tokens of numbers of all lengths, and records with one number of a given form.

use super::bytes::any;
use super::{Aim, Form};
use crate::make::{self, Token};
use crate::people;
use crate::rng::Rng;

fn identity(rng: &mut Rng, words: usize) -> Vec<u8> {
    let words: Vec<u32> = (0..words).map(|_| any(rng, 32) as u32).collect();
    make::sid(any(rng, 48), &words)
}

/// An acceptable token, of numbers of all lengths. The last number of its record is an authority,
/// or else a word or an attribute word.
pub fn token(rng: &mut Rng, ends_with_authority: bool) -> Token {
    let someone = |rng: &mut Rng| {
        let words = 1 + rng.below(3);
        identity(rng, words)
    };
    let mut token = Token::of(&someone(rng)).privileges(any(rng, 64));
    for _ in 0..1 + rng.below(3) {
        let attributes = any(rng, 32) as u32;
        token = token.group(&someone(rng), attributes);
    }
    if ends_with_authority || rng.one_in(2) {
        let last = if ends_with_authority { identity(rng, 0) } else { someone(rng) };
        token = token.confined(&someone(rng), &[&people::all_restricted(), &last]);
        if rng.one_in(2) {
            token = token.exempt();
        }
    }
    token
}

/// The identities of a token, in the order of its record, without the one that has to be there.
pub fn identities(token: &mut Token) -> Vec<&mut Vec<u8>> {
    let mut all = vec![&mut token.user];
    all.extend(token.groups.iter_mut().map(|(group, _)| group));
    if let Some((identity, capabilities)) = &mut token.confinement {
        all.push(identity);
        all.extend(capabilities.iter_mut().filter(|one| **one != people::all_restricted()));
    }
    all
}

/// Puts a good number into a token: as its last, or in any place of the width.
pub fn put(rng: &mut Rng, token: &mut Token, aim: Aim, value: u64) {
    let bits = aim.door.bits;
    let is_last = aim.form == Form::Last;
    let mut choose = |among: usize| if is_last { among - 1 } else { rng.below(among) };
    let in_attributes = if is_last { token.confinement.is_none() } else { choose(3) == 0 };
    if bits == 64 {
        token.privileges = value;
    } else if bits == 32 && in_attributes {
        let which = choose(token.groups.len());
        token.groups[which].1 = value as u32;
    } else {
        let mut all = identities(token);
        all.retain(|sid| bits == 48 || sid[1] > 0);
        let which = choose(all.len());
        let sid = &mut all[which];
        if bits == 48 {
            sid[2..8].copy_from_slice(&value.to_be_bytes()[2..]);
        } else {
            let at = 8 + 4 * choose(usize::from(sid[1]));
            sid[at..at + 4].copy_from_slice(&(value as u32).to_le_bytes());
        }
    }
}

/// The widths of a record's numbers, in their order.
fn widths(token: &Token) -> Vec<u32> {
    let identity = |sid: &[u8]| [&[32, 48][..], &vec![32; usize::from(sid[1])]].concat();
    let mut all = vec![32, 32, 64];
    all.extend(identity(&token.user));
    all.push(32);
    for (group, _) in &token.groups {
        all.extend(identity(group));
        all.push(32);
    }
    if let Some((confinement, capabilities)) = &token.confinement {
        all.extend(identity(confinement));
        all.push(32);
        all.extend(capabilities.iter().flat_map(|one| identity(one)));
    }
    all
}

/// A record with one bad number. One that is cut off is the last of its width, and nothing follows.
pub fn spoiled(rng: &mut Rng, token: &Token, aim: Aim) -> Vec<u8> {
    let widths = widths(token);
    let mut places: Vec<usize> = (0..widths.len()).collect();
    places.retain(|&place| widths[place] == aim.door.bits);
    let is_cut = aim.form == Form::Cut;
    let place = if is_cut { places[places.len() - 1] } else { rng.of(&places) };
    let values = token.numbers();
    let mut numbers: Vec<Vec<u8>> = values.iter().map(|&value| make::sevens(value)).collect();
    numbers[place] = aim.bytes(rng, values[place]);
    if is_cut {
        numbers.truncate(place + 1);
    }
    numbers.concat()
}

#[cfg(test)]
mod tests {
    use super::*;

    #[test]
    fn every_number_has_its_width() {
        for number in 0..1_000 {
            let rng = &mut Rng::new(1, number);
            let by_authority = rng.one_in(2);
            let token = token(rng, by_authority);
            let (widths, values) = (widths(&token), token.numbers());
            assert_eq!(widths.len(), values.len());
            assert_eq!(widths.last(), Some(if by_authority { &48 } else { &32 }));
            assert!(widths
                .iter()
                .zip(values)
                .all(|(&bits, value)| bits == 64 || value >> bits == 0));
        }
    }
}

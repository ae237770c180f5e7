//! Which identities were named in tokens that just fill a table of seats, or just do not, and in
//! tokens of which some identities have one key.

use super::{named, Named};
use crate::children::owner_of;
use crate::who::{One, Who, OWNER_RIGHTS, PRINCIPAL_SELF};
use pirasteh_cases::crowds::seats::{aim, aims, Aim, Shape, STEPS};
use pirasteh_cases::key::key;
use pirasteh_cases::make::Question;
use pirasteh_reference::Verdict;

/// Whom an entry names: of those who have one key, or of all where nothing is said of keys.
const WHOM: [&str; 7] = [
    "the first",
    "one between",
    "the last",
    "a stranger of their key",
    "a stranger of their key and last word",
    "one listed twice, to allow",
    "one listed twice, to deny",
];
const IN_CROWD: usize = 3;
const TWICE: usize = 5;

/// By what the owner or the self identity is named.
const BY: [&str; 5] =
    ["S-1-3-4", "owner's rights", "S-1-5-10", "S-1-3-4, confined", "S-1-5-10, confined"];

/// Others who have the last word of one who matched.
const ALIKE: [&str; 4] = [
    "in the next seats, behind a step below 16",
    "farther off, behind a step below 16",
    "in the next seats, behind a step of 16 or more",
    "farther off, behind a step of 16 or more",
];

const PAIRS: usize = STEPS.len() * STEPS.len();

/// How often each was reached.
pub struct Table {
    named: Vec<[u64; WHOM.len()]>,
    /// For each pair of steps between three who have one key.
    stood_for: [[[u64; TWICE]; BY.len()]; PAIRS],
    alike: [[u64; ALIKE.len()]; 2],
}

impl Default for Table {
    fn default() -> Table {
        Table {
            named: vec![[0; WHOM.len()]; aims().len()],
            stood_for: [[[0; TWICE]; BY.len()]; PAIRS],
            alike: [[0; ALIKE.len()]; 2],
        }
    }
}

/// The last word, or the end of the authority.
fn last_word(sid: &[u8]) -> &[u8] {
    &sid[sid.len() - 4..]
}

/// Whether a token is what was aimed at.
fn is_aimed(aim: Aim, who: &Who) -> bool {
    if let Shape::Full { groups, capabilities } = aim.shape {
        let confined = if capabilities == 0 { 0 } else { 1 + capabilities };
        return (who.normal.len(), who.confined.len()) == (1 + groups, confined);
    }
    let crowd = if aim.confined { &who.confined } else { &who.normal };
    let numbers = aim.shape.numbers();
    let Some(first) = crowd.get(numbers[0] - 1) else { return false };
    let of_key = crowd.iter().enumerate().filter(|(_, one)| key(&one.sid) == key(&first.sid));
    of_key.map(|(place, _)| place + 1).eq(numbers)
}

/// Those whom the entries are about.
fn those(aim: Aim, crowd: &[One]) -> Vec<&One> {
    match aim.shape {
        Shape::Full { .. } => crowd.iter().collect(),
        shape => shape.numbers().into_iter().map(|number| &crowd[number - 1]).collect(),
    }
}

/// Who a SID is to these, in the order of `WHOM`.
fn whom(those: &[&One], sid: &[u8]) -> [bool; TWICE] {
    let mut all = [false; TWICE];
    match those.iter().position(|one| one.sid == sid) {
        Some(0) => all[0] = true,
        Some(place) if place == those.len() - 1 => all[2] = true,
        Some(_) => all[1] = true,
        None => {
            let same_key = those.iter().filter(|one| key(&one.sid) == key(sid));
            for one in same_key {
                all[3] = true;
                all[4] |= last_word(&one.sid) == last_word(sid);
            }
        }
    }
    all
}

/// Which of `ALIKE` a chain has for the one of this place in it, who is not its last.
fn alike(shape: Shape, crowd: &[One], place: usize) -> Option<usize> {
    let numbers = shape.numbers();
    let (here, next) = (numbers[place], *numbers.get(place + 1)?);
    let word = last_word(&crowd[here - 1].sid);
    let others = (here + 1..next).filter(|&number| last_word(&crowd[number - 1].sid) == word);
    let nearest = others.min()?;
    Some(usize::from(nearest > here + 1) + if next - here < 16 { 0 } else { 2 })
}

/// Counts one of these if it matched, and a stranger.
fn count(times: &mut [u64], whom: [bool; TWICE], matched: bool) {
    for (at, (times, here)) in times.iter_mut().zip(whom).enumerate() {
        *times += u64::from(here && (matched || at >= IN_CROWD));
    }
}

/// The number of a pair of steps.
fn pair(shape: Shape) -> Option<usize> {
    let Shape::Chain { steps, .. } = shape else { return None };
    let [a, b] = steps.map(|step| STEPS.iter().position(|&one| one == step));
    Some(a? * STEPS.len() + b?)
}

impl Table {
    /// Adds the accepted question of one turn.
    pub fn add(&mut self, turn: u64, q: &Question, answer: Verdict) {
        let aim = aim(turn);
        let Some(who) = Who::of(q) else { return };
        let Some(named) = named(q) else { return };
        if !is_aimed(aim, &who) {
            return;
        }
        let crowd = if aim.confined { &who.confined } else { &who.normal };
        let at = (turn % self.named.len() as u64) as usize;
        let those = those(aim, crowd);
        for (right, sid) in &named.own {
            let matched = (answer.granted & right != 0) != named.are_denies;
            if sid[..] != OWNER_RIGHTS && sid[..] != PRINCIPAL_SELF {
                count(&mut self.named[at], whom(&those, sid), matched);
                self.twice(at, aim, &those, sid, named.are_denies);
                self.alike(aim, crowd, &those, sid, matched);
            }
        }
        self.stood_for(aim, &those, q, &named, answer);
    }

    fn twice(&mut self, at: usize, aim: Aim, those: &[&One], sid: &[u8], are_denies: bool) {
        if matches!(aim.shape, Shape::Twice { .. }) && those[0].sid == sid {
            self.named[at][TWICE + usize::from(are_denies)] += 1;
        }
    }

    fn alike(&mut self, aim: Aim, crowd: &[One], those: &[&One], sid: &[u8], matched: bool) {
        let is_chain = matches!(aim.shape, Shape::Chain { .. });
        let place = those.iter().position(|one| one.sid == sid).filter(|_| is_chain && matched);
        if let Some(which) = place.and_then(|place| alike(aim.shape, crowd, place)) {
            self.alike[usize::from(aim.confined)][which] += 1;
        }
    }

    fn stood_for(
        &mut self,
        aim: Aim,
        those: &[&One],
        q: &Question,
        named: &Named,
        answer: Verdict,
    ) {
        let Some(pair) = pair(aim.shape) else { return };
        let by = if aim.confined { [3, 4] } else { [0, 2] };
        let owner = owner_of(q).unwrap_or_default();
        let mut speaks = false;
        for (right, sid) in &named.own {
            let matched = (answer.granted & right != 0) != named.are_denies;
            if sid[..] == OWNER_RIGHTS {
                speaks = true;
                count(&mut self.stood_for[pair][by[0]], whom(those, owner), matched);
            } else if sid[..] == PRINCIPAL_SELF {
                count(&mut self.stood_for[pair][by[1]], whom(those, &q.self_id), matched);
            }
        }
        if !aim.confined && !named.are_denies && !speaks {
            let matched = answer.granted & 0x6_0000 != 0;
            count(&mut self.stood_for[pair][1], whom(those, owner), matched);
        }
    }

    /// What should have been reached and was not.
    pub fn unreached(&self) -> Vec<String> {
        let mut all = Vec::new();
        for (aim, times) in aims().into_iter().zip(&self.named) {
            for at in possible(aim).filter(|&at| times[at] == 0) {
                all.push(format!("{aim:?}: an entry that names {}", WHOM[at]));
            }
        }
        for (pair, times) in self.stood_for.iter().enumerate() {
            let steps = [STEPS[pair / STEPS.len()], STEPS[pair % STEPS.len()]];
            for (by, times) in BY.iter().zip(times) {
                for (_, whom) in times.iter().zip(WHOM).filter(|(&times, _)| times == 0) {
                    all.push(format!("{by} for {whom} of one key, at steps of {steps:?}"));
                }
            }
        }
        for (walk, times) in ["groups", "capabilities"].iter().zip(&self.alike) {
            for (_, alike) in times.iter().zip(ALIKE).filter(|(&times, _)| times == 0) {
                all.push(format!("{walk} with the last word of one who matched, {alike}"));
            }
        }
        all
    }

    pub fn print(&self) {
        println!(
            "  entries that name one of a full table, or of one key; of all tokens the least:"
        );
        for (at, name) in WHOM.iter().enumerate() {
            let tokens = aims().into_iter().zip(&self.named);
            let tokens = tokens.filter(|&(aim, _)| possible(aim).any(|one| one == at));
            println!(
                "  {:9}  {name}",
                tokens.map(|(_, times)| times[at]).min().unwrap_or_default()
            );
        }
        for (at, by) in BY.iter().enumerate() {
            let least = self.stood_for.iter().flat_map(|pair| pair[at]).min().unwrap_or_default();
            println!("  {least:9}  {by} for one of these, the least of all steps");
        }
        for (at, alike) in ALIKE.iter().enumerate() {
            let least = self.alike.iter().map(|times| times[at]).min().unwrap_or_default();
            println!("  {least:9}  others with the last word of one who matched, {alike}");
        }
    }
}

/// The places of `WHOM` that a token has.
fn possible(aim: Aim) -> impl Iterator<Item = usize> {
    (0..WHOM.len()).filter(move |&at| match aim.shape {
        // Strangers are like one who has been named.
        Shape::Twice { .. } => at >= IN_CROWD,
        _ => at < TWICE,
    })
}

#[cfg(test)]
mod tests {
    use super::*;
    use pirasteh_cases::random::{about, case, About, Case};

    #[test]
    fn every_token_is_what_was_aimed_at() {
        let mut tokens = 0;
        for number in 0..20_000 {
            let Some(About::Seats(turn)) = about(number) else { continue };
            let Case::Check(q) = case(3, number) else { panic!("case {number} is no question") };
            let who = Who::of(&q).unwrap_or_else(|| panic!("case {number} has a bad token"));
            assert!(is_aimed(aim(turn), &who), "case {number} of seed 3: {:?}", aim(turn));
            assert!(named(&q).is_some(), "case {number} of seed 3");
            tokens += 1;
        }
        assert!(tokens > 400, "only {tokens}");
    }
}

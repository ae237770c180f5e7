//! Who there is in a case about conditions: one of every kind that a membership can be about.

use super::place::Pass;
use crate::make::{sid, Token};
use crate::people;
use crate::rng::Rng;

pub type Sid = Vec<u8>;

pub struct Cast {
    pub user: Sid,
    pub enabled: Sid,
    pub deny_only: Sid,
    pub disabled: Sid,
    pub package: Sid,
    pub capability: Sid,
    pub stranger: Sid,
    pub owner: Sid,
    pub self_id: Sid,
    pub token: Token,
}

/// Seven identities that are hard to tell apart.
fn seven(rng: &mut Rng) -> Vec<Sid> {
    let first = rng.of(&[1, 11, 0x0100_0000 - 3, u32::MAX - 9]);
    let style = rng.below(5);
    let mut all: Vec<Sid> = (0..7)
        .map(|i| match style {
            0 => sid(5, &[first + i]),
            1 => sid(5, &[21, 1, 2, 3, first + i]),
            2 => sid(5, &[first + i, 0, 0, 0, 0, 0, 0, 0, 0, 0, 0, 0, 0, 0, 7]),
            3 => sid(5, &vec![7; i as usize]),
            _ => sid(u64::from(20 + i), &[7, 7]),
        })
        .collect();
    for last in (1..7).rev() {
        all.swap(last, rng.below(last + 1));
    }
    all
}

/// So many others, whom no condition names, and who are like those whom some do.
fn others(rng: &mut Rng, count: u32) -> impl Iterator<Item = Sid> {
    let words: &[u32] = rng.of(&[&[], &[21, 1, 2, 3], &[21, 1, 2]]);
    (0..count).map(move |i| sid(5, &[words, &[1_000 + i]].concat()))
}

impl Cast {
    pub fn new(rng: &mut Rng, pass: Pass) -> Cast {
        let mut names = seven(rng).into_iter();
        let mut next = || names.next().unwrap_or_default();
        let [user, enabled, deny_only, disabled, package, capability, stranger] =
            [(); 7].map(|()| next());
        let mut groups = vec![
            (enabled.clone(), rng.of(&[4, 7, 0xF])),
            (deny_only.clone(), rng.of(&[0x10, 0x10, 0x14])),
            (disabled.clone(), rng.of(&[0, 3, 0x20])),
        ];
        let place = rng.below(3);
        groups.swap(0, place);
        if rng.one_in(6) {
            // Listed once more, by which nothing changes.
            let place = rng.below(groups.len() + 1);
            groups.insert(place, (enabled.clone(), rng.of(&[0, 0x10, 0x14])));
        }
        let mut token = Token::of(&user);
        token.groups = groups;
        let crowded = rng.one_in(30);
        if crowded {
            let most = 256 - token.groups.len() as u32;
            let (place, count) = (rng.below(3), rng.of(&[18, 60, most, most]));
            token.groups.splice(place..place, others(rng, count).map(|sid| (sid, 7)));
        }
        if pass == Pass::Confined || rng.one_in(2) {
            token = token.confined(&package, &[&capability, &people::all_restricted()]);
            if let Some((_, capabilities)) = token.confinement.as_mut().filter(|_| crowded) {
                let (place, count) = (rng.below(3), rng.of(&[18, 62]));
                capabilities.splice(place..place, others(rng, count));
            }
            if pass != Pass::Confined && rng.one_in(2) {
                token = token.exempt();
            }
        }
        let mut cast = Cast {
            user,
            enabled,
            deny_only,
            disabled,
            package,
            capability,
            stranger,
            owner: Vec::new(),
            self_id: Vec::new(),
            token,
        };
        cast.owner = cast.one(rng);
        if rng.one_in(8) {
            cast.owner = rng.of(&[people::owner_rights, people::principal_self])();
        }
        cast.self_id = match rng.below(8) {
            0 => Vec::new(),
            1 => rng.of(&[people::owner_rights, people::principal_self])(),
            _ => cast.one(rng),
        };
        cast
    }

    /// One of the seven.
    pub fn one(&self, rng: &mut Rng) -> Sid {
        let all = [
            &self.user,
            &self.enabled,
            &self.deny_only,
            &self.disabled,
            &self.package,
            &self.capability,
            &self.stranger,
        ];
        rng.pick(&all).to_vec()
    }

    /// One of the seven, or one of those that stand for another, or one whom all confined tokens
    /// have.
    pub fn someone(&self, rng: &mut Rng) -> Sid {
        match rng.below(12) {
            0 => people::owner_rights(),
            1 => people::principal_self(),
            2 => people::all_restricted(),
            _ => self.one(rng),
        }
    }

    /// One who matches for allow in a pass, under his own name.
    pub fn member(&self, rng: &mut Rng, pass: Pass) -> Sid {
        let of = if pass == Pass::Confined {
            [&self.package, &self.capability]
        } else {
            [&self.user, &self.enabled]
        };
        rng.pick(&of).to_vec()
    }

    /// One who does not, under his own name.
    pub fn outsider(&self, rng: &mut Rng, pass: Pass) -> Sid {
        let of = if pass == Pass::Confined {
            [&self.user, &self.enabled, &self.deny_only, &self.stranger]
        } else {
            [&self.deny_only, &self.disabled, &self.package, &self.stranger]
        };
        rng.pick(&of).to_vec()
    }

    pub fn is_confined(&self) -> bool {
        self.token.flags == 1
    }
}

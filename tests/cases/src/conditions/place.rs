//! Where a condition stands on which an answer hangs, and the question around it.

use super::cast::Cast;
use crate::expressions::{self, callback};
use crate::make::{self, Descriptor, Question, Rule};
use crate::people;
use crate::rng::Rng;

/// By which identities a condition is judged, and in which list.
#[derive(Clone, Copy, Debug, PartialEq, Eq)]
pub enum Pass {
    /// The descriptor's DACL, in normal evaluation.
    Normal,
    /// The same, in confinement.
    Confined,
    Effective,
    Staged,
    AppliesTo,
}

pub const PASSES: [Pass; 5] =
    [Pass::Normal, Pass::Confined, Pass::Effective, Pass::Staged, Pass::AppliesTo];

/// A condition of an allow entry or a deny entry; or of a rule that narrows, or that flags.
#[derive(Clone, Copy, Debug, PartialEq, Eq)]
pub struct Place {
    pub pass: Pass,
    /// It is a deny entry, or a rule that flags.
    pub second: bool,
}

const ALL: u32 = 0x1000_0000;

impl Place {
    /// A question whose answer hangs on this condition: it is true or false, and so some bits are
    /// granted or not, or the flag rises or not.
    pub fn question(self, rng: &mut Rng, cast: &Cast, condition: &[u8]) -> Question {
        let bits = rng.of(&[1, 2, 3, 4, 7]);
        let rights = if rng.one_in(4) { 0x8000_0000 } else { bits };
        let everything = self.free(rng, cast);
        let owner = Descriptor::owned_by(&cast.owner);
        let (descriptor, policy) = match self.pass {
            Pass::AppliesTo => {
                let rule = self.rule(rng, cast).applies_to(condition);
                (Self::open(rng, owner, &everything), self.policy(rng, cast, rule))
            }
            pass => {
                let list = make::acl(&self.entries(rng, cast, rights, condition));
                match pass {
                    Pass::Effective => {
                        let rule = self.policy(rng, cast, Rule::of(&list));
                        (Self::open(rng, owner, &everything), rule)
                    }
                    Pass::Staged => {
                        let rule = Rule::of(&everything).staged(&list);
                        (Self::open(rng, owner, &everything), self.policy(rng, cast, rule))
                    }
                    _ => (owner.dacl(&list), Vec::new()),
                }
            }
        };
        Question {
            kind: 1 + rng.below(2) as u32,
            mask: rng.of(&[rights, rights, 0x0200_0000]),
            token: cast.token.record(),
            self_id: cast.self_id.clone(),
            descriptor: descriptor.bytes(),
            policy,
        }
    }

    /// A list that allows everything to user and package.
    fn free(self, rng: &mut Rng, cast: &Cast) -> Vec<u8> {
        let mut entries = vec![make::allow(ALL, &cast.user), make::allow(ALL, &cast.package)];
        entries.swap(0, rng.below(2));
        make::acl(&entries)
    }

    /// A descriptor that withholds nothing.
    fn open(rng: &mut Rng, owner: Descriptor, everything: &[u8]) -> Descriptor {
        if rng.one_in(2) {
            owner
        } else {
            owner.dacl(everything)
        }
    }

    /// The rule of which an applies_to decides: by itself it leaves nothing, or would by its staged
    /// list.
    fn rule(self, rng: &mut Rng, cast: &Cast) -> Rule {
        let everything = self.free(rng, cast);
        if self.second {
            Rule::of(&everything).staged(&make::acl(&[]))
        } else {
            Rule::of(&make::acl(&[]))
        }
    }

    /// A policy with this rule, and perhaps others that do nothing.
    fn policy(self, rng: &mut Rng, cast: &Cast, rule: Rule) -> Vec<u8> {
        let nothing = Rule::of(&make::acl(&[])).staged(&self.free(rng, cast));
        let silent = nothing.applies_to(&expressions::never());
        let idle = Rule::of(&self.free(rng, cast)).applies_to(&expressions::always());
        let mut rules = vec![rule];
        for other in [silent, idle] {
            if rng.one_in(4) {
                let place = rng.below(rules.len() + 1);
                rules.insert(place, other);
            }
        }
        make::policy(&rules)
    }

    /// Entries that allow these rights, or do not, by one callback entry.
    fn entries(self, rng: &mut Rng, cast: &Cast, rights: u32, condition: &[u8]) -> Vec<Vec<u8>> {
        let kind = if self.second { expressions::DENY } else { expressions::ALLOW };
        let flags = rng.of(&[0, 0, 0x10, 0xF7]);
        let who = self.named(rng, cast);
        let mut entries = vec![callback(kind, flags, rights, &who, condition)];
        let [here, there] = if self.pass == Pass::Confined {
            [&cast.package, &cast.user]
        } else {
            [&cast.user, &cast.package]
        };
        if self.second {
            entries.push(make::allow(ALL, here));
        }
        entries.push(make::allow(ALL, there));
        for _ in 0..rng.of(&[0, 0, 1, 2]) {
            let place = rng.below(entries.len() + 1);
            entries.insert(place, self.idle(rng, cast));
        }
        entries
    }

    /// Whom the entry names: one who matches in the pass, and in no other.
    fn named(self, rng: &mut Rng, cast: &Cast) -> Vec<u8> {
        if self.second && self.pass != Pass::Confined && rng.one_in(4) {
            return cast.deny_only.clone();
        }
        cast.member(rng, self.pass)
    }

    /// An entry by which nothing changes: a stranger's, or an inherit-only one.
    fn idle(self, rng: &mut Rng, cast: &Cast) -> Vec<u8> {
        let kind = rng.of(&[0, 1, expressions::ALLOW, expressions::DENY]);
        let mask = rng.of(&[ALL, u32::MAX, 7]);
        let condition = super::whole(rng, &|rng| cast.someone(rng));
        let (flags, who) = match rng.below(3) {
            0 => (0x08, cast.someone(rng)),
            1 => (0x0B, people::owner_rights()),
            _ => (rng.of(&[0, 0x10]), cast.stranger.clone()),
        };
        if kind < 2 {
            make::entry(kind, flags, mask, &who)
        } else {
            callback(kind, flags, mask, &who, &condition)
        }
    }
}

//! Whom a row's token and lists name.

use pirasteh_cases::make::{sid, Token};

pub type Sid = Vec<u8>;

/// The identities of a token, the user first, and strangers for its lists.
pub struct People {
    pub identities: Vec<Sid>,
    pub strangers: Vec<Sid>,
}

impl People {
    /// So many of each, by their numbers.
    pub fn numbered(
        identities: usize,
        strangers: usize,
        identity: impl Fn(u32) -> Sid,
        stranger: impl Fn(u32) -> Sid,
    ) -> People {
        People {
            identities: (0..identities as u32).map(identity).collect(),
            strangers: (0..strangers as u32).map(stranger).collect(),
        }
    }

    /// All have one word and differ in it alone, so that a comparison has to look at their last
    /// bytes, and 3,000 entries of 20 bytes fit a descriptor.
    pub fn of_one_word(identities: usize, strangers: usize) -> People {
        People::numbered(
            identities,
            strangers,
            |i| sid(5, &[1_000_000 + i]),
            |i| sid(5, &[2_000_000 + i]),
        )
    }

    pub fn user(&self) -> &Sid {
        &self.identities[0]
    }

    /// The record of the user with the others as enabled groups.
    pub fn record(&self) -> Vec<u8> {
        self.token().record()
    }

    /// The same, confined to a package.
    pub fn confined_record(&self, package: &[u8]) -> Vec<u8> {
        self.token().confined(package, &[&sid(15, &[2, 2])]).record()
    }

    fn token(&self) -> Token {
        let user = Token::of(self.user());
        self.identities[1..].iter().fold(user, |token, group| token.group(group, 0x7))
    }
}

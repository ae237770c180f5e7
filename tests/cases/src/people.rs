//! The identities that random cases are about. Few, so that matches are frequent, and chosen so
//! that a comparison that is wrong in some way takes one for another.

use crate::make::sid;
use crate::rng::Rng;

/// Stand for the owner and for the self identity; no accepted token has them.
pub fn owner_rights() -> Vec<u8> {
    sid(3, &[4])
}

pub fn principal_self() -> Vec<u8> {
    sid(5, &[10])
}

/// The capability that every confined token needs.
pub fn all_restricted() -> Vec<u8> {
    sid(15, &[2, 2])
}

/// Groups of look-alikes.
fn families() -> Vec<Vec<Vec<u8>>> {
    let long = |first: u32, last: u32| {
        let mut words = [0; 15];
        words[0] = first;
        words[14] = last;
        sid(5, &words)
    };
    vec![
        // Zero words, and words at the end.
        vec![
            sid(5, &[0, 7]),
            sid(5, &[7]),
            sid(5, &[7, 0]),
            sid(5, &[0, 7, 0]),
            sid(5, &[0, 0, 7]),
            sid(5, &[7, 7]),
            sid(5, &[0]),
            sid(5, &[]),
        ],
        // Prefixes.
        vec![
            sid(5, &[32]),
            sid(5, &[32, 544]),
            sid(5, &[32, 545]),
            sid(5, &[32, 544, 1]),
            sid(5, &[544]),
            sid(5, &[21, 1, 2, 3, 500]),
            sid(5, &[21, 1, 2, 3, 501]),
            sid(5, &[21, 1, 2, 3]),
        ],
        // Authorities and words with their bytes in another place.
        vec![
            sid(5, &[7]),
            sid(5 << 40, &[7]),
            sid(5 << 32, &[7]),
            sid(0x0105, &[7]),
            sid(6, &[7]),
            sid(5, &[7 << 24]),
            sid(5, &[7 << 8]),
            sid(5, &[0x0107]),
        ],
        // Nearly the two virtual identities.
        vec![
            sid(3, &[4, 0]),
            sid(3, &[0, 4]),
            sid(3, &[]),
            sid(3, &[5]),
            sid(4, &[3]),
            sid(3, &[4 << 24]),
            sid(5, &[10, 0]),
            sid(5, &[0, 10]),
            sid(10, &[5]),
            sid(3 << 40, &[4]),
            sid(5, &[4]),
            sid(3, &[10]),
        ],
        // Packages and capabilities.
        vec![
            sid(15, &[2, 1]),
            sid(15, &[2, 2]),
            sid(15, &[2]),
            sid(15, &[2, 2, 0]),
            sid(15, &[2, 9, 1]),
            sid(15, &[3, 1]),
            sid(15, &[3, 2]),
        ],
        // The longest and the largest.
        vec![
            long(0, 0),
            long(0, 1),
            long(1, 0),
            long(1, 1),
            sid(0xFFFF_FFFF_FFFF, &[u32::MAX; 15]),
            sid(0xFFFF_FFFF_FFFF, &[u32::MAX; 14]),
            sid(0, &[0; 15]),
            sid(0, &[]),
            sid(0, &[0]),
            sid(1, &[0]),
        ],
    ]
}

/// The cast of one case.
pub struct People {
    cast: Vec<Vec<u8>>,
    /// Who owns the object and asks, in a case about an owner's rights.
    pub asking_owner: Option<Vec<u8>>,
}

impl People {
    /// Three to seven identities, mostly of one family.
    pub fn new(rng: &mut Rng) -> People {
        thread_local! {
            static FAMILIES: Vec<Vec<Vec<u8>>> = families();
        }
        FAMILIES.with(|families| {
            let home = rng.pick(families);
            let size = 3 + rng.below(5);
            let mut cast = Vec::with_capacity(size);
            for _ in 0..size {
                let family = if rng.one_in(4) { rng.pick(families) } else { home };
                cast.push(rng.pick(family).clone());
            }
            People { cast, asking_owner: None }
        })
    }

    /// Someone of the cast.
    pub fn one(&self, rng: &mut Rng) -> Vec<u8> {
        rng.pick(&self.cast).clone()
    }

    /// Someone of the cast, or one of the two who stand for another.
    pub fn one_or_virtual(&self, rng: &mut Rng) -> Vec<u8> {
        match rng.below(8) {
            0 => owner_rights(),
            1 => principal_self(),
            _ => self.one(rng),
        }
    }

    /// Whether the case is about an owner's rights.
    pub fn are_about_owner(&self) -> bool {
        self.asking_owner.is_some()
    }

    /// Whom an entry names: every other time S-1-3-4, in a case about an owner's rights.
    pub fn named(&self, rng: &mut Rng) -> Vec<u8> {
        if self.are_about_owner() && rng.one_in(2) {
            owner_rights()
        } else {
            self.one_or_virtual(rng)
        }
    }
}

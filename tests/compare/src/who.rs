//! The identities of an accepted token, as its listing has them.

use pirasteh_cases::make::Question;
use pirasteh_reference as reference;

/// S-1-3-4 and S-1-5-10.
pub const OWNER_RIGHTS: [u8; 12] = [1, 1, 0, 0, 0, 0, 0, 3, 4, 0, 0, 0];
pub const PRINCIPAL_SELF: [u8; 12] = [1, 1, 0, 0, 0, 0, 0, 5, 10, 0, 0, 0];

/// One identity, and its attribute word if it is a group.
pub struct One {
    pub sid: Vec<u8>,
    pub attributes: Option<u32>,
}

impl One {
    pub fn allows(&self) -> bool {
        self.attributes.is_none_or(|word| word & 0x14 == 0x4)
    }

    pub fn denies(&self) -> bool {
        self.attributes.is_none_or(|word| word & 0x14 != 0)
    }
}

/// The user and the groups, and the package and its capabilities.
pub struct Who {
    pub normal: Vec<One>,
    pub confined: Vec<One>,
}

impl Who {
    /// Of a question whose token is accepted.
    pub fn of(q: &Question) -> Option<Who> {
        let listing = reference::list(&q.token).ok()?;
        let mut rest = &listing[12..];
        let mut normal = vec![One { sid: sid(&mut rest), attributes: None }];
        for _ in 0..word(&mut rest) {
            let sid = sid(&mut rest);
            normal.push(One { sid, attributes: Some(word(&mut rest)) });
        }
        let mut confined = Vec::new();
        if listing[0] & 1 != 0 {
            confined.push(One { sid: sid(&mut rest), attributes: None });
            for _ in 0..word(&mut rest) {
                confined.push(One { sid: sid(&mut rest), attributes: None });
            }
        }
        Some(Who { normal, confined })
    }
}

fn taken<'a>(rest: &mut &'a [u8], length: usize) -> &'a [u8] {
    let (here, behind) = rest.split_at(length);
    *rest = behind;
    here
}

fn sid(rest: &mut &[u8]) -> Vec<u8> {
    let length = 8 + 4 * usize::from(rest[1]);
    taken(rest, length).to_vec()
}

fn word(rest: &mut &[u8]) -> u32 {
    let four = taken(rest, 4);
    u32::from_le_bytes([four[0], four[1], four[2], four[3]])
}

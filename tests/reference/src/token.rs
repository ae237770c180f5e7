//! The token as both of its forms hold it, and the rules that it keeps.

use crate::sid;

pub const MOST_GROUPS: u64 = 256;
pub const MOST_CAPABILITIES: u64 = 64;

pub const CONFINED: u32 = 1;
pub const EXEMPT: u32 = 2;
pub const HIGHEST_FLAGS: u32 = 3;

pub const SECURITY_PRIVILEGE: u64 = 1 << 8;
pub const TAKE_OWNERSHIP_PRIVILEGE: u64 = 1 << 9;

/// Identities are kept in MS-DTYP bytes.
pub struct Token {
    pub flags: u32,
    pub privileges: u64,
    pub user: Vec<u8>,
    pub groups: Vec<(Vec<u8>, u32)>,
    /// Present exactly if the flags say confined.
    pub confinement: Option<Confinement>,
}

pub struct Confinement {
    pub identity: Vec<u8>,
    pub capabilities: Vec<Vec<u8>>,
}

impl Token {
    /// Confined, and not exempt from it.
    pub fn in_force(&self) -> Option<&Confinement> {
        self.confinement.as_ref().filter(|_| self.flags & EXEMPT == 0)
    }

    /// Exempt needs confined; the virtual identities stand nowhere; a confined token has
    /// S-1-15-2-2 among its capabilities, exempt or not.
    pub fn keeps_the_rules(&self) -> bool {
        if self.flags & EXEMPT != 0 && self.flags & CONFINED == 0 {
            return false;
        }
        let mut all = vec![&self.user];
        all.extend(self.groups.iter().map(|(group, _)| group));
        if let Some(confinement) = &self.confinement {
            all.push(&confinement.identity);
            all.extend(&confinement.capabilities);
            if !confinement.capabilities.iter().any(|c| c == &sid::ALL_RESTRICTED) {
                return false;
            }
        }
        !all.iter().any(|identity| sid::is_virtual(identity))
    }
}

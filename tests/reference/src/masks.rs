//! Kinds of object, their rights, and the mapping of generic bits.

pub const GENERIC_READ: u32 = 0x8000_0000;
pub const GENERIC_WRITE: u32 = 0x4000_0000;
pub const GENERIC_EXECUTE: u32 = 0x2000_0000;
pub const GENERIC_ALL: u32 = 0x1000_0000;
pub const MAXIMUM: u32 = 0x0200_0000;
pub const SYSTEM_SECURITY: u32 = 0x0100_0000;

/// Rights that owners and privileges add.
pub const READ_CONTROL: u32 = 0x0002_0000;
pub const WRITE_DAC: u32 = 0x0004_0000;
pub const WRITE_OWNER: u32 = 0x0008_0000;

/// What each generic bit means for one kind of object.
#[derive(Clone, Copy)]
pub struct Rights {
    read: u32,
    write: u32,
    execute: u32,
    pub all: u32,
}

const FILE: Rights =
    Rights { read: 0x12_0089, write: 0x12_0116, execute: 0x12_00A0, all: 0x1F_01FF };
const KEY: Rights = Rights { read: 0x2_0019, write: 0x2_0006, execute: 0x2_0019, all: 0xF_003F };

pub fn rights_of(kind: u32) -> Option<Rights> {
    match kind {
        1 => Some(FILE),
        2 => Some(KEY),
        _ => None,
    }
}

impl Rights {
    /// Generic bits are replaced by what they mean; other bits stay.
    pub fn map(&self, mask: u32) -> u32 {
        let mut mapped = mask & !(GENERIC_READ | GENERIC_WRITE | GENERIC_EXECUTE | GENERIC_ALL);
        for (bit, meaning) in [
            (GENERIC_READ, self.read),
            (GENERIC_WRITE, self.write),
            (GENERIC_EXECUTE, self.execute),
            (GENERIC_ALL, self.all),
        ] {
            if mask & bit != 0 {
                mapped |= meaning;
            }
        }
        mapped
    }

    /// A desired mask without any bit that means nothing for this kind.
    pub fn may_be_asked(&self, mask: u32) -> bool {
        let generic = GENERIC_READ | GENERIC_WRITE | GENERIC_EXECUTE | GENERIC_ALL;
        mask & !(generic | SYSTEM_SECURITY | MAXIMUM | self.all) == 0
    }

    /// An entry's mask: mapped, then cut to the kind's all bits.
    pub fn of_entry(&self, mask: u32) -> u32 {
        self.map(mask) & self.all
    }

    /// The bits that a question names.
    pub fn explicit(&self, mask: u32) -> u32 {
        self.map(mask) & !MAXIMUM
    }

    /// The bits that a question asks for, named or by asking for the maximum.
    pub fn asked(&self, mask: u32) -> u32 {
        let maximum = if mask & MAXIMUM != 0 { self.all } else { 0 };
        self.explicit(mask) | maximum
    }
}

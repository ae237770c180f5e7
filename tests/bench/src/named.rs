//! Lists, by whom their entries name.

use crate::people::{People, Sid};
use pirasteh_cases::make::{acl, long_entry, sid};

/// Whom the entries of a list name, and how.
#[derive(Clone, Copy)]
pub enum Named {
    /// Strangers.
    Strangers,
    /// The same, but the first entry names the user, and allows everything.
    First,
    /// The same, but the last entry does.
    Last,
    /// Strangers, each with this many spare bytes behind the SID.
    Long(usize),
    /// All name S-1-3-4, with these flags. Where they are inherit-only the user owns the object,
    /// and keeps its two rights when all have been looked at. Others would decide all by the
    /// first, so there somebody else owns it.
    Owner(u8),
}

impl Named {
    /// What the third column of a row says.
    pub fn column(self) -> String {
        match self {
            Named::Strangers => "none".into(),
            Named::First => "first".into(),
            Named::Last => "last".into(),
            Named::Long(spare) => spare.to_string(),
            Named::Owner(flags) => format!("{flags:#04x}"),
        }
    }

    pub fn owner(self, people: &People) -> Sid {
        match self {
            Named::Owner(flags) if flags & 0x08 != 0 => people.user().clone(),
            _ => sid(5, &[18]),
        }
    }

    /// A list of so many entries. Every fourth entry for a stranger denies.
    pub fn list(self, people: &People, entries: usize) -> Vec<u8> {
        let one = |i| self.entry(people, i, i + 1 == entries);
        acl(&(0..entries).map(one).collect::<Vec<_>>())
    }

    fn entry(self, people: &People, i: usize, last: bool) -> Vec<u8> {
        let kind = u8::from(i % 4 == 3);
        match self {
            Named::First if i == 0 => full_entry(0, 0, people.user(), 0),
            Named::Last if last => full_entry(0, 0, people.user(), 0),
            Named::Owner(flags) => full_entry(kind, flags, &sid(3, &[4]), 0),
            Named::Long(spare) => full_entry(kind, 0, &people.strangers[i], spare),
            _ => full_entry(kind, 0, &people.strangers[i], 0),
        }
    }
}

/// An entry for everything.
pub fn full_entry(kind: u8, flags: u8, who: &[u8], spare: usize) -> Vec<u8> {
    long_entry(kind, flags, 0x1000_0000, who, &vec![0; spare])
}

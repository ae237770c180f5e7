//! The rows about conditions.

use crate::checks;
use crate::inputs::Input;
use crate::people::{People, Sid};
use crate::sheet::Sheet;
use pirasteh_cases::expressions::*;
use pirasteh_cases::make::{acl, allow, Rule};

/// Everything.
const ALL: u32 = 0x1000_0000;
/// Entries of a list of short conditions.
const ENTRIES: usize = 500;
/// The longest condition of an entry, beside which a list has another entry; and the longest
/// applies_to.
const LONGEST_LISTED: usize = 65_400;
const LONGEST_SECTION: usize = 65_536;

pub fn rows(sheet: &mut Sheet) {
    checks::heading("conditions");
    for short in [Short::Strangers, Short::True, Short::False] {
        for identities in [1, 21, 64] {
            checks::rows(sheet, &short.input(identities), &[1]);
        }
    }
    for identities in [21, 257] {
        for length in [LONGEST_LISTED / 2, LONGEST_LISTED] {
            checks::rows(sheet, &listed(length & !3, identities), &[1]);
        }
        for length in [LONGEST_SECTION / 2, LONGEST_SECTION] {
            checks::rows(sheet, &section(length, identities), &[1]);
        }
    }
}

/// Lists of callback entries with short conditions.
#[derive(Clone, Copy)]
enum Short {
    /// They name strangers, and their conditions are true.
    Strangers,
    /// They name identities of the token. The first one decides all.
    True,
    /// The same with conditions that are false, so that none decides.
    False,
}

impl Short {
    fn name(self) -> &'static str {
        match self {
            Short::Strangers => "of strangers",
            Short::True => "of members, true",
            Short::False => "of members, false",
        }
    }

    /// Every fourth entry denies.
    fn input(self, identities: usize) -> Input {
        let people = People::of_one_word(identities, ENTRIES);
        let of = |i: usize, all: &[Sid]| all[i % all.len()].clone();
        let entry = |i: usize| {
            let member = of(i + 1, &people.identities);
            let (who, named) = match self {
                Short::Strangers => (of(i, &people.strangers), member),
                Short::True => (of(i, &people.identities), member),
                Short::False => (of(i, &people.identities), of(i, &people.strangers)),
            };
            let condition = asks(MEMBER_OF, &literal(&named));
            callback(if i % 4 == 3 { DENY } else { ALLOW }, 0, ALL, &who, &condition)
        };
        let list: Vec<Vec<u8>> = (0..ENTRIES).map(entry).collect();
        Input::of(&people, self.name().into(), &list, &[])
    }
}

/// A condition of so many bytes: whether one of very many strangers is a member.
fn long(people: &People, length: usize) -> Vec<u8> {
    let mut condition = asks(MEMBER_OF_ANY, &composite(&people.strangers));
    assert!(condition.len() <= length && condition.len() + 17 > length);
    condition.resize(length, 0);
    condition
}

/// As many strangers as a condition of this length has room for.
fn people(length: usize, identities: usize) -> People {
    People::of_one_word(identities, (length - 4 - 5 - 1) / 17)
}

fn listed(length: usize, identities: usize) -> Input {
    let people = people(length, identities);
    let entry = callback_allow(ALL, people.user(), &long(&people, length));
    Input::of(&people, format!("{length} bytes"), &[entry, allow(ALL, people.user())], &[])
}

fn section(length: usize, identities: usize) -> Input {
    let people = people(length, identities);
    let rule = Rule::of(&acl(&[])).applies_to(&long(&people, length));
    let third = format!("{length} bytes, applies_to");
    Input::of(&people, third, &[allow(ALL, people.user())], &[rule])
}

#[cfg(test)]
mod tests {
    use super::*;
    use crate::ask::{by_plain, reference};

    #[test]
    fn all_are_answered() {
        for identities in [1, 21] {
            for (short, granted) in
                [(Short::Strangers, 0), (Short::True, 0x12_0089), (Short::False, 0)]
            {
                let said = by_plain(&short.input(identities), 0x8000_0000);
                assert_eq!(said.map(|answer| answer.granted), Ok(granted), "{}", short.name());
            }
            for input in [listed(LONGEST_LISTED, identities), section(LONGEST_SECTION, identities)]
            {
                let said = by_plain(&input, 0x8000_0000);
                assert_eq!(said.map(|answer| answer.granted), Ok(0x12_0089), "{}", input.third);
            }
        }
    }

    #[test]
    fn no_section_is_longer() {
        let too_long = section(LONGEST_SECTION + 1, 1);
        assert_eq!(by_plain(&too_long, 1), Err(9));
        assert_eq!(reference(&too_long, 1), Err(9));
        assert_eq!(reference(&section(LONGEST_SECTION, 1), 1), by_plain(&section(1_000, 1), 1));
    }
}

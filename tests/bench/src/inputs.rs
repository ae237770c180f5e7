//! What is timed: the bytes of a question, and what its row says of them.

use crate::hard::Shared;
use crate::large;
use crate::named::Named;
use crate::people::People;
use pirasteh_cases::make::{acl, policy, Descriptor, Rule};

pub struct Input {
    /// Entries of the descriptor's list; of a large policy those of its lists.
    pub entries: usize,
    pub identities: usize,
    /// What the third column of its row says.
    pub third: String,
    pub rules: usize,
    pub masks: Vec<u32>,
    pub token: Vec<u8>,
    pub self_id: Vec<u8>,
    pub descriptor: Vec<u8>,
    pub policy: Vec<u8>,
}

/// Entries of each rule's effective and staged list.
const RULE_ENTRIES: usize = 8;
/// Entries of the descriptor's list beside a large policy; the last names the user, so that the
/// rules have something to take away.
const FEW_ENTRIES: usize = 8;

impl Input {
    /// People of one word, and rules whose lists name them in the same way.
    pub fn new(entries: usize, identities: usize, named: Named, rules: usize) -> Input {
        let people = People::of_one_word(identities, entries.max(RULE_ENTRIES));
        let list = || named.list(&people, RULE_ENTRIES);
        let all: Vec<Rule> = (0..rules).map(|_| Rule::of(&list()).staged(&list())).collect();
        Input { rules, policy: whole(&all), ..Input::without_policy(&people, entries, named) }
    }

    /// A list of strangers who share something with the identities.
    pub fn hard(shared: Shared, entries: usize, identities: usize) -> Input {
        let people = shared.people(identities, entries);
        let input = Input::without_policy(&people, entries, Named::Strangers);
        Input { third: shared.name(), ..input }
    }

    /// The same in the effective lists of a policy as large as one may be.
    pub fn large_policy(shared: Shared, identities: usize) -> Input {
        let entry = 8 + shared.people(1, 1).user().len();
        let lengths = large::lists(entry);
        let entries = lengths.iter().sum();
        let people = shared.people(identities, entries);
        let input = Input::without_policy(&people, FEW_ENTRIES, Named::Last);
        let rules = large::rules(&people.strangers, &lengths);
        Input { entries, third: shared.name(), rules: rules.len(), policy: policy(&rules), ..input }
    }

    /// These lists and rules, for people of whom somebody else owns the object.
    pub fn of(people: &People, third: String, list: &[Vec<u8>], rules: &[Rule]) -> Input {
        let owner = Named::Strangers.owner(people);
        Input {
            entries: list.len(),
            third,
            rules: rules.len(),
            descriptor: Descriptor::owned_by(&owner).dacl(&acl(list)).bytes(),
            policy: whole(rules),
            ..Input::without_policy(people, 0, Named::Strangers)
        }
    }

    /// How it is called in one line.
    pub fn name(&self, calls: usize) -> String {
        let Input { entries, identities, third, rules, .. } = self;
        format!("entries {entries}, identities {identities}, {third}, rules {rules}, calls {calls}")
    }

    fn without_policy(people: &People, entries: usize, named: Named) -> Input {
        let dacl = named.list(people, entries);
        Input {
            entries,
            identities: people.identities.len(),
            third: named.column(),
            rules: 0,
            masks: masks(),
            token: people.record(),
            self_id: Vec::new(),
            descriptor: Descriptor::owned_by(&named.owner(people)).dacl(&dacl).bytes(),
            policy: Vec::new(),
        }
    }
}

/// No rules are no policy.
fn whole(rules: &[Rule]) -> Vec<u8> {
    if rules.is_empty() {
        Vec::new()
    } else {
        policy(rules)
    }
}

/// Generic read, then every right of a file by itself and with its neighbour.
fn masks() -> Vec<u32> {
    let mut masks = vec![0x8000_0000];
    for bit in [0, 1, 2, 3, 4, 5, 6, 7, 8, 16, 17, 18, 19] {
        masks.extend([1 << bit, 0x2_0000 | 1 << bit, 0x8_0001 | 1 << bit]);
    }
    assert_eq!(masks.len(), 40);
    masks
}

#[cfg(test)]
mod tests {
    use super::Input;
    use crate::hard::{ALL, IN_POLICIES, LONG};
    use crate::large;

    #[test]
    fn hard_lists_fit_a_descriptor() {
        for shared in ALL.into_iter().chain(LONG) {
            assert!(Input::hard(shared, 500, 1).descriptor.len() <= 65_535, "{shared:?}");
        }
    }

    #[test]
    fn large_policies_have_no_room_for_another_entry() {
        for shared in IN_POLICIES {
            let entry = 8 + shared.people(1, 1).user().len();
            let length = Input::large_policy(shared, 1).policy.len();
            assert!(length <= large::POLICY && length + entry > large::POLICY, "{shared:?}");
        }
    }
}

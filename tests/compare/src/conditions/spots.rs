//! The conditions of a question, in the order in which they are read, and the same question with
//! another in the place of one.

use crate::children::{self, behind_sid, is_inherit_only, sid_of};
use crate::lists::{self, entries, is_callback, Whose};
use pirasteh_cases::conditions::faults;
use pirasteh_cases::expressions::padded;
use pirasteh_cases::make::Question;
use pirasteh_reference::Verdict;

/// One condition.
pub struct Spot<'a> {
    pub place: faults::Spot,
    /// The number of its rule, if it stands in one.
    pub rule: usize,
    /// Its list and entry, if it stands in one.
    entry: Option<(usize, usize)>,
    /// The bytes of that entry.
    pub whole: &'a [u8],
    pub condition: &'a [u8],
}

/// All conditions of a question, as far as they can be found. An empty applies_to is none.
pub fn of(q: &Question) -> Vec<Spot<'_>> {
    let mut all = Vec::new();
    let dacls = lists::of(q);
    let (own, others): (Vec<_>, Vec<_>) =
        dacls.iter().partition(|list| list.whose == Whose::Descriptor);
    for list in own {
        add(&mut all, list, 0);
    }
    for (rule, sections) in lists::sections(&q.policy).unwrap_or_default().chunks(5).enumerate() {
        let condition = &q.policy[sections[0].clone()];
        if !condition.is_empty() {
            let place = faults::Spot::AppliesTo;
            all.push(Spot { place, rule, entry: None, whole: &[], condition });
        }
        let within = sections[1].start..sections[4].start;
        for list in others.iter().filter(|list| within.contains(&list.at)) {
            add(&mut all, list, rule);
        }
    }
    all
}

/// Adds the conditions of a list.
fn add<'a>(all: &mut Vec<Spot<'a>>, list: &lists::List<'a>, rule: usize) {
    let place = match list.whose {
        Whose::Descriptor => faults::Spot::Descriptor,
        Whose::Effective => faults::Spot::Effective,
        Whose::Staged => faults::Spot::Staged,
    };
    for (number, entry) in entries(list.bytes).unwrap_or_default().into_iter().enumerate() {
        let whole = &list.bytes[entry];
        if is_callback(whole) {
            let entry = Some((list.at, number));
            all.push(Spot { place, rule, entry, whole, condition: behind_sid(whole) });
        }
    }
}

impl Spot<'_> {
    pub fn sid(&self) -> &[u8] {
        sid_of(self.whole)
    }

    pub fn is_deny(&self) -> bool {
        matches!(self.whole, [10, ..])
    }

    pub fn is_inherit_only(&self) -> bool {
        self.entry.is_some() && is_inherit_only(self.whole)
    }

    /// The question with this condition in place of its own.
    pub fn with(&self, q: &Question, condition: &[u8]) -> Option<Question> {
        if self.entry.is_none() {
            return lists::with_applies_to(q, self.rule, condition);
        }
        self.with_entry(q, &lists::with_body(self.whole, self.sid(), &padded(condition.to_vec())))
    }

    /// The question with this entry in place of the one that has the condition.
    pub fn with_entry(&self, q: &Question, entry: &[u8]) -> Option<Question> {
        let (at, number) = self.entry?;
        let in_descriptor = self.place == faults::Spot::Descriptor;
        lists::rewritten(q, |list| {
            if list.at != at || in_descriptor != (list.whose == Whose::Descriptor) {
                return None;
            }
            let all = entries(list.bytes)?;
            let mut new: Vec<Vec<u8>> = all.into_iter().map(|at| list.bytes[at].to_vec()).collect();
            new[number] = entry.to_vec();
            lists::with_entries(list.bytes, &new)
        })
    }

    /// What the reference says with this condition in place of its own.
    pub fn says(&self, q: &Question, condition: &[u8]) -> Option<Result<Verdict, u32>> {
        if self.condition == condition {
            return Some(children::ask(q));
        }
        self.with(q, condition).map(|other| children::ask(&other))
    }
}

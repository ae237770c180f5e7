//! Which conditions of a descriptor are judged, and which of two refusals is given.

use super::{broken, in_applies_to, in_entry, other, reading, whole, READ};
use crate::case::*;
use pirasteh_cases::expressions::*;
use pirasteh_cases::make::{self, acl, allow, bare_entry, sid, Descriptor, Question};
use std::slice::from_ref;

pub fn cases() -> Vec<Case> {
    let mut all = entries();
    all.extend(in_descriptors());
    all.extend(order_in_descriptors());
    all.extend(lengths());
    all
}

fn on_entries(entries: &[Vec<u8>]) -> Question {
    c1().descriptor(Descriptor::owned_by(&w()).dacl(&acl(entries)).bytes())
}

/// The entry around a condition: 101's sizes.
fn entries() -> Vec<Case> {
    let good = || callback_allow(READ, &u(), &whole());
    // An entry whose condition lacks its operator, and the entry behind it has that type.
    let lacking =
        callback_allow(1, &u(), &expression(&[&literal(&sid(5, &[7]))[..], &[MEMBER_OF, NOT]]));
    let lacking = {
        let size = lacking.len() as u16 - 4;
        patched(cut(lacking, usize::from(size)), 2, &size.to_le_bytes())
    };
    vec![
        ask("an entry of type 9", on_entries(&[good()]), yes(0x0012_0089)),
        ask(
            "an entry of type 10",
            on_entries(&[callback_deny(READ, &u(), &whole()), reading()]),
            no(0),
        ),
        ask(
            "8: an entry of type 0x10, sixteen",
            on_entries(&[callback(0x10, 0, READ, &u(), &whole()), reading()]),
            refused(8),
        ),
        ask(
            "8: an entry of type 11, a callback allow for objects",
            on_entries(&[callback(11, 0, READ, &u(), &whole()), reading()]),
            refused(8),
        ),
        ask(
            "6: an entry of type 9 that is a header alone",
            on_entries(&[bare_entry(9, 0, &[]), reading()]),
            refused(6),
        ),
        ask(
            "6: an entry of type 10 without a SID",
            on_entries(&[bare_entry(10, 0, &[0; 4]), reading()]),
            refused(6),
        ),
        ask(
            "6: an entry of type 9 that ends with its SID",
            on_entries(&[make::entry(9, 0, READ, &u()), reading()]),
            refused(6),
        ),
        ask(
            "6: an entry of type 10 that ends with its SID",
            on_entries(&[make::entry(10, 0, READ, &u()), reading()]),
            refused(6),
        ),
        ask(
            "6: an entry of type 9 whose SID has revision 2",
            on_entries(&[patched(good(), 8, &[2])]),
            refused(6),
        ),
        ask(
            "6: an entry of type 9 whose SID goes on behind it",
            on_entries(&[saying(callback_allow(1, &sid(5, &[]), &broken()), 15), reading()]),
            refused(6),
        ),
        ask(
            "6: an entry of type 9 whose SID says one word more: the prefix is a word of it",
            on_entries(&[saying(good(), 3)]),
            refused(6),
        ),
        ask(
            "6: an entry of type 9 whose SID says one word less: a word stands before the prefix",
            on_entries(&[saying(good(), 1)]),
            refused(6),
        ),
        ask(
            "6: an entry of type 9 whose size is no multiple of 4",
            on_entries(&[{
                let entry = make::long_entry(9, 0, READ, &u(), &whole());
                patched(entry.clone(), 2, &(entry.len() as u16).to_le_bytes())
            }]),
            refused(6),
        ),
        ask(
            "6: a condition that goes on into the entry behind it",
            on_entries(&[lacking, callback(MEMBER_OF, 0, 1, &u(), &whole())]),
            refused(6),
        ),
    ]
}

fn in_descriptors() -> Vec<Case> {
    let sacl = |entries: &[Vec<u8>]| {
        let list = acl(&[reading()]);
        c1().descriptor(Descriptor::owned_by(&w()).sacl(&acl(entries)).dacl(&list).bytes())
    };
    let beside = |entry: Vec<u8>| on_entries(&[reading(), entry]);
    vec![
        ask(
            "6: a broken condition in a deny entry",
            beside(callback_deny(1, &u(), &broken())),
            refused(6),
        ),
        ask(
            "8: another token in a deny entry",
            beside(callback_deny(1, &u(), &other())),
            refused(8),
        ),
        ask(
            "6: a broken condition in an inherit-only entry",
            beside(callback(ALLOW, 0x08, 1, &u(), &broken())),
            refused(6),
        ),
        ask(
            "8: another token in an inherit-only entry",
            beside(callback(ALLOW, 0x08, 1, &u(), &other())),
            refused(8),
        ),
        ask(
            "6: a broken condition in an entry with mask 0",
            beside(callback_allow(0, &u(), &broken())),
            refused(6),
        ),
        ask(
            "8: another token in an entry with mask 0",
            beside(callback_allow(0, &u(), &other())),
            refused(8),
        ),
        ask(
            "6: a broken condition, where nothing is asked",
            beside(callback_allow(1, &w(), &broken())).mask(0),
            refused(6),
        ),
        ask(
            "6: a broken condition, though the DACL grants all before it",
            on_entries(&[allow(0x1000_0000, &u()), callback_deny(1, &u(), &broken())]),
            refused(6),
        ),
        ask(
            "6: a broken condition behind a false one of the same list",
            on_entries(&[callback_allow(1, &u(), &never()), callback_allow(1, &u(), &broken())]),
            refused(6),
        ),
        ask(
            "the DACL bit is clear: a broken condition is not judged",
            {
                let list = acl(&[callback_allow(1, &u(), &broken())]);
                let bytes = Descriptor::owned_by(&w()).dacl(&list).bytes();
                c1().descriptor(patched(bytes, 2, &[0]))
            },
            yes(0x0012_0089),
        ),
        ask(
            "in a SACL a broken condition is not judged",
            sacl(&[callback_allow(1, &u(), &broken())]),
            yes(0x0012_0089),
        ),
        ask(
            "in a SACL another token is not judged",
            sacl(&[callback_deny(1, &u(), &other())]),
            yes(0x0012_0089),
        ),
        ask(
            "in a SACL callback entries may be headers alone",
            sacl(&[bare_entry(9, 0, &[]), bare_entry(10, 0, &[])]),
            yes(0x0012_0089),
        ),
    ]
}

/// One broken expression anywhere gives 6, though an earlier one has another token.
fn order_in_descriptors() -> Vec<Case> {
    let [bad, odd] = [callback_allow(1, &g(), &broken()), callback_allow(1, &g(), &other())];
    let nobody = |entries: &[Vec<u8>]| {
        let parts = Descriptor { dacl: Some(acl(entries)), ..Descriptor::default() };
        c1().descriptor(parts.bytes())
    };
    vec![
        ask(
            "6 before 8: another token, and a broken condition behind it",
            on_entries(&[odd.clone(), bad.clone()]),
            refused(6),
        ),
        ask(
            "6 before 8: a broken condition, and another token behind it",
            on_entries(&[bad.clone(), odd.clone()]),
            refused(6),
        ),
        ask(
            "6 before 8: an entry of type 5, and a broken condition behind it",
            on_entries(&[bare_entry(5, 0, &[]), bad.clone()]),
            refused(6),
        ),
        ask(
            "6 before 8: another token, and an entry whose SID goes on behind it",
            on_entries(&[odd.clone(), saying(allow(1, &w()), 2), reading()]),
            refused(6),
        ),
        ask(
            "6 before 8: another token, and a count past the list",
            {
                let list = patched(acl(from_ref(&odd)), 4, &[2]);
                c1().descriptor(Descriptor::owned_by(&w()).dacl(&list).bytes())
            },
            refused(6),
        ),
        ask("6 before 7: no owner, and a broken condition", nobody(from_ref(&bad)), refused(6)),
        ask("7 before 8: no owner, and another token", nobody(from_ref(&odd)), refused(7)),
        ask(
            "8 before 9: another token, and a broken applies_to",
            on_entries(&[odd]).policy(in_applies_to(&broken()).policy),
            refused(8),
        ),
        ask(
            "6 before 9: a broken condition, and a broken applies_to",
            on_entries(&[bad]).policy(in_applies_to(&broken()).policy),
            refused(6),
        ),
    ]
}

/// A fault behind very many SIDs, at the end of a condition as long as c1's file has room for.
fn lengths() -> Vec<Case> {
    let room = 65_536 - 20 - 40 - 24 - 24;
    let of = |count: u32| {
        let strangers: Vec<Vec<u8>> = (0..count).map(|i| sid(5, &[1_000_000 + i])).collect();
        asks(MEMBER_OF_ANY, &composite(&strangers))
    };
    let mut last = of(3_000);
    last.resize(room - 1, 0);
    last.push(1);
    vec![
        ask(
            "6: 3,000 SIDs, zeros as far as c1's file has room, and a one at the end",
            in_entry(&last),
            refused(6),
        ),
        ask(
            "8: 300 SIDs, and another token behind them",
            in_entry(&followed_by(of(300), &[0xF8])),
            refused(8),
        ),
    ]
}

#[cfg(test)]
mod tests {
    use super::*;

    #[test]
    fn the_longest_condition_fills_a_question_file() {
        let Body::Ask { file, .. } = &lengths()[0].body else { panic!("no question") };
        assert_eq!(file.len(), 65_536);
    }
}

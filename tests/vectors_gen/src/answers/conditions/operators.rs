//! What each operator says, how operands stand on the stack, and padding. An entry allows 1 to U if
//! its condition is true. U and G are members, W is none.

use super::{asker, granted};
use crate::case::*;
use pirasteh_cases::expressions::*;
use pirasteh_cases::make::sid;

pub fn cases() -> Vec<Case> {
    let mut all = members();
    all.extend(logic());
    all.extend(stack());
    all.extend(padding());
    all
}

/// The tokens behind the prefix are a condition that is true, or false.
fn holds(reason: &str, tokens: &[Vec<u8>], is: bool) -> Case {
    let list = [callback_allow(1, &u(), &expression(tokens))];
    ask(&format!("conditions: {reason}"), on_list(asker(), 1, &list), granted(is))
}

/// A literal with Member_of.
fn truth(is: bool) -> Vec<u8> {
    let sid = if is { u() } else { w() };
    [literal(&sid), vec![MEMBER_OF]].concat()
}

fn members() -> Vec<Case> {
    // A list, whether all of it are members, and whether one is.
    let lists = [
        ("a literal of a member", literal(&g()), true, true),
        ("a literal of nobody who asks", literal(&w()), false, false),
        ("a composite of no SID", composite::<&[u8]>(&[]), true, false),
        ("a composite of one member", composite(&[u()]), true, true),
        ("a composite of one who does not ask", composite(&[w()]), false, false),
        ("a composite of two members", composite(&[u(), g()]), true, true),
        ("a composite of a member and another", composite(&[g(), w()]), false, true),
        ("a composite of another and a member", composite(&[w(), g()]), false, true),
        ("a composite of two who do not ask", composite(&[w(), sid(5, &[0])]), false, false),
    ];
    let mut all = Vec::new();
    for (name, list, every, some) in lists {
        for (operator, token, is) in [
            ("Member_of", MEMBER_OF, every),
            ("Member_of_Any", MEMBER_OF_ANY, some),
            ("not Member_of", NOT_MEMBER_OF, !every),
            ("not Member_of_Any", NOT_MEMBER_OF_ANY, !some),
        ] {
            let reason = format!("{operator}, {name}: {is}");
            all.push(holds(&reason, &[list.clone(), vec![token]], is));
        }
    }
    all
}

fn logic() -> Vec<Case> {
    let mut all = Vec::new();
    for one in [false, true] {
        all.push(holds(&format!("not {one}: {}", !one), &[truth(one), vec![NOT]], !one));
        for two in [false, true] {
            let both = [truth(one), truth(two)].concat();
            let reason = format!("{one} and {two}: {}", one && two);
            all.push(holds(&reason, &[both.clone(), vec![AND]], one && two));
            let reason = format!("{one} or {two}: {}", one || two);
            all.push(holds(&reason, &[both, vec![OR]], one || two));
        }
    }
    let [yes, no] = [truth(true), truth(false)];
    all.extend([
        holds(
            "true or true, and that and false: false",
            &[yes.clone(), yes.clone(), vec![OR], no.clone(), vec![AND]],
            false,
        ),
        holds(
            "true or what true and false say: true",
            &[yes.clone(), yes.clone(), no.clone(), vec![AND], vec![OR]],
            true,
        ),
        holds(
            "not takes the latest truth alone: true or not true is true",
            &[yes.clone(), yes.clone(), vec![NOT, OR]],
            true,
        ),
        holds(
            "not behind the or takes what both say: not (true or true) is false",
            &[yes.clone(), yes, vec![OR, NOT]],
            false,
        ),
        holds("not not not false: true", &[no, vec![NOT, NOT, NOT]], true),
    ]);
    all
}

/// 32 operands at once are fine.
fn stack() -> Vec<Case> {
    let ands = |count: usize| vec![AND; count];
    let yes = |count: usize| truth(true).repeat(count);
    let of_composites = |count: usize| {
        let one = [composite(&[u(), g()]), vec![MEMBER_OF]].concat();
        one.repeat(count)
    };
    vec![
        holds("31 truths at once", &[yes(31), ands(30)], true),
        holds("32 truths at once, the last of which was a literal", &[yes(32), ands(31)], true),
        holds(
            "32 truths at once, of which the last is false",
            &[yes(31), truth(false), ands(31)],
            false,
        ),
        holds(
            "32 truths at once, of which the first is false",
            &[truth(false), yes(31), ands(31)],
            false,
        ),
        holds(
            "32 composites with Member_of: each counts once",
            &[of_composites(32), ands(31)],
            true,
        ),
        holds(
            "not, with 32 truths at once: it takes one before it gives one",
            &[yes(31), truth(false), vec![NOT], ands(31)],
            true,
        ),
        holds("or, with 32 truths at once", &[yes(31), truth(false), vec![OR], ands(30)], true),
        holds(
            "32 at once, and once more when they are taken",
            &[yes(32), ands(31), yes(31), ands(31)],
            true,
        ),
        holds(
            "100 truths, never more than two at once",
            &[truth(true), [truth(true), vec![AND]].concat().repeat(99)],
            true,
        ),
        holds(
            "a composite of 40 SIDs is one operand",
            &[composite(&vec![u(); 40]), vec![MEMBER_OF]],
            true,
        ),
        holds(
            "SIDs of no word and of fifteen",
            &[composite(&[sid(5, &[]), sid(5, &[7; 15]), u()]), vec![MEMBER_OF_ANY]],
            true,
        ),
    ]
}

/// Behind the last token stand zeros, as many as there are.
fn padding() -> Vec<Case> {
    let mut all = Vec::new();
    // Behind the prefix, the literal and the operator, 26 bytes.
    for zeros in [2, 6, 10, 130, 4098] {
        let tokens = [literal(&u()), vec![MEMBER_OF], vec![0; zeros]];
        all.push(holds(&format!("{zeros} zeros behind it"), &tokens, true));
    }
    // With so many more operators there are 28 bytes, 27 and 29.
    all.push(holds("no padding at all", &[literal(&u()), vec![MEMBER_OF, NOT, NOT]], true));
    all.push(holds("one zero behind it", &[literal(&w()), vec![NOT_MEMBER_OF, NOT]], false));
    all.push(holds(
        "three zeros behind it",
        &[literal(&g()), vec![MEMBER_OF, NOT, NOT, NOT]],
        false,
    ));
    all
}

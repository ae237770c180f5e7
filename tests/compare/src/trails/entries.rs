//! Which audit entries raise an event, by whom and by what; and which do not, for one reason alone.

use crate::children::{is_inherit_only, mask_of};
use crate::conditions::holds_for;
use crate::decided::bits;
use crate::lists::{self, Whose};
use crate::sacls;
use crate::who::{Who, OWNER_RIGHTS, PRINCIPAL_SELF};
use pirasteh_cases::make::Question;
use pirasteh_reference::Answer;

const MAXIMUM: u32 = 0x0200_0000;
const SYSTEM_SECURITY: u32 = 0x0100_0000;

/// Each has to be reached in the descriptor's SACL and in an effective one.
const ROWS: [&str; 23] = [
    "an event by the user",
    "an event by an enabled group",
    "an event by a deny-only group",
    "an event by S-1-3-4",
    "an event by S-1-5-10",
    "an event by the flag for success",
    "an event by the flag for failure",
    "an event with both flags",
    "an event by a generic bit alone",
    "an event with a stored bit that is cut",
    "an event of an entry with spare bytes",
    "an event of a confined asker",
    "none, only since it is inherit-only",
    "none, only since it has the flag for the other answer alone",
    "none, only since it has neither flag",
    "none, only since it names a stranger",
    "none, only since it names a disabled group",
    "none, only since it names the package or a capability",
    "none, only since it names S-1-3-4 or S-1-5-10, which match nothing here",
    "none, only since its bits are asked by the maximum and not explicit",
    "none, only since 0x01000000 is cut from its mask",
    "none, only since it has mask 0",
    "none, only since its rule does not apply",
];

/// The last row is about rules.
const OF_RULES: usize = 22;

const COLUMNS: [&str; 2] = ["the descriptor's SACL", "an effective SACL"];

pub type Table = [[u64; 2]; ROWS.len()];

/// Of very long lists, and of very many rules, the first will do.
const ENOUGH: usize = 20;

/// Who an entry is about.
#[derive(Clone, Copy, PartialEq, Eq)]
enum Named {
    User,
    Enabled,
    DenyOnly,
    Owner,
    Self_,
    Stranger,
    Disabled,
    Confined,
    Nobody,
}

fn named(q: &Question, who: &Who, sid: &[u8]) -> Named {
    let denies = |sid: &[u8]| who.normal.iter().any(|one| one.sid == sid && one.denies());
    if sid == OWNER_RIGHTS || sid == PRINCIPAL_SELF {
        let meant = if sid == OWNER_RIGHTS {
            crate::children::owner_of(q).unwrap_or_default()
        } else {
            &q.self_id
        };
        return match (denies(meant), sid == OWNER_RIGHTS) {
            (false, _) => Named::Nobody,
            (true, true) => Named::Owner,
            (true, false) => Named::Self_,
        };
    }
    let here: Vec<_> = who.normal.iter().filter(|one| one.sid == sid).collect();
    if who.normal[0].sid == sid {
        Named::User
    } else if here.iter().any(|one| one.allows()) {
        Named::Enabled
    } else if here.iter().any(|one| one.denies()) {
        Named::DenyOnly
    } else if !here.is_empty() {
        Named::Disabled
    } else if who.confined.iter().any(|one| one.sid == sid) {
        Named::Confined
    } else {
        Named::Stranger
    }
}

/// Which rows an audit entry belongs to.
fn rows(q: &Question, who: &Who, answer: &Answer, entry: &[u8], applies: bool) -> [bool; 23] {
    let mut rows = [false; 23];
    let mask = mask_of(entry);
    let end = 16 + 4 * usize::from(entry[9]);
    let explicit = bits(q.kind, q.mask) | q.mask & SYSTEM_SECURITY;
    let flag = if answer.allowed { 0x40 } else { 0x80 };
    let named = named(q, who, &entry[8..end]);
    let matches =
        !matches!(named, Named::Stranger | Named::Disabled | Named::Confined | Named::Nobody);
    let covers = bits(q.kind, mask) & explicit != 0;
    let flagged = entry[1] & flag != 0;
    let held = [applies, !is_inherit_only(entry), matches, covers, flagged];
    if held == [true; 5] {
        let by = [Named::User, Named::Enabled, Named::DenyOnly, Named::Owner, Named::Self_];
        for (row, who) in rows.iter_mut().zip(by) {
            *row = named == who;
        }
        rows[5] = entry[1] & 0xC0 == 0x40;
        rows[6] = entry[1] & 0xC0 == 0x80;
        rows[7] = entry[1] & 0xC0 == 0xC0;
        rows[8] = mask & explicit == 0;
        rows[9] = mask & 0x0FE0_FE00 != 0;
        rows[10] = end < entry.len();
        rows[11] = !who.confined.is_empty();
    }
    // All hold but the one.
    let lacks = |which: usize| (0..5).all(|i| held[i] == (i != which));
    rows[12] = lacks(1);
    rows[13] = lacks(4) && entry[1] & 0xC0 != 0;
    rows[14] = lacks(4) && entry[1] & 0xC0 == 0;
    let not = [Named::Stranger, Named::Disabled, Named::Confined, Named::Nobody];
    for (row, who) in rows[15..].iter_mut().zip(not) {
        *row = lacks(2) && named == who;
    }
    rows[19] = lacks(3) && q.mask & MAXIMUM != 0 && bits(q.kind, mask) != 0;
    rows[20] = lacks(3) && mask & explicit & SYSTEM_SECURITY != 0;
    rows[21] = lacks(3) && mask == 0;
    rows[OF_RULES] = lacks(0);
    rows
}

/// Adds the audit entries of an accepted question.
pub fn add(q: &Question, answer: &Answer, table: &mut Table) {
    let Some(who) = Who::of(q) else { return };
    let sections = lists::sections(&q.policy).unwrap_or_default();
    for sacl in sacls::of(q).iter().filter(|sacl| sacl.whose != Whose::Staged).take(ENOUGH) {
        let (column, applies) = match sacl.whose {
            Whose::Descriptor => (0, true),
            _ => (1, holds_for(q, &q.policy[sections[5 * sacl.rule].clone()])),
        };
        let all = sacl.entries().into_iter();
        for entry in all.filter(|entry| entry[0] == 2).take(ENOUGH) {
            for (times, here) in table.iter_mut().zip(rows(q, &who, answer, entry, applies)) {
                times[column] += u64::from(here);
            }
        }
    }
}

pub fn unreached(table: &Table) -> Vec<String> {
    let mut all = Vec::new();
    for (number, (row, times)) in ROWS.iter().zip(table).enumerate() {
        for (column, list) in COLUMNS.iter().enumerate() {
            if times[column] == 0 && (column == 1 || number != OF_RULES) {
                all.push(format!("an audit entry in {list}: {row}"));
            }
        }
    }
    all
}

pub fn print(table: &Table) {
    println!("  audit entries in {}:", COLUMNS.join(" and "));
    for (row, [descriptor, effective]) in ROWS.iter().zip(table) {
        println!("  {descriptor:9} {effective:9}  {row}");
    }
}

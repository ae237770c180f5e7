//! Lists whose first entries decide all bits of the kind, or all but one, and what stands behind
//! them: entries for S-1-3-4, which still take the owner's rights away, and entries that decide
//! nothing any more. The owner asks.

use crate::expressions;
use crate::make::{self, Descriptor, Question, Rule, Token};
use crate::people;
use crate::random::Case;
use crate::rng::Rng;

/// What a list is like.
#[derive(Clone, Copy, Debug, PartialEq, Eq)]
pub enum Row {
    /// One entry decides all bits, and behind it stands one for S-1-3-4 that counts.
    OneThenOwner,
    /// The same with several entries.
    SeveralThenOwner,
    /// One entry decides all bits, and behind it stand only inherit-only ones for S-1-3-4.
    OneThenChild,
    SeveralThenChild,
    /// Behind all that is decided an inherit-only one for S-1-3-4, and then one that counts.
    ChildThenOwner,
    /// Behind all that is decided somebody who is nearly S-1-3-4.
    Nearly,
    /// All bits but one are decided, and behind that stands an entry for S-1-3-4 without the bit.
    ButOneThenOwner,
    /// The last bit is decided by an entry for the asker, for S-1-5-10 or for S-1-3-4.
    LastByAsker,
    LastBySelf,
    LastByOwner,
    /// Behind all that is decided stand entries that would decide otherwise.
    Otherwise,
}

pub const ROWS: [Row; 11] = [
    Row::OneThenOwner,
    Row::SeveralThenOwner,
    Row::OneThenChild,
    Row::SeveralThenChild,
    Row::ChildThenOwner,
    Row::Nearly,
    Row::ButOneThenOwner,
    Row::LastByAsker,
    Row::LastBySelf,
    Row::LastByOwner,
    Row::Otherwise,
];

/// A row in a list of the descriptor (0), in an effective one (1) or in a staged one (2).
#[derive(Clone, Copy, Debug, PartialEq, Eq)]
pub struct Aim {
    pub row: Row,
    pub whose: usize,
    pub kind: u32,
}

pub fn aim(turn: u64) -> Aim {
    let row = ROWS[(turn % ROWS.len() as u64) as usize];
    let rest = turn / ROWS.len() as u64;
    Aim { row, whose: (rest % 3) as usize, kind: 1 + (rest / 3 % 2) as u32 }
}

const ALL: [u32; 2] = [0x1F_01FF, 0xF_003F];
/// What an owner has by himself.
const OWNERS: u32 = 0x6_0000;

/// The case of one turn.
pub fn case(rng: &mut Rng, turn: u64) -> Case {
    let aim = aim(turn);
    let cast = Cast::new(rng);
    let lists = lists(rng, aim, &cast);
    Case::Check(question(rng, aim, &cast, lists))
}

/// Who asks: the owner, by his own name or by a group. And who else is there.
struct Cast {
    owner: Vec<u8>,
    other: Vec<u8>,
    token: Token,
}

impl Cast {
    fn new(rng: &mut Rng) -> Cast {
        let owner = make::sid(5, rng.of(&[&[7][..], &[21, 1, 2, 3, 500], &[4], &[]]));
        let other = make::sid(5, rng.of(&[&[0, 7][..], &[21, 1, 2, 3, 501], &[10, 0]]));
        let mut token = Token::of(if rng.one_in(3) { &other } else { &owner });
        if token.user == owner {
            token = token.group(&other, rng.of(&[4, 7]));
        } else {
            token = token.group(&owner, rng.of(&[4, 7]));
        }
        for _ in 0..rng.of(&[0, 1, 25]) {
            let word = rng.u32();
            token = token.group(&make::sid(5, &[21, word]), 7);
        }
        Cast { owner, other, token }
    }

    /// One who asks: the owner or the other.
    fn asker<'a>(&'a self, rng: &mut Rng) -> &'a [u8] {
        if rng.one_in(2) {
            &self.owner
        } else {
            &self.other
        }
    }
}

/// A list of this kind, and its first part alone.
fn lists(rng: &mut Rng, aim: Aim, cast: &Cast) -> [Vec<Vec<u8>>; 2] {
    let all = ALL[aim.kind as usize - 1];
    let left = if aim.row == Row::Otherwise { 0 } else { last_bit(rng, all) };
    let early = match aim.row {
        Row::OneThenOwner | Row::OneThenChild => {
            let mask = rng.of(&[0x1000_0000, 0x1000_0000, all, u32::MAX]);
            vec![make::deny(mask, cast.asker(rng))]
        }
        Row::ButOneThenOwner | Row::LastByAsker | Row::LastBySelf | Row::LastByOwner => {
            several(rng, cast, all & !left)
        }
        Row::Otherwise if rng.one_in(2) => {
            vec![make::entry(rng.of(&[0, 1]), 0, 0x1000_0000, cast.asker(rng))]
        }
        _ => several(rng, cast, all),
    };
    let mut list = early.clone();
    // Somebody else, who does not matter.
    if rng.one_in(3) {
        list.push(make::allow(u32::MAX, &make::sid(21, &[1])));
    }
    list.extend(tail(rng, aim.row, cast, left));
    if rng.one_in(3) {
        list.extend(otherwise(rng, cast, left));
    }
    if rng.one_in(8) {
        list.insert(0, make::entry(rng.of(&[0, 1]), 0x08, u32::MAX, &people::owner_rights()));
        if matches!(aim.row, Row::OneThenChild | Row::SeveralThenChild) {
            list[0][1] |= 0x10;
        }
    }
    [list, early]
}

/// A bit of the kind that an owner does not have by himself.
fn last_bit(rng: &mut Rng, all: u32) -> u32 {
    loop {
        let bit = 1 << rng.below(21);
        if bit & all & !OWNERS != 0 {
            return bit;
        }
    }
}

/// Entries that together decide all these bits, and no other: an owner's rights are denied.
fn several(rng: &mut Rng, cast: &Cast, bits: u32) -> Vec<Vec<u8>> {
    let mut entries = Vec::new();
    let mut left = bits & !OWNERS;
    entries.push(make::deny(bits & OWNERS, cast.asker(rng)));
    while left != 0 {
        let some = left & rng.u32();
        let some = if rng.one_in(3) || some == 0 { left } else { some };
        left &= !some;
        // What is decided may be decided again.
        let mask = some | bits & !left & rng.u32();
        let place = entries.len();
        entries.insert(place, make::entry(rng.of(&[0, 1]), 0, mask, cast.asker(rng)));
    }
    entries
}

/// What the row has behind all that is decided.
fn tail(rng: &mut Rng, row: Row, cast: &Cast, left: u32) -> Vec<Vec<u8>> {
    let own = people::owner_rights();
    let counts = |rng: &mut Rng| {
        let flags = rng.of(&[0, 0, 0x10, 0xF7, 0x03]);
        let mask = rng.of(&[0, OWNERS, u32::MAX]) & !left;
        if rng.one_in(3) {
            return callback(rng, flags, mask, &own);
        }
        let spare = vec![0; 4 * rng.of(&[0, 0, 1, 5])];
        make::long_entry(rng.of(&[0, 1]), flags, mask, &own, &spare)
    };
    let child = |rng: &mut Rng| {
        let (flags, mask) = (rng.of(&[0x08, 0x0B, 0x18]), rng.of(&[0, u32::MAX]));
        if rng.one_in(3) {
            return callback(rng, flags, mask, &own);
        }
        make::entry(rng.of(&[0, 1]), flags, mask, &own)
    };
    match row {
        Row::OneThenOwner | Row::SeveralThenOwner | Row::ButOneThenOwner => vec![counts(rng)],
        Row::OneThenChild | Row::SeveralThenChild => vec![child(rng)],
        Row::ChildThenOwner => vec![child(rng), counts(rng)],
        Row::Nearly => vec![make::entry(rng.of(&[0, 1]), 0, OWNERS, &nearly_owner_rights(rng))],
        Row::LastByAsker => vec![make::allow(u32::MAX, cast.asker(rng))],
        Row::LastBySelf => vec![make::allow(u32::MAX, &people::principal_self())],
        Row::LastByOwner => vec![make::allow(u32::MAX, &own)],
        Row::Otherwise => otherwise(rng, cast, 0),
    }
}

/// An entry with a condition that is true or false for everybody.
fn callback(rng: &mut Rng, flags: u8, mask: u32, sid: &[u8]) -> Vec<u8> {
    let kind = rng.of(&[expressions::ALLOW, expressions::DENY]);
    let condition = rng.of(&[expressions::always, expressions::never])();
    expressions::callback(kind, flags, mask, sid, &condition)
}

fn nearly_owner_rights(rng: &mut Rng) -> Vec<u8> {
    match rng.below(7) {
        0 => make::sid(3, &[4, 0]),
        1 => make::sid(3, &[]),
        2 => make::sid(3, &[5]),
        3 => make::sid(3, &[4 << 8]),
        4 => make::sid(3 << 8, &[4]),
        5 => make::sid(3, &[0, 4]),
        _ => make::sid(2, &[4]),
    }
}

/// Entries for those who ask, that would decide all but these bits one way or the other.
fn otherwise(rng: &mut Rng, cast: &Cast, left: u32) -> Vec<Vec<u8>> {
    let me = people::principal_self();
    let kind = rng.of(&[0, 1]);
    let mut entries = vec![make::entry(kind, 0, !left, cast.asker(rng))];
    entries.push(make::entry(1 - kind, 0, !left, cast.asker(rng)));
    if rng.one_in(2) {
        let place = rng.below(3);
        entries.insert(place, make::entry(rng.of(&[0, 1]), 0, !left, &me));
    }
    entries
}

/// The list stands where the aim says. All others leave what it decides, but for a staged one:
/// beside it stands its first part, so that the flag shows what is behind that.
fn question(rng: &mut Rng, aim: Aim, cast: &Cast, [list, early]: [Vec<Vec<u8>>; 2]) -> Question {
    let owner = Descriptor::owned_by(&cast.owner);
    let list = make::acl(&list);
    let free = make::acl(&[make::allow(0x1000_0000, &cast.owner)]);
    let (descriptor, policy) = match aim.whose {
        0 if rng.one_in(2) => (owner.dacl(&list), vec![]),
        0 => (owner.dacl(&list), make::policy(&[Rule::of(&free)])),
        1 if rng.one_in(2) => (owner, make::policy(&[Rule::of(&list)])),
        1 => (owner.dacl(&free), make::policy(&[Rule::of(&free), Rule::of(&list)])),
        _ => (owner.dacl(&free), make::policy(&[Rule::of(&make::acl(&early)).staged(&list)])),
    };
    Question {
        kind: aim.kind,
        mask: 0x0200_0000,
        token: cast.token.record(),
        self_id: cast.asker(rng).to_vec(),
        descriptor: descriptor.bytes(),
        policy,
    }
}

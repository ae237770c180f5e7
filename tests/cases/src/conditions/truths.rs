//! Conditions on which an answer hangs: each operator, lists on which operators differ, each kind of
//! membership, and stacks that are nearly too deep.

use super::cast::Cast;
use super::place::{Pass, Place, PASSES};
use super::whole;
use crate::expressions::*;
use crate::make::{self, Descriptor, Question, Rule};
use crate::people;
use crate::rng::Rng;

/// What the condition is like.
#[derive(Clone, Copy, Debug, PartialEq, Eq)]
pub enum Row {
    /// It hangs on an operator of this token: another would say otherwise.
    Operator(u8),
    /// It hangs on this operator's asking for one SID or for all.
    OneOrAll(u8),
    /// The same of a composite of no SID.
    Empty(u8),
    /// The first, or the last, of several SIDs decides.
    FirstSid,
    LastSid,
    /// It names a group that is no member, and would be one by matching for deny, or by being
    /// listed.
    DenyOnly,
    Disabled,
    /// It names somebody who would be a member in the other pass.
    OtherPass,
    /// It names S-1-3-4 or S-1-5-10.
    OwnerRights,
    PrincipalSelf,
    /// So many operands are on the stack at once.
    Operands(usize),
    /// It is true, or false, in whatever way.
    True,
    False,
    /// The entry names S-1-3-4, and its condition is false. It counts, unless it is inherit-only.
    SilentOwner,
    SilentChild,
}

pub const ROWS: [Row; 28] = [
    Row::Operator(MEMBER_OF),
    Row::Operator(MEMBER_OF_ANY),
    Row::Operator(NOT_MEMBER_OF),
    Row::Operator(NOT_MEMBER_OF_ANY),
    Row::Operator(AND),
    Row::Operator(OR),
    Row::Operator(NOT),
    Row::OneOrAll(MEMBER_OF),
    Row::OneOrAll(MEMBER_OF_ANY),
    Row::OneOrAll(NOT_MEMBER_OF),
    Row::OneOrAll(NOT_MEMBER_OF_ANY),
    Row::Empty(MEMBER_OF),
    Row::Empty(MEMBER_OF_ANY),
    Row::Empty(NOT_MEMBER_OF),
    Row::Empty(NOT_MEMBER_OF_ANY),
    Row::FirstSid,
    Row::LastSid,
    Row::DenyOnly,
    Row::Disabled,
    Row::OtherPass,
    Row::OwnerRights,
    Row::PrincipalSelf,
    Row::Operands(31),
    Row::Operands(32),
    Row::True,
    Row::False,
    Row::SilentOwner,
    Row::SilentChild,
];

impl Row {
    /// Where conditions of this row stand.
    pub fn places(self) -> Vec<Place> {
        let listed = |pass: &Pass| match self {
            // In confinement no attributes count.
            Row::DenyOnly | Row::Disabled => *pass != Pass::Confined,
            Row::SilentOwner | Row::SilentChild => {
                matches!(pass, Pass::Normal | Pass::Effective | Pass::Staged)
            }
            _ => true,
        };
        let passes = PASSES.into_iter().filter(listed);
        passes.flat_map(|pass| [false, true].map(|second| Place { pass, second })).collect()
    }
}

pub fn question(rng: &mut Rng, row: Row, place: Place) -> Question {
    let mut cast = Cast::new(rng, place.pass);
    if matches!(row, Row::SilentOwner | Row::SilentChild) {
        return of_owner(rng, row, place, &mut cast);
    }
    if row == Row::OtherPass && cast.token.confinement.is_none() {
        let capabilities = [&cast.capability[..], &people::all_restricted()];
        cast.token = cast.token.confined(&cast.package, &capabilities);
    }
    match row {
        Row::OwnerRights if rng.one_in(2) => cast.owner = cast.member(rng, place.pass),
        Row::PrincipalSelf if rng.one_in(2) => cast.self_id = cast.member(rng, place.pass),
        _ => {}
    }
    let tokens = tokens(rng, row, place.pass, &cast);
    let zeros = rng.of(&[0, 0, 1, 2, 3, 5, 30]);
    let condition = expression(&[tokens, vec![0; zeros]]);
    place.question(rng, &cast, &condition)
}

/// The tokens of a condition of this row.
fn tokens(rng: &mut Rng, row: Row, pass: Pass, cast: &Cast) -> Vec<u8> {
    let someone = |rng: &mut Rng| cast.someone(rng);
    let leaf = |rng: &mut Rng, list: Vec<u8>| [list, vec![rng.of(&MEMBERS)]].concat();
    let tokens = match row {
        Row::Operator(AND | OR) | Row::True | Row::False if rng.one_in(3) => {
            let size = rng.below(4);
            whole::truth(rng, &someone, size)
        }
        Row::Operator(token @ (AND | OR)) => {
            let mut both = [sure(rng, cast, pass, true), sure(rng, cast, pass, false)];
            both.swap(0, rng.below(2));
            [both.concat(), vec![token]].concat()
        }
        Row::Operator(NOT) => [whole::leaf(rng, &someone), vec![NOT]].concat(),
        Row::Operator(token) => [whole::list(rng, &someone), vec![token]].concat(),
        Row::OneOrAll(token) => [mixed(rng, cast, pass), vec![token]].concat(),
        Row::Empty(token) => [composite::<&[u8]>(&[]), vec![token]].concat(),
        Row::FirstSid | Row::LastSid => several(rng, row, cast, pass),
        Row::DenyOnly => leaf(rng, literal(&cast.deny_only)),
        Row::Disabled => leaf(rng, literal(&cast.disabled)),
        Row::OtherPass => {
            let other = if pass == Pass::Confined { Pass::Normal } else { Pass::Confined };
            let list = literal(&cast.member(rng, other));
            leaf(rng, list)
        }
        Row::OwnerRights => leaf(rng, literal(&people::owner_rights())),
        Row::PrincipalSelf => leaf(rng, literal(&people::principal_self())),
        Row::Operands(count) => whole::deep(rng, &someone, count),
        _ => whole::leaf(rng, &someone),
    };
    if matches!(row, Row::Operands(_)) {
        return tokens;
    }
    beside(rng, cast, pass, tokens)
}

/// Tokens that are true in a pass, or false.
fn sure(rng: &mut Rng, cast: &Cast, pass: Pass, is: bool) -> Vec<u8> {
    let operator = rng.of(&MEMBERS);
    let negated = matches!(operator, NOT_MEMBER_OF | NOT_MEMBER_OF_ANY);
    let who = if is != negated { cast.member(rng, pass) } else { cast.outsider(rng, pass) };
    [literal(&who), vec![operator]].concat()
}

/// A list of members and others, in any order.
fn mixed(rng: &mut Rng, cast: &Cast, pass: Pass) -> Vec<u8> {
    let mut sids = vec![cast.member(rng, pass), cast.outsider(rng, pass)];
    for _ in 0..rng.of(&[0, 0, 1, 2]) {
        let sid = if rng.one_in(2) { cast.member(rng, pass) } else { cast.outsider(rng, pass) };
        sids.push(sid);
    }
    for last in (1..sids.len()).rev() {
        sids.swap(last, rng.below(last + 1));
    }
    composite(&sids)
}

/// Several SIDs of which the first or the last is unlike the others, with an operator that hangs on
/// it.
fn several(rng: &mut Rng, row: Row, cast: &Cast, pass: Pass) -> Vec<u8> {
    let any = rng.one_in(2);
    let alike = |rng: &mut Rng, in_it| {
        if in_it {
            cast.member(rng, pass)
        } else {
            cast.outsider(rng, pass)
        }
    };
    let mut sids: Vec<Vec<u8>> = (0..2 + rng.below(5)).map(|_| alike(rng, !any)).collect();
    let place = if row == Row::FirstSid { 0 } else { sids.len() };
    sids.insert(place, alike(rng, any));
    let operators =
        if any { [MEMBER_OF_ANY, NOT_MEMBER_OF_ANY] } else { [MEMBER_OF, NOT_MEMBER_OF] };
    [composite(&sids), vec![rng.of(&operators)]].concat()
}

/// The tokens, perhaps beside others that leave their truth as it is, or turn it round.
fn beside(rng: &mut Rng, cast: &Cast, pass: Pass, tokens: Vec<u8>) -> Vec<u8> {
    match rng.below(8) {
        0 => [tokens, sure(rng, cast, pass, true), vec![AND]].concat(),
        1 => [sure(rng, cast, pass, true), tokens, vec![AND]].concat(),
        2 => [tokens, sure(rng, cast, pass, false), vec![OR]].concat(),
        3 => [sure(rng, cast, pass, false), tokens, vec![OR, NOT, NOT]].concat(),
        4 => [tokens, vec![NOT]].concat(),
        _ => tokens,
    }
}

/// The owner asks for an owner's two rights, where a list has a callback entry for S-1-3-4.
fn of_owner(rng: &mut Rng, row: Row, place: Place, cast: &mut Cast) -> Question {
    cast.token.flags = 0;
    cast.token.confinement = None;
    cast.owner = cast.member(rng, Pass::Normal);
    let kind = if place.second { DENY } else { ALLOW };
    let flags = match row {
        Row::SilentChild => rng.of(&[0x08, 0x0B, 0x18]),
        _ => rng.of(&[0, 0, 0x10, 0xF7]),
    };
    let mask = rng.of(&[0, 0x6_0000, 0x1000_0000]);
    let tokens = sure(rng, cast, Pass::Normal, false);
    let condition = expression(&[beside_false(rng, cast, tokens)]);
    let list = make::acl(&[callback(kind, flags, mask, &people::owner_rights(), &condition)]);
    let nothing = make::acl(&[]);
    let owned = Descriptor::owned_by(&cast.owner);
    let (descriptor, policy) = match place.pass {
        Pass::Effective => (owned.dacl(&nothing), make::policy(&[Rule::of(&list)])),
        Pass::Staged => (owned.dacl(&nothing), make::policy(&[Rule::of(&nothing).staged(&list)])),
        _ => (owned.dacl(&list), Vec::new()),
    };
    Question {
        kind: 1 + rng.below(2) as u32,
        mask: rng.of(&[0x2_0000, 0x4_0000, 0x6_0000, 0x0200_0000]),
        token: cast.token.record(),
        self_id: cast.self_id.clone(),
        descriptor: descriptor.bytes(),
        policy,
    }
}

/// Tokens that stay false.
fn beside_false(rng: &mut Rng, cast: &Cast, tokens: Vec<u8>) -> Vec<u8> {
    if rng.one_in(3) {
        let size = rng.below(3);
        let more = whole::truth(rng, &|rng| cast.someone(rng), size);
        return [tokens, more, vec![AND]].concat();
    }
    tokens
}

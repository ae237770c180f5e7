use super::*;
use pirasteh_cases::hex::bytes;
use pirasteh_cases::make::{sid, Descriptor, Question, Token};
use pirasteh_cases::random::{case, Case};

fn add(table: &mut Table, case: &Case) {
    match case {
        Case::Check(q) => {
            let said =
                reference::check(q.kind, q.mask, &q.token, &q.self_id, &q.descriptor, &q.policy);
            table.record(Place::Token, &q.token, said.err());
        }
        Case::File(file) => table.file(file, reference::question(file).err()),
        Case::List(record, _) => {
            table.record(Place::Record, record, reference::list(record).err());
        }
        Case::Pack(..) => {}
    }
}

#[test]
fn a_short_run_reaches_everything() {
    let mut table = Table::default();
    assert_eq!(table.unreached().len(), aims().len() + BEHIND.len());
    for number in 0..10_000 {
        add(&mut table, &case(3, number));
    }
    assert_eq!(table.unreached(), [""; 0]);
}

type Reached = (Place, u32, Form, usize);
const NOTHING: [Reached; 0] = [];

/// What is reached by one case.
fn reached(case: Case) -> Vec<Reached> {
    let mut table = Table::default();
    add(&mut table, &case);
    let mut all = Vec::new();
    for (door, forms) in DOORS.iter().zip(table.times) {
        for (form, times) in FORMS.into_iter().zip(forms) {
            let sizes = (0..SIZES).filter(|&size| times[size] > 0);
            all.extend(sizes.map(|size| (door.place, door.bits, form, size)));
        }
    }
    all
}

fn list(record: &str) -> Case {
    Case::List(bytes(record), pirasteh_cases::random::Room::Exact)
}

#[test]
fn only_what_is_the_only_fault_is_counted() {
    let record = |form, size| vec![(Place::Record, 32, form, size)];
    assert_eq!(reached(list("81 80 00 00 00 02 05 00 07 00")), record(Form::Long, 3));
    assert_eq!(reached(list("81 80 80 80 30 00 00 02 05 00 07 00")), record(Form::Wide, 34));
    assert_eq!(reached(list("81 80 80 80 80 01 00 00 02 05 00 07 00")), record(Form::Many, 6));
    assert_eq!(reached(list("01 00 00 02 05 00 07")), record(Form::Cut, 0));
    assert_eq!(reached(list("01 00 00 02 05 00 07 80 80")), record(Form::Cut, 2));
    // Here it is version 2 besides, or a byte too many, or more is missing.
    assert_eq!(reached(list("82 80 00 00 00 02 05 00 07 00")), NOTHING);
    assert_eq!(reached(list("81 80 00 00 00 02 05 00 07 00 00")), NOTHING);
    assert_eq!(reached(list("01 00 00 02 05 00 87")), NOTHING);
    // The privileges are the only number of 64 bits, and never the last.
    assert_eq!(reached(list("01 00 80 80")), [(Place::Record, 64, Form::Cut, 2)]);
}

#[test]
fn good_numbers_are_counted_where_they_are_accepted() {
    use Form::{Bit, Good, Last};
    use Place::Record;
    let tiny = [
        (Record, 32, Good, 1),
        (Record, 32, Last, 1),
        (Record, 32, Bit, 0),
        (Record, 48, Good, 1),
        (Record, 64, Good, 2),
        (Record, 64, Bit, 7),
    ];
    assert_eq!(reached(list("01 00 80 01 00 05 00")), tiny);
    // S-1-3-4 is in no token.
    assert_eq!(reached(list("01 00 80 01 01 03 04 00")), NOTHING);
}

#[test]
fn a_number_that_goes_on_behind_the_token_is_counted() {
    let user = sid(5, &[7]);
    let mut question = Question {
        kind: 1,
        mask: 1,
        token: Token::of(&user).group(&user, 4).record(),
        self_id: user.clone(),
        descriptor: Descriptor::owned_by(&user).bytes(),
        policy: vec![],
    };
    let behind = |question: &Question| {
        let mut table = Table::default();
        add(&mut table, &Case::File(question.file()));
        table.behind
    };
    assert_eq!(behind(&question), [0, 0]);
    let last = question.token.len() - 1;
    question.token[last] = 0x84;
    assert_eq!(behind(&question), [0, 1]);
    question.token.truncate(last);
    assert_eq!(behind(&question), [1, 0]);
}

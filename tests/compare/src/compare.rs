//! Random cases, one after the other: the reference says what should come out, the library
//! says what does.

use crate::children;
use crate::conditions;
use crate::crowds::{self, seats};
use crate::decided;
use crate::fence;
use crate::gained;
use crate::library::{Library, Said};
use crate::numbers::{self, words};
use crate::rooms;
use crate::spare;
use crate::steps;
use crate::trails::{self, Events};
use pirasteh_cases::hex;
use pirasteh_cases::make::Question;
use pirasteh_cases::numbers::Place;
use pirasteh_cases::random::{self, About, Case};
use pirasteh_cases::rooms::Door;
use pirasteh_cases::Rng;
use pirasteh_reference::{self as reference, Verdict};
use std::fmt::Debug;
use std::sync::atomic::Ordering;

const STATUS: [&str; 13] = [
    "answered or converted",
    "kind",
    "mask",
    "token shape",
    "token rule",
    "self identity",
    "descriptor shape",
    "no owner",
    "entry type or token in the DACL",
    "policy shape",
    "entry type or token in a rule",
    "short buffer",
    "question file",
];

/// What has to be reached besides, and all of `children::ROWS`, of `gained::ROWS` and of the tables
/// of `steps`, `numbers`, `rooms`, `crowds`, `decided`, `seats`, `words`, `conditions` and
/// `trails`.
const REACHED: [&str; 20] = [
    "accepted, with spare bytes in an entry of the descriptor's DACL",
    "accepted, with spare bytes in an entry of an effective DACL",
    "accepted, with spare bytes in an entry of a staged DACL",
    "accepted, with an entry of more than 60,000 bytes",
    "refused 6, only because a SID ends behind its entry",
    "refused 9, only because a SID ends behind its entry",
    "asked once more, with other spare bytes in its entries",
    "asked once more, with its inherit-only entries taken out",
    "asked once more, with inherit-only entries put in",
    "asked once more, with others for its inherit-only entries",
    "asked once more, with other conditions in strangers' entries",
    "asked once more, with strangers' callback entries put in",
    "asked once more, with strangers' callback entries taken out",
    "asked once more, as a question file",
    "asked once more, with strangers' audit entries put in",
    "asked once more, with strangers' audit entries taken out",
    "asked once more, with entries of other types put into its SACLs",
    "asked once more, with entries of other types taken out of its SACLs",
    "asked once more, with others for its inherit-only audit entries",
    "asked once more, with other spare bytes in its audit entries",
];
const SPARE_TWIN: usize = 6;
/// The first of `children::Way`.
const CHILDREN_TWIN: usize = 7;
/// The first of the ways of `conditions::twin`.
const CONDITIONS_TWIN: usize = 10;
const FILE_TWIN: usize = 13;
/// The first of `trails::Way`.
const AUDITS_TWIN: usize = 14;

/// A longer question file is refused.
const LONGEST_FILE: usize = 65_536;

/// The aims of `rooms`, `crowds`, `decided`, `seats`, `words` and `conditions` are many, and some of
/// `steps` and `trails` are rare: a run of fewer cases is not held to them.
const ENOUGH_FOR_AIMS: u64 = 500_000;

/// After this many differences the rest is not looked at.
const ENOUGH: u32 = 5;

#[derive(Default)]
struct Tally {
    status: [u64; 13],
    reached: [u64; 20],
    children: children::Table,
    gained: gained::Table,
    steps: steps::Table,
    numbers: numbers::Table,
    rooms: rooms::Table,
    crowds: crowds::Table,
    decided: decided::Table,
    seats: seats::Table,
    words: words::Table,
    conditions: conditions::Table,
    trails: trails::Table,
    checks: u64,
    files: u64,
    records: u64,
    listings: u64,
    allowed: u64,
    partly: u64,
    staged: u64,
}

/// Compares on `count` cases and prints what was reached. True if nothing differs and everything
/// was reached at least once.
pub fn many(seed: u64, count: u64) -> bool {
    let mut library = Library::new();
    let mut tally = Tally::default();
    let mut differences = 0;
    fence::SEED.store(seed, Ordering::Relaxed);
    fence::name_faults();
    for number in 0..count {
        fence::CASE.store(number, Ordering::Relaxed);
        let case = random::case(seed, number);
        if let Err(what) = compare(&mut library, &case, seed, number, &mut tally) {
            tell(&case, seed, number, &what);
            differences += 1;
            if differences == ENOUGH {
                println!("stopped after {ENOUGH} differences");
                return false;
            }
        }
    }
    tally.print(seed, count);
    let missing: Vec<usize> = (0..13).filter(|&s| tally.status[s] == 0).collect();
    if !missing.is_empty() {
        println!("never reached: status {missing:?}. More cases, or another seed?");
    }
    let mut unreached = tally.unreached();
    if count >= ENOUGH_FOR_AIMS {
        unreached.extend(tally.aims_unreached());
    } else {
        println!(
            "not held to steps, rooms, crowds, decided lists, seats, words of five bytes, \
             conditions and trails: that takes {ENOUGH_FOR_AIMS} cases"
        );
    }
    for what in &unreached {
        println!("never reached: {what}. More cases, or another seed?");
    }
    println!("compare: {count} cases, {differences} differences");
    differences == 0 && missing.is_empty() && unreached.is_empty()
}

/// One case again, with its bytes.
pub fn one(seed: u64, number: u64) -> bool {
    fence::SEED.store(seed, Ordering::Relaxed);
    fence::CASE.store(number, Ordering::Relaxed);
    fence::name_faults();
    let case = random::case(seed, number);
    let result = compare(&mut Library::new(), &case, seed, number, &mut Tally::default());
    tell(&case, seed, number, result.as_ref().err().map_or("no difference", |what| what));
    result.is_ok()
}

fn compare(
    library: &mut Library,
    case: &Case,
    seed: u64,
    number: u64,
    tally: &mut Tally,
) -> Result<(), String> {
    let rng = &mut Rng::new(!seed, number);
    let dice = rng.u64();
    match case {
        Case::Check(q) => {
            let events = trails::ask(q);
            let expected = events.as_ref().map(|(answer, _)| *answer).map_err(|&number| number);
            tally.checks += 1;
            let verdict = expected.map(|answer| answer.verdict());
            tally.answer(&verdict);
            tally.reach(q, &verdict);
            tally.steps.add(steps::Door::Parts, q.kind, q.mask, &expected);
            tally.numbers.record(Place::Token, &q.token, expected.err());
            tally.rooms.record(&q.token, Door::Check, expected.err());
            tally.trails.add(steps::Door::Parts, &events);
            tally.trails.add_entries(q, &events);
            tally.aimed(number, q, &verdict);
            same(expected, library.check(q, dice))?;
            trailed(library, q, &events, rng)?;
            match events {
                Ok((answer, events)) => once_more(library, q, answer, &events, rng, tally),
                Err(_) => Ok(()),
            }
        }
        Case::File(file) => {
            let expected = reference::question_and_kind(file);
            tally.files += 1;
            tally.answer(&expected.map(|(answer, _)| answer.verdict()));
            tally.steps.add_file(file, &expected);
            tally.numbers.file(file, expected.err());
            tally.rooms.file(file, expected.err());
            same(expected, library.question(file, dice))?;
            let events = reference::question_and_events(file);
            tally.trails.add(steps::Door::File, &events);
            trailed_file(library, file, &events, rng)
        }
        Case::List(record, room) => {
            let result = reference::list(record);
            let room = room.of(result.as_ref().map_or(64, Vec::len));
            let expected = lent(result, room);
            tally.records += 1;
            tally.status(expected.as_ref().err());
            tally.numbers.record(Place::Record, record, expected.as_ref().err().copied());
            tally.rooms.converted(record, room, &expected);
            tally.words.listed(record, expected.as_ref().err().copied());
            same(expected.clone(), library.list(record, room, dice))?;
            match expected {
                // And the way back, into a buffer of just the right length.
                Ok(listing) => same(Ok(record.clone()), library.pack(&listing, record.len(), dice)),
                Err(_) => Ok(()),
            }
        }
        Case::Pack(listing, room) => {
            let result = reference::pack(listing);
            let room = room.of(result.as_ref().map_or(64, Vec::len));
            let expected = lent(result, room);
            tally.listings += 1;
            tally.status(expected.as_ref().err());
            tally.rooms.listing(listing, room, &expected);
            if let Ok(record) = &expected {
                tally.words.packed(record);
            }
            same(expected.clone(), library.pack(listing, room, dice))?;
            match expected {
                Ok(record) => same(Ok(listing.clone()), library.list(&record, listing.len(), dice)),
                Err(_) => Ok(()),
            }
        }
    }
}

/// A question with its trail, into buffers of several lengths. No trail is longer than it may be.
fn trailed(
    library: &mut Library,
    q: &Question,
    events: &Events,
    rng: &mut Rng,
) -> Result<(), String> {
    let expected = trails::told(events);
    let bound = trails::bound(q.descriptor.len(), q.policy.len());
    if let Ok((_, trail)) = expected.as_ref() {
        if trail.len() > bound {
            return Err(format!("a trail of {} bytes, and no more than {bound}", trail.len()));
        }
    }
    let rooms = trails::rooms(rng, &expected, bound);
    library.trail(q, &rooms, &expected, rng.u64())
}

/// The same of a question file.
fn trailed_file(
    library: &mut Library,
    file: &[u8],
    events: &Events,
    rng: &mut Rng,
) -> Result<(), String> {
    let expected = trails::told(events);
    let rooms = trails::rooms(rng, &expected, trails::bound(file.len(), 0));
    library.trail_question(file, &rooms, &expected, rng.u64())
}

/// Now and then an accepted question is asked once more, with other spare bytes in its entries,
/// with other inherit-only entries, with other conditions in strangers' entries, with other entries
/// in its SACLs that raise no event, with one rule more, or as a question file.
fn once_more(
    library: &mut Library,
    q: &Question,
    before: reference::Answer,
    events: &[reference::Event],
    rng: &mut Rng,
    tally: &mut Tally,
) -> Result<(), String> {
    if rng.one_in(4) {
        if let Some(twin) = spare::twin(q, rng) {
            tally.reached[SPARE_TWIN] += 1;
            still(library, &twin, before, rng, "other spare bytes")?;
        }
    }
    if rng.one_in(4) {
        if let Some((twin, way)) = children::twin(q, rng) {
            tally.reached[CHILDREN_TWIN + way as usize] += 1;
            still(library, &twin, before, rng, "other inherit-only entries")?;
        }
    }
    if rng.one_in(4) {
        if let Some((twin, way)) = conditions::twin(q, rng) {
            tally.reached[CONDITIONS_TWIN + way as usize] += 1;
            still(library, &twin, before, rng, "other conditions in strangers' entries")?;
        }
    }
    if rng.one_in(4) {
        if let Some((twin, way)) = trails::twin(q, rng) {
            tally.reached[AUDITS_TWIN + way as usize] += 1;
            still(library, &twin, before, rng, "other entries in its SACLs")?;
            still_tells(library, &twin, way, (before, events), rng)?;
        }
    }
    if rng.one_in(4) {
        if let Some((twin, number, row)) = gained::twin(q, rng) {
            tally.gained[row] += 1;
            gains(library, &twin, before, rng, tally)?;
            gains_events(library, &twin, number, (before, events), rng)?;
        }
    }
    if rng.one_in(4) {
        let file = q.file();
        if file.len() <= LONGEST_FILE {
            let expected = Ok((before, q.kind));
            tally.reached[FILE_TWIN] += 1;
            tally.steps.add_file(&file, &expected);
            same(expected, library.question(&file, rng.u64()))?;
            let events = Ok((before, events.to_vec()));
            tally.trails.add(steps::Door::File, &events);
            trailed_file(library, &file, &events, rng)?;
        }
    }
    Ok(())
}

/// The library says of a twin what it said before, all masks included. This takes no second opinion.
fn still(
    library: &mut Library,
    twin: &Question,
    before: reference::Answer,
    rng: &mut Rng,
    with: &str,
) -> Result<(), String> {
    let said = library.check(twin, rng.u64())?;
    if said == Ok(before) {
        return Ok(());
    }
    Err(format!("library {before:?}, and {said:?} with {with}:{}", lists_of(twin)))
}

/// What the library says of a twin with its trail: whether it is allowed, and the events.
fn tells(
    library: &mut Library,
    twin: &Question,
    rng: &mut Rng,
) -> Result<(Verdict, Vec<[u32; 3]>), String> {
    let room = trails::bound(twin.descriptor.len(), twin.policy.len());
    let said = library.trail_of(twin, room, rng.u64())?;
    let (verdict, trail) =
        said.map_err(|number| format!("library refuses a twin with {number}:{}", lists_of(twin)))?;
    let events = trails::read(&trail).ok_or_else(|| {
        format!("library writes what is no trail, {}:{}", hex::encode(&trail), lists_of(twin))
    })?;
    Ok((verdict, events))
}

/// The library says of a twin with other entries in its SACLs what it said before, and tells the
/// same events, entry numbers aside; these too where no entry was put in or taken out.
fn still_tells(
    library: &mut Library,
    twin: &Question,
    way: trails::Way,
    (before, events): (reference::Answer, &[reference::Event]),
    rng: &mut Rng,
) -> Result<(), String> {
    let (verdict, told) = tells(library, twin, rng)?;
    let numbered = matches!(way, trails::Way::InheritOnly | trails::Way::Spare);
    let short = |[source, entry, mask]: [u32; 3]| [source, u32::from(numbered) * entry, mask];
    let old = events.iter().map(|event| short([event.source, event.entry, event.mask]));
    if verdict == before.verdict() && old.eq(told.iter().map(|&event| short(event))) {
        return Ok(());
    }
    let (before, now) = (short_of(&events), short_of(&told));
    Err(format!("library told {before}, and {verdict:?}, {now} by {way:?}:{}", lists_of(twin)))
}

/// The library tells the events of before, and those of the new rule.
fn gains_events(
    library: &mut Library,
    twin: &Question,
    number: u32,
    (before, events): (reference::Answer, &[reference::Event]),
    rng: &mut Rng,
) -> Result<(), String> {
    let (verdict, told) = tells(library, twin, rng)?;
    let old: Vec<_> = events.iter().map(|event| [event.source, event.entry, event.mask]).collect();
    if gained::keeps_events(number, (before.allowed, &old), (verdict.allowed, &told)) {
        return Ok(());
    }
    let (before, now) = (short_of(&events), short_of(&told));
    Err(format!("library told {before}, and {now} with rule {number} gained:{}", lists_of(twin)))
}

/// The library says of a twin with one rule more what a rule may do. Nor does this take another
/// opinion.
fn gains(
    library: &mut Library,
    twin: &Question,
    before: reference::Answer,
    rng: &mut Rng,
    tally: &mut Tally,
) -> Result<(), String> {
    let said = library.check(twin, rng.u64())?;
    let did = said
        .map_err(|_| "it is refused now")
        .and_then(|after| gained::compared(before, after))
        .map_err(|what| {
            let with = format!("with one rule more, and {what}");
            format!("library {before:?}, and {said:?} {with}:{}", lists_of(twin))
        })?;
    for (times, here) in tally.gained[gained::DID..].iter_mut().zip(did) {
        *times += u64::from(here);
    }
    Ok(())
}

/// The parts of a twin that are its own.
fn lists_of(twin: &Question) -> String {
    let (descriptor, policy) = (hex::encode(&twin.descriptor), hex::encode(&twin.policy));
    format!("\n  descriptor = {descriptor}\n  policy = {policy}")
}

fn lent(result: Result<Vec<u8>, u32>, room: usize) -> Result<Vec<u8>, u32> {
    let mut out = vec![0; room];
    let length = reference::lend(result, &mut out)?;
    out.truncate(length);
    Ok(out)
}

fn same<T: PartialEq + Debug>(expected: Result<T, u32>, said: Said<T>) -> Result<(), String> {
    let said = said?;
    if said == expected {
        Ok(())
    } else {
        Err(format!("library {}, reference {}", short_of(&said), short_of(&expected)))
    }
}

fn short_of(what: &impl Debug) -> String {
    let mut text = format!("{what:?}");
    if text.len() > 2000 {
        text.truncate(2000);
        text.push_str("..");
    }
    text
}

fn tell(case: &Case, seed: u64, number: u64, what: &str) {
    println!("case {number} of seed {seed}: {what}");
    match case {
        Case::Check(q) => {
            println!("  check, kind {}, mask {:#010x}", q.kind, q.mask);
            for (name, part) in [
                ("token", &q.token),
                ("self", &q.self_id),
                ("descriptor", &q.descriptor),
                ("policy", &q.policy),
            ] {
                println!("  {name} = {}", hex::encode(part));
            }
            println!("  ask = {}", hex::encode(&q.file()));
        }
        Case::File(file) => println!("  ask = {}", hex::encode(file)),
        Case::List(record, _) => println!("  record = {}", hex::encode(record)),
        Case::Pack(listing, _) => println!("  listing = {}", hex::encode(listing)),
    }
    println!("  again: compare --seed {seed} --only {number}");
}

impl Tally {
    fn status(&mut self, refusal: Option<&u32>) {
        self.status[refusal.map_or(0, |&number| number as usize)] += 1;
    }

    fn answer(&mut self, expected: &Result<Verdict, u32>) {
        self.status(expected.as_ref().err());
        if let Ok(answer) = expected {
            self.allowed += u64::from(answer.allowed);
            self.partly += u64::from(!answer.allowed && answer.granted != 0);
            self.staged += u64::from(answer.staged);
        }
    }

    fn reach(&mut self, q: &Question, expected: &Result<Verdict, u32>) {
        match *expected {
            Ok(answer) => {
                children::add(q, answer, &mut self.children);
                let seen = spare::seen(q);
                self.reached[0] += u64::from(seen.descriptor);
                self.reached[1] += u64::from(seen.effective);
                self.reached[2] += u64::from(seen.staged);
                self.reached[3] += u64::from(seen.longest > 60_000);
            }
            Err(6) => self.reached[4] += u64::from(spare::refused_by_end_of_sid(q, 6)),
            Err(9) => self.reached[5] += u64::from(spare::refused_by_end_of_sid(q, 9)),
            Err(_) => {}
        }
    }

    /// Adds a question to the table of what it is about.
    fn aimed(&mut self, number: u64, q: &Question, expected: &Result<Verdict, u32>) {
        match (random::about(number), *expected) {
            (Some(About::Crowds(turn)), Ok(answer)) => self.crowds.add(turn, q, answer),
            (Some(About::Decided(turn)), Ok(answer)) => {
                decided::add(turn, q, answer, &mut self.decided);
            }
            (Some(About::Seats(turn)), Ok(answer)) => self.seats.add(turn, q, answer),
            (Some(About::Conditions(turn)), _) => self.conditions.add(turn, q, expected),
            _ => {}
        }
    }

    /// What should have been reached and was not.
    fn unreached(&self) -> Vec<String> {
        let mut all = Vec::new();
        for (_, name) in self.reached.iter().zip(REACHED).filter(|(&times, _)| times == 0) {
            all.push(name.to_string());
        }
        for (times, row) in self.children.iter().zip(children::ROWS) {
            for (_, list) in times.iter().zip(children::COLUMNS).filter(|(&times, _)| times == 0) {
                all.push(format!("decided by entries for S-1-3-4 in {list}: {row}"));
            }
        }
        for (_, name) in self.gained.iter().zip(gained::ROWS).filter(|(&times, _)| times == 0) {
            all.push(format!("asked once more, with a rule gained, {name}"));
        }
        all.extend(self.numbers.unreached());
        all
    }

    /// The same of the cases that have an aim.
    fn aims_unreached(&self) -> Vec<String> {
        let mut all = self.steps.unreached();
        all.extend(self.rooms.unreached());
        all.extend(self.crowds.unreached());
        all.extend(decided::unreached(&self.decided));
        all.extend(self.seats.unreached());
        all.extend(self.words.unreached());
        all.extend(self.conditions.unreached());
        all.extend(self.trails.unreached());
        all
    }

    fn print(&self, seed: u64, count: u64) {
        println!(
            "seed {seed}, {count} cases: {} checks, {} question files, {} records, {} listings",
            self.checks, self.files, self.records, self.listings
        );
        for (number, (times, name)) in self.status.iter().zip(STATUS).enumerate() {
            println!("  status {number:2}  {times:9}  {name}");
        }
        println!(
            "  of the answers: {} allowed, {} granted in part, {} with the staging flag",
            self.allowed, self.partly, self.staged
        );
        for (times, name) in self.reached.iter().zip(REACHED) {
            println!("  {times:9}  {name}");
        }
        let columns = children::COLUMNS.join(", ");
        println!("  accepted, and decided by entries for S-1-3-4 in {columns}:");
        for ([descriptor, effective, staged], name) in self.children.iter().zip(children::ROWS) {
            println!("  {descriptor:9} {effective:9} {staged:9}  {name}");
        }
        println!("  asked once more, with a rule gained:");
        for (times, name) in self.gained.iter().zip(gained::ROWS) {
            println!("  {times:9}  {name}");
        }
        self.steps.print();
        self.numbers.print();
        self.rooms.print();
        self.crowds.print();
        decided::print(&self.decided);
        self.seats.print();
        self.words.print();
        self.conditions.print();
        self.trails.print();
    }
}

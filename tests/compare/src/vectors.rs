//! Checks library and reference against the vector files of a directory.
//!
//! A file holds cases with a blank line between them: `#` lines that give the reason, then `ask`
//! and `line`, with `masks` if the line is an answer and `trail` if that has events, or two of
//! `record`, `listing` and `refused`.

use crate::library::{self, Library};
use crate::trails;
use pirasteh::{Error, Listing, Token};
use pirasteh_cases::hex;
use pirasteh_cases::make::{self, Question};
use pirasteh_reference::{self as reference, Answer};
use std::collections::BTreeMap;
use std::fs;
use std::path::Path;

/// Checks every `.txt` file of the directory. True if there is a case and none fails.
pub fn run(dir: &str) -> bool {
    let mut files = match fs::read_dir(dir) {
        Ok(entries) => entries.flatten().map(|entry| entry.path()).collect::<Vec<_>>(),
        Err(error) => {
            println!("vectors: {dir}: {error}");
            return false;
        }
    };
    files.retain(|path| path.extension().is_some_and(|end| end == "txt"));
    files.sort();
    let (mut cases, mut failures) = (0, 0);
    let library = &mut Library::new();
    for path in &files {
        let (here, failed) = run_file(library, path);
        println!("  {:16} {here:4} cases", path.file_name().unwrap_or_default().to_string_lossy());
        cases += here;
        failures += failed;
    }
    println!("vectors: {cases} cases, {failures} failures");
    cases > 0 && failures == 0
}

fn run_file(library: &mut Library, path: &Path) -> (usize, usize) {
    let text = match fs::read_to_string(path) {
        Ok(text) => text,
        Err(error) => {
            println!("{}: {error}", path.display());
            return (0, 1);
        }
    };
    let (mut cases, mut failures) = (0, 0);
    let mut first_line = 1;
    for block in text.split("\n\n") {
        let reason: Vec<&str> =
            block.lines().filter_map(|line| line.strip_prefix('#')).map(str::trim).collect();
        if block.lines().any(|line| !line.is_empty() && !line.starts_with('#')) {
            cases += 1;
            if let Err(what) = fields(block).and_then(|fields| run_case(library, &fields)) {
                failures += 1;
                println!("FAILED {}:{first_line}: {}", path.display(), reason.join(" "));
                println!("  {what}");
            }
        }
        first_line += block.matches('\n').count() + 2;
    }
    (cases, failures)
}

type Fields<'a> = BTreeMap<&'a str, &'a str>;

fn fields(block: &str) -> Result<Fields<'_>, String> {
    let mut fields = BTreeMap::new();
    for line in block.lines().filter(|line| !line.is_empty() && !line.starts_with('#')) {
        let (name, value) =
            line.split_once('=').ok_or_else(|| format!("no `=` in the line `{line}`"))?;
        if fields.insert(name.trim(), value.trim()).is_some() {
            return Err(format!("`{}` stands twice", name.trim()));
        }
    }
    Ok(fields)
}

fn bytes(text: &str) -> Result<Vec<u8>, String> {
    hex::decode(text).ok_or_else(|| "not hexadecimal".into())
}

fn run_case(library: &mut Library, fields: &Fields) -> Result<(), String> {
    let names: Vec<&str> = fields.keys().copied().collect();
    match names[..] {
        ["ask", "line"] | ["ask", "line", "masks"] | ["ask", "line", "masks", "trail"] => {
            let (line, masks) = (fields["line"], fields.get("masks").copied());
            let masks = match (line.starts_with("refused "), masks) {
                (true, None) => NO_MASKS,
                (false, Some(masks)) => masks,
                _ => return Err("an answer without `masks`, or a refusal with them".into()),
            };
            let trail = bytes(fields.get("trail").copied().unwrap_or_default())?;
            if fields.contains_key("trail") && trail.is_empty() {
                return Err("a `trail` without events".into());
            }
            ask(library, &bytes(fields["ask"])?, line, masks, &trail)
        }
        ["listing", "record"] => {
            convert(library, &bytes(fields["record"])?, &bytes(fields["listing"])?)
        }
        ["record", "refused"] => {
            let record = bytes(fields["record"])?;
            refuse(
                fields["refused"],
                |out| pirasteh::list(Token(&record), out),
                reference::list(&record),
            )?;
            let file = with_token(&record, &[&make::sid(5, &[])]);
            ask(library, &file, &format!("refused {}", fields["refused"]), NO_MASKS, &[])
        }
        ["listing", "refused"] => {
            let listing = bytes(fields["listing"])?;
            refuse(
                fields["refused"],
                |out| pirasteh::pack(Listing(&listing), out),
                reference::pack(&listing),
            )
        }
        _ => Err(format!("a case of {names:?} is not known")),
    }
}

/// Those of a refusal.
const NO_MASKS: &str = "0x00000000 0x00000000 0x00000000 0x00000000";

/// As a vector has them.
fn masks_of(result: &Result<Answer, u32>) -> String {
    reference::masks(result).map(|mask| format!("0x{mask:08x}")).join(" ")
}

/// One question file, through the wrapper, through the functions that tell the masks and that write
/// the trail, and to the reference.
fn ask(
    library: &mut Library,
    file: &[u8],
    line: &str,
    masks: &str,
    trail: &[u8],
) -> Result<(), String> {
    let safe = match pirasteh::question(file) {
        Ok(answer) => answer.to_string(),
        Err(error) => format!("refused {}", error.number()),
    };
    expect("library", &safe, line)?;
    let said = library::why_question(file)?;
    let expected = reference::question_and_kind(file);
    for (who, said) in [("library, with its masks,", said), ("reference", expected)] {
        let answer = said.map(|(answer, _)| answer);
        expect(who, &reference::line(&answer), line)?;
        expect(who, &masks_of(&answer), masks)?;
    }
    // The bits asked and the kind stand in no vector.
    if said != expected {
        return Err(format!("library says {said:x?}, reference {expected:x?}"));
    }
    tell(library, file, trail)
}

/// By this a buffer ends where its room does and is not filled with small numbers, and the wrapper is
/// asked too.
const DICE: u64 = 0x005A_A500_0000_0000;

/// The same with a buffer lent for the trail: of every length from 0 to one more than it needs, but
/// for the longest trails.
fn tell(library: &mut Library, file: &[u8], trail: &[u8]) -> Result<(), String> {
    let events = reference::question_and_events(file);
    let told = trails::told(&events);
    let written = told.as_ref().map_or(&[][..], |(_, trail)| trail);
    expect("reference, with its trail,", &hex::encode(written), &hex::encode(trail))?;
    let needed = trail.len();
    let mut rooms: Vec<usize> = (0..=needed.min(300)).collect();
    if needed > 300 {
        rooms.extend([needed / 2, needed - 1, needed]);
    }
    rooms.push(needed + 1);
    rooms.push(trails::bound(file.len(), 0) + 64);
    for &room in &rooms {
        let mut out = vec![0x5A; room];
        let lent = reference::lend_trail(events.clone(), &mut out);
        if needed > room && lent != Err(reference::refused::SHORT_BUFFER) {
            return Err(format!("reference with a buffer of {room} bytes: {lent:?}"));
        }
    }
    library.trail_question(file, &rooms, &told, DICE)
}

fn expect(who: &str, said: &str, line: &str) -> Result<(), String> {
    if said == line {
        Ok(())
    } else {
        Err(format!("{who} says `{said}`, expected `{line}`"))
    }
}

/// Both ways, and with a buffer that is one byte too short.
fn convert(library: &mut Library, record: &[u8], listing: &[u8]) -> Result<(), String> {
    if reference::list(record).as_deref() != Ok(listing) {
        return Err("reference lists the record otherwise".into());
    }
    if reference::pack(listing).as_deref() != Ok(record) {
        return Err("reference packs the listing otherwise".into());
    }
    converts("lists the record", |out| pirasteh::list(Token(record), out), listing)?;
    converts("packs the listing", |out| pirasteh::pack(Listing(listing), out), record)?;
    let file = with_token(record, &who(listing));
    let expected = reference::question(&file);
    ask(library, &file, &reference::line(&expected), &masks_of(&expected), &[])
}

/// The user of a listing and, if it is confined, its confinement identity.
fn who(listing: &[u8]) -> Vec<&[u8]> {
    let sid = |at: usize| &listing[at..at + 8 + 4 * usize::from(listing[at + 1])];
    let user = sid(12);
    let groups = 12 + user.len();
    let mut at = groups + 4;
    for _ in 0..u16::from_le_bytes([listing[groups], listing[groups + 1]]) {
        at += sid(at).len() + 4;
    }
    if listing[0] & 1 == 0 {
        vec![user]
    } else {
        vec![user, sid(at)]
    }
}

/// The record once more, as the token of a question about an object of the first of these, whose
/// list names them all: there it is refused with the same number, or the answer shows who was read.
fn with_token(record: &[u8], who: &[&[u8]]) -> Vec<u8> {
    let list: Vec<Vec<u8>> = who.iter().map(|sid| make::allow(1, sid)).collect();
    Question {
        kind: 1,
        mask: 1,
        token: record.to_vec(),
        self_id: vec![],
        descriptor: make::Descriptor::owned_by(who[0]).dacl(&make::acl(&list)).bytes(),
        policy: vec![],
    }
    .file()
}

type Conversion<'a> = &'a dyn Fn(&mut [u8]) -> Result<usize, Error>;

fn converts(
    what: &str,
    library: impl Fn(&mut [u8]) -> Result<usize, Error>,
    expected: &[u8],
) -> Result<(), String> {
    let library: Conversion = &library;
    for room in [expected.len(), pirasteh::RECORD_MAX] {
        let mut out = vec![0x5A; room];
        let length = library(&mut out).map_err(|error| format!("library: {what}: {error}"))?;
        if out.get(..length) != Some(expected) || out[length..].iter().any(|&b| b != 0x5A) {
            return Err(format!("library {what} otherwise"));
        }
    }
    let mut out = vec![0x5A; expected.len() - 1];
    match library(&mut out) {
        Err(Error::ShortBuffer) if out.iter().all(|&b| b == 0x5A) => Ok(()),
        other => Err(format!("library {what} into a short buffer: {other:?}")),
    }
}

fn refuse(
    number: &str,
    library: impl Fn(&mut [u8]) -> Result<usize, Error>,
    reference: Result<Vec<u8>, u32>,
) -> Result<(), String> {
    let number: u32 = number.parse().map_err(|_| format!("`{number}` is not a number"))?;
    if reference != Err(number) {
        return Err(format!("reference says {reference:?}, expected refusal {number}"));
    }
    let mut out = vec![0x5A; pirasteh::RECORD_MAX];
    match library(&mut out) {
        Err(error) if error.number() == number && out.iter().all(|&b| b == 0x5A) => Ok(()),
        other => Err(format!("library says {other:?}, expected refusal {number}")),
    }
}

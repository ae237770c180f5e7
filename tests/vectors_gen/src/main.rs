//! Writes the vector files.
//!
//!     vectors DIR..
//!
//! Every case is made by hand, and so is what it expects: no implementation is asked here. The
//! tests of this package hold the reference to the same cases, and the files to what is written.

mod answers;
mod cards;
mod case;
mod descriptors;
mod large;
mod policies;
mod refusals;
mod tokens;

use case::Case;
use std::path::Path;
use std::process::exit;
use std::{env, fs};

/// A file's name, what stands at its head, and its cases.
fn files() -> Vec<(&'static str, &'static str, Vec<Case>)> {
    vec![
        ("cards.txt", "The starred cards of document 01.", cards::cases()),
        (
            "refusals.txt",
            "Each refusal but 11, from both sides, and which of two is given.",
            refusals::cases(),
        ),
        (
            "descriptors.txt",
            "Descriptors at each limit of their shape. TU asks for generic read.",
            descriptors::cases(),
        ),
        (
            "policies.txt",
            "Policies at each limit of their shape, and what rules do.",
            policies::cases(),
        ),
        (
            "answers.txt",
            "Where two readers came apart, or where another system answers otherwise.",
            answers::cases(),
        ),
        (
            "tokens.txt",
            "Conversions. A record beside a listing: each turns into the other, byte for byte.",
            tokens::cases(),
        ),
        ("large.txt", "A few cases that are as large as they get.", large::cases()),
    ]
}

fn text(head: &str, cases: &[Case]) -> String {
    let mut out =
        format!("# {head}\n# Made by hand. U is S-1-5-0-7, W is S-1-5-7, G is S-1-5-32-544.\n");
    for case in cases {
        out.push('\n');
        out.push_str(&case.text());
    }
    out
}

fn main() {
    let dirs: Vec<_> = env::args_os().skip(1).collect();
    if dirs.is_empty() {
        eprintln!("vectors DIR..");
        exit(2);
    }
    for (name, head, cases) in files() {
        let text = text(head, &cases);
        for dir in &dirs {
            let path = Path::new(dir).join(name);
            if let Err(error) = fs::write(&path, &text) {
                eprintln!("{}: {error}", path.display());
                exit(1);
            }
        }
        println!("{name}: {} cases", cases.len());
    }
}

#[cfg(test)]
mod tests {
    use super::*;
    use case::Body;
    use pirasteh_reference as reference;
    use std::collections::{BTreeMap, HashSet};
    use std::ffi::{OsStr, OsString};

    #[test]
    fn the_reference_agrees() {
        let mut wrong = Vec::new();
        for (name, _, cases) in files() {
            for case in &cases {
                let said = match &case.body {
                    Body::Ask { file, line } => asked(file, line),
                    Body::Convert { record, listing } => {
                        let there = reference::list(record);
                        let back = reference::pack(listing);
                        let fine = there.as_ref() == Ok(listing) && back.as_ref() == Ok(record);
                        (!fine).then(|| format!("{there:02x?} and {back:02x?}"))
                    }
                    Body::RefusedRecord { record, number } => {
                        let said = reference::list(record);
                        (said != Err(*number)).then(|| format!("{said:02x?}"))
                    }
                    Body::RefusedListing { listing, number } => {
                        let said = reference::pack(listing);
                        (said != Err(*number)).then(|| format!("{said:02x?}"))
                    }
                };
                if let Some(said) = said {
                    wrong.push(format!("{name}: {}: {said}", case.reason));
                }
            }
        }
        assert!(wrong.is_empty(), "\n{}", wrong.join("\n"));
    }

    /// What the reference says of a question, if that is not what is expected.
    fn asked(file: &[u8], line: &case::Line) -> Option<String> {
        let said = reference::question_and_events(file);
        let (answer, events) = match said {
            Ok((answer, events)) => (Ok(answer), events),
            Err(number) => (Err(number), vec![]),
        };
        let (text, masks) = (reference::line(&answer), reference::masks(&answer));
        let fine = text == line.text
            && masks == line.masks.unwrap_or([0; 4])
            && reference::trail(&events) == line.trail();
        (!fine).then(|| {
            let expected = (&line.masks, &line.events);
            format!("{text}, masks {masks:x?}, events {events:x?}, not {expected:x?}")
        })
    }

    #[test]
    fn each_mask_lies_within_the_one_before() {
        for (name, _, cases) in files() {
            for case in &cases {
                let Body::Ask { line, .. } = &case.body else { continue };
                let Some(masks @ [.., ruled, granted]) = line.masks else {
                    assert!(line.text.starts_with("refused "), "{name}: {}", case.reason);
                    continue;
                };
                let within = masks.windows(2).all(|pair| pair[1] & !pair[0] == 0);
                assert!(within && ruled == granted, "{name}: {}", case.reason);
                let said = format!("granted 0x{granted:08x} ");
                assert!(line.text.starts_with(&said), "{name}: {}", case.reason);
            }
        }
    }

    #[test]
    fn no_two_cases_are_the_same() {
        for (name, _, cases) in files() {
            let (mut reasons, mut bytes) = (HashSet::new(), HashSet::new());
            for case in &cases {
                assert!(reasons.insert(&case.reason), "{name}: {}", case.reason);
                let second = case.text().lines().nth(1).map(str::to_string);
                assert!(bytes.insert(second), "{name}: {}", case.reason);
            }
        }
    }

    #[test]
    fn the_proved_program_counts_them() {
        let file = Path::new(env!("CARGO_MANIFEST_DIR")).join("../../crates/vectors/stdout");
        let counted = fs::read_to_string(file).unwrap_or_default();
        for (name, _, cases) in files() {
            let line = format!("{name}: {} cases, 0 differ", cases.len());
            assert!(counted.lines().any(|l| l == line), "crates/vectors/stdout lacks `{line}`");
        }
    }

    /// The proved program reads a file into a buffer of this length.
    const ROOM: usize = 524_288;

    #[test]
    fn the_proved_program_has_room_for_them() {
        for (name, head, cases) in files() {
            let length = text(head, &cases).len();
            assert!(length < ROOM, "{name} has {length} bytes");
        }
    }

    /// The files of a folder of the repository: the name of each, and its bytes.
    fn in_folder(folder: &str) -> BTreeMap<OsString, Vec<u8>> {
        let dir = Path::new(env!("CARGO_MANIFEST_DIR")).join("../..").join(folder);
        let files = fs::read_dir(dir).into_iter().flatten().flatten();
        files.map(|file| (file.file_name(), fs::read(file.path()).unwrap_or_default())).collect()
    }

    #[test]
    fn the_files_are_these() {
        // The first is for whoever reads them, the second for the proved program.
        for folder in ["tests/vectors", "crates/vectors/data"] {
            let mut written = in_folder(folder);
            for (name, head, cases) in files() {
                let text = text(head, &cases).into_bytes();
                let same = written.remove(OsStr::new(name)) == Some(text);
                assert!(same, "{folder}/{name} is not what `vectors` writes");
            }
            assert!(written.is_empty(), "`vectors` writes no {folder}/{:?}", written.keys());
        }
    }
}

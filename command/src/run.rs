//! Does what the command line asks for, and gives the exit status.

use crate::arguments::{self, Input, Task};
use crate::{stream, text};
use pirasteh::{list_vec, pack_vec, question, trail_question, why_question};
use pirasteh::{Error, Listing, Token, TRAIL_QUESTION_MAX};
use std::ffi::{c_int, OsStr, OsString};
use std::io;
use std::path::Path;

/// Allowed, or converted, or explained.
const YES: c_int = 0;
/// Answered, and not allowed.
const NO: c_int = 1;
/// The command line is wrong, or reading or writing failed.
const FAILED: c_int = 2;
/// Refused.
const REFUSED: c_int = 3;

/// Runs the command line `words`, which is without the program's name.
pub fn run(words: Vec<OsString>) -> c_int {
    match arguments::read(words) {
        Ok(Task::Ask(input)) => with(&input, ask),
        Ok(Task::Why(input)) => with(&input, why),
        Ok(Task::Trail(input)) => with(&input, trail),
        Ok(Task::List(input)) => with(&input, |bytes| convert(list_vec(Token(bytes)))),
        Ok(Task::Pack(input)) => with(&input, |bytes| convert(pack_vec(Listing(bytes)))),
        Ok(Task::Help) => print(text::help().as_bytes(), YES),
        Ok(Task::Version) => print(text::version().as_bytes(), YES),
        Err(wrong) => {
            stream::write_error(&text::wrong(&wrong));
            FAILED
        }
    }
}

/// Reads the input and goes on with its bytes.
fn with(input: &Input, go_on: impl FnOnce(&[u8]) -> c_int) -> c_int {
    let (name, bytes) = match input {
        Input::Standard => (OsStr::new("standard input"), stream::read_input()),
        Input::File(name) => (name.as_os_str(), stream::read_file(Path::new(name))),
    };
    match bytes {
        Ok(bytes) => go_on(&bytes),
        Err(error) => fail(name, &error),
    }
}

fn ask(file: &[u8]) -> c_int {
    match question(file) {
        Ok(answer) => print(format!("{answer}\n").as_bytes(), status(answer.allowed)),
        Err(error) => print(refusal(error).as_bytes(), REFUSED),
    }
}

/// The answer with its masks, and a line for each right that was lost.
fn why(file: &[u8]) -> c_int {
    match why_question(file) {
        Ok(why) => print(text::why(&why).as_bytes(), status(why.allowed)),
        Err(error) => print((refusal(error) + text::NO_MASKS).as_bytes(), REFUSED),
    }
}

/// The answer, and a line for each event. There is room for every trail, so 11 is never given.
fn trail(file: &[u8]) -> c_int {
    let mut room = vec![0; TRAIL_QUESTION_MAX];
    match trail_question(file, &mut room) {
        Ok(traced) => match text::trail(traced.answer, &room[..traced.length]) {
            Ok(lines) => print(lines.as_bytes(), status(traced.answer.allowed)),
            // What the library writes is a trail; should it not be, no part of it is printed.
            Err(no_trail) => fail(OsStr::new("the library"), &io::Error::other(no_trail)),
        },
        Err(error) => print(refusal(error).as_bytes(), REFUSED),
    }
}

/// The exit status of an answered question.
fn status(allowed: bool) -> c_int {
    if allowed {
        YES
    } else {
        NO
    }
}

/// Writes a converted token. A refusal goes to standard error, so that it is never taken for bytes.
fn convert(converted: Result<Vec<u8>, Error>) -> c_int {
    match converted {
        Ok(bytes) => print(&bytes, YES),
        Err(error) => {
            stream::write_error(refusal(error).as_bytes());
            REFUSED
        }
    }
}

fn refusal(error: Error) -> String {
    format!("refused {}\n", error.number())
}

/// Writes to standard output. The status is this one if all was written.
fn print(bytes: &[u8], status: c_int) -> c_int {
    match stream::write_output(bytes) {
        Ok(()) => status,
        Err(error) => fail(OsStr::new("standard output"), &error),
    }
}

fn fail(name: &OsStr, error: &io::Error) -> c_int {
    stream::write_error(&text::failure(name, error));
    FAILED
}

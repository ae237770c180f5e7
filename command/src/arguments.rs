//! Reads the command line.

use std::ffi::{OsStr, OsString};
use std::os::unix::ffi::OsStrExt;

/// What the command line asks for.
#[derive(Debug, PartialEq, Eq)]
pub enum Task {
    /// Answer the question in a file.
    Ask(Input),
    /// The same, and tell where the rights went.
    Why(Input),
    /// Answer the question, and tell the events of its audit trail.
    Trail(Input),
    /// Turn a packed token record into its flat listing.
    List(Input),
    /// Turn a flat listing into its packed token record.
    Pack(Input),
    /// Explain the command.
    Help,
    /// Tell the version.
    Version,
}

/// Where the bytes come from.
#[derive(Debug, PartialEq, Eq)]
pub enum Input {
    /// Standard input, `-`.
    Standard,
    /// A file by its name, which need not be UTF-8.
    File(OsString),
}

/// What is wrong with a command line.
#[derive(Debug, PartialEq, Eq)]
pub enum Wrong {
    /// No subcommand.
    NoSubcommand,
    /// `token` without `list` or `pack`.
    NoConversion,
    /// No file, after these words.
    NoFile(&'static str),
    /// Not a subcommand.
    Subcommand(OsString),
    /// Neither `list` nor `pack`.
    Conversion(OsString),
    /// Not an option.
    Option(OsString),
    /// One word too many.
    Surplus(OsString),
}

/// Reads the words after the program's name.
///
/// A word that begins with `-` is an option, wherever it stands, unless it is `-` itself or stands
/// behind `--`. The first option decides.
pub fn read(words: Vec<OsString>) -> Result<Task, Wrong> {
    let mut operands = Vec::new();
    let mut words = words.into_iter();
    while let Some(word) = words.next() {
        match word.as_bytes() {
            b"--" => operands.extend(words.by_ref()),
            b"--help" | b"-h" => return Ok(Task::Help),
            b"--version" | b"-V" => return Ok(Task::Version),
            [b'-', _, ..] => return Err(Wrong::Option(word)),
            _ => operands.push(word),
        }
    }
    task(operands.into_iter())
}

type Operands = std::vec::IntoIter<OsString>;

fn task(mut operands: Operands) -> Result<Task, Wrong> {
    let subcommand = operands.next().ok_or(Wrong::NoSubcommand)?;
    match subcommand.as_bytes() {
        b"ask" => Ok(Task::Ask(input("ask", operands)?)),
        b"why" => Ok(Task::Why(input("why", operands)?)),
        b"trail" => Ok(Task::Trail(input("trail", operands)?)),
        b"token" => conversion(operands),
        _ => Err(Wrong::Subcommand(subcommand)),
    }
}

fn conversion(mut operands: Operands) -> Result<Task, Wrong> {
    let conversion = operands.next().ok_or(Wrong::NoConversion)?;
    match conversion.as_bytes() {
        b"list" => Ok(Task::List(input("token list", operands)?)),
        b"pack" => Ok(Task::Pack(input("token pack", operands)?)),
        _ => Err(Wrong::Conversion(conversion)),
    }
}

/// The one operand that is left after these words.
fn input(after: &'static str, mut operands: Operands) -> Result<Input, Wrong> {
    let file = operands.next().ok_or(Wrong::NoFile(after))?;
    match operands.next() {
        Some(word) => Err(Wrong::Surplus(word)),
        None if file == OsStr::new("-") => Ok(Input::Standard),
        None => Ok(Input::File(file)),
    }
}

#[cfg(test)]
mod tests {
    use super::{read, Input, Task, Wrong};
    use std::ffi::{OsStr, OsString};
    use std::os::unix::ffi::OsStrExt;

    fn line(words: &str) -> Result<Task, Wrong> {
        read(words.split_whitespace().map(OsString::from).collect())
    }

    fn file(name: &str) -> Input {
        Input::File(name.into())
    }

    #[test]
    fn subcommands() {
        assert_eq!(line("ask c1"), Ok(Task::Ask(file("c1"))));
        assert_eq!(line("why c1"), Ok(Task::Why(file("c1"))));
        assert_eq!(line("trail c1"), Ok(Task::Trail(file("c1"))));
        assert_eq!(line("ask why"), Ok(Task::Ask(file("why"))));
        assert_eq!(line("ask trail"), Ok(Task::Ask(file("trail"))));
        assert_eq!(line("trail why"), Ok(Task::Trail(file("why"))));
        assert_eq!(line("token list TU"), Ok(Task::List(file("TU"))));
        assert_eq!(line("token pack TU"), Ok(Task::Pack(file("TU"))));
    }

    #[test]
    fn dash_is_standard_input() {
        assert_eq!(line("ask -"), Ok(Task::Ask(Input::Standard)));
        assert_eq!(line("why -"), Ok(Task::Why(Input::Standard)));
        assert_eq!(line("trail -"), Ok(Task::Trail(Input::Standard)));
        assert_eq!(line("token list -"), Ok(Task::List(Input::Standard)));
        assert_eq!(line("token pack -- -"), Ok(Task::Pack(Input::Standard)));
        assert_eq!(line("ask ./-"), Ok(Task::Ask(file("./-"))));
    }

    #[test]
    fn help_and_version() {
        for words in
            ["--help", "-h", "ask --help", "why -h", "trail -h", "token -h", "token list c1 --help"]
        {
            assert_eq!(line(words), Ok(Task::Help), "{words}");
        }
        assert_eq!(line("-h -x"), Ok(Task::Help));
        for words in ["--version", "-V", "ask -V", "-V --help"] {
            assert_eq!(line(words), Ok(Task::Version), "{words}");
        }
    }

    #[test]
    fn two_dashes_end_the_options() {
        assert_eq!(line("ask -- --help"), Ok(Task::Ask(file("--help"))));
        assert_eq!(line("ask -- --"), Ok(Task::Ask(file("--"))));
        assert_eq!(line("-- ask -x"), Ok(Task::Ask(file("-x"))));
        assert_eq!(line("why -- -x"), Ok(Task::Why(file("-x"))));
        assert_eq!(line("trail -- -x"), Ok(Task::Trail(file("-x"))));
        assert_eq!(line("token -- list -x"), Ok(Task::List(file("-x"))));
        assert_eq!(line("-- --help"), Err(Wrong::Subcommand("--help".into())));
    }

    #[test]
    fn missing_words() {
        assert_eq!(line(""), Err(Wrong::NoSubcommand));
        assert_eq!(line("--"), Err(Wrong::NoSubcommand));
        assert_eq!(line("ask"), Err(Wrong::NoFile("ask")));
        assert_eq!(line("ask --"), Err(Wrong::NoFile("ask")));
        assert_eq!(line("why"), Err(Wrong::NoFile("why")));
        assert_eq!(line("trail"), Err(Wrong::NoFile("trail")));
        assert_eq!(line("token"), Err(Wrong::NoConversion));
        assert_eq!(line("token list"), Err(Wrong::NoFile("token list")));
        assert_eq!(line("token pack"), Err(Wrong::NoFile("token pack")));
    }

    #[test]
    fn unknown_words() {
        assert_eq!(line("c1"), Err(Wrong::Subcommand("c1".into())));
        assert_eq!(line("-"), Err(Wrong::Subcommand("-".into())));
        assert_eq!(line("ASK c1"), Err(Wrong::Subcommand("ASK".into())));
        assert_eq!(line("token c1"), Err(Wrong::Conversion("c1".into())));
        assert_eq!(line("token lists c1"), Err(Wrong::Conversion("lists".into())));
        assert_eq!(line("ask -x"), Err(Wrong::Option("-x".into())));
        assert_eq!(line("-x --help"), Err(Wrong::Option("-x".into())));
        assert_eq!(line("--help=ask"), Err(Wrong::Option("--help=ask".into())));
    }

    #[test]
    fn surplus_words() {
        assert_eq!(line("ask c1 c2"), Err(Wrong::Surplus("c2".into())));
        assert_eq!(line("ask - -"), Err(Wrong::Surplus("-".into())));
        assert_eq!(line("ask why c1"), Err(Wrong::Surplus("c1".into())));
        assert_eq!(line("why c1 c2"), Err(Wrong::Surplus("c2".into())));
        assert_eq!(line("trail c1 c2"), Err(Wrong::Surplus("c2".into())));
        assert_eq!(line("ask trail c1"), Err(Wrong::Surplus("c1".into())));
        assert_eq!(line("token list TU TU TU"), Err(Wrong::Surplus("TU".into())));
    }

    #[test]
    fn names_need_not_be_text() {
        let name = OsStr::from_bytes(b"\xFF\xFE").to_owned();
        let words = vec!["ask".into(), name.clone()];
        assert_eq!(read(words), Ok(Task::Ask(Input::File(name))));
        assert_eq!(read(vec!["ask".into(), "".into()]), Ok(Task::Ask(file(""))));
        assert_eq!(read(vec!["".into()]), Err(Wrong::Subcommand("".into())));
    }
}

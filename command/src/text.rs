//! What the program says, but for plain answers.

use crate::arguments::Wrong;
use pirasteh::{events, Answer, Error, NoTrail, Why};
use std::ffi::OsStr;
use std::fmt::Write;
use std::io;
use std::os::unix::ffi::OsStrExt;

const USAGE: &str = "usage: pirasteh ask FILE|- | pirasteh why FILE|- | pirasteh trail FILE|- | \
                     pirasteh token list FILE|- | pirasteh token pack FILE|- | pirasteh --help\n";

const HELP: &str = "\
pirasteh: a Windows-style access check; an unproved shell over the proved library

  pirasteh ask FILE         Answers the question in FILE, on standard output, with a line
                            like 'granted 0x00120089 allowed yes staged no' or 'refused 6'.
  pirasteh why FILE         The same line, then the asked rights that are left after normal
                            evaluation, after confinement and after policy, and those that
                            are granted; then for each right that was asked for and is not
                            granted the step that took it, with a line like
                            'lost 0x00000002 write data: confinement'.
  pirasteh trail FILE       The line of 'ask', then the audit trail: for each audit entry
                            that speaks of this question a line like
                            'event source 0 entry 3 mask 0x00010000'. Source 0 is the
                            descriptor and 1 the first rule; entries count from 0.
  pirasteh token list FILE  Turns a packed token record into its flat listing.
  pirasteh token pack FILE  Turns a flat listing into its packed token record. Both write
                            bytes on standard output; a refusal is 'refused 3' on standard
                            error, and nothing on standard output.
  pirasteh --help, -h       Says this.
  pirasteh --version, -V    Says the version.

FILE can be - for standard input. Behind -- no word is an option. At most 65,537 bytes are
read. The file docs/FORMATS.md describes the form of a question file, of a token record and
of a listing. The man page is pirasteh(1).

Exit status:
   0  allowed, or converted
   1  answered, and not allowed
   2  the command line is wrong, or reading or writing failed
   3  refused

Refusals:
";

/// The masks of a refused question, behind its number.
pub const NO_MASKS: &str = "\
normal 0x00000000
confined 0x00000000
policy 0x00000000
granted 0x00000000
";

/// The lines of an answered question: the answer, its masks, and the rights that were lost.
pub fn why(why: &Why) -> String {
    let mut text = format!("{why}\n");
    for lost in why.lost() {
        // Writing to a string does not fail.
        let _ = writeln!(text, "{lost}");
    }
    text
}

/// The lines of an answered question: the answer, and the events of its trail.
pub fn trail(answer: Answer, trail: &[u8]) -> Result<String, NoTrail> {
    let mut text = format!("{answer}\n");
    for event in events(trail) {
        // Writing to a string does not fail.
        let _ = writeln!(text, "{}", event?);
    }
    Ok(text)
}

/// What `--help` prints.
pub fn help() -> String {
    let mut text = String::from(HELP);
    let named = |error: &Error| !matches!(error, Error::Unknown(_));
    for error in (1..).map_while(Error::from_number).take_while(named) {
        // Writing to a string does not fail.
        let _ = writeln!(text, "  {:2}  {}", error.number(), error.meaning());
    }
    text
}

/// What `--version` prints.
pub fn version() -> String {
    let version = env!("CARGO_PKG_VERSION");
    format!("pirasteh {version}\nan unproved shell over the proved library\n")
}

/// One line that says what is wrong with the command line, and one for its use.
pub fn wrong(wrong: &Wrong) -> Vec<u8> {
    let (what, word) = match wrong {
        Wrong::NoSubcommand => ("a subcommand is missing: ask, why, trail or token", None),
        Wrong::NoConversion => ("token: a word is missing: list or pack", None),
        Wrong::NoFile(after) => return usage(format!("{after}: FILE is missing").as_bytes()),
        Wrong::Subcommand(word) => ("unknown subcommand: ", Some(word)),
        Wrong::Conversion(word) => ("token: neither list nor pack: ", Some(word)),
        Wrong::Option(word) => ("unknown option: ", Some(word)),
        Wrong::Surplus(word) => ("one word too many: ", Some(word)),
    };
    usage(&[what.as_bytes(), &word.map_or(Vec::new(), |word| shown(word))].concat())
}

fn usage(what: &[u8]) -> Vec<u8> {
    [b"pirasteh: ", what, b"\n", USAGE.as_bytes()].concat()
}

/// One line that says which file could not be read or written, and why.
pub fn failure(name: &OsStr, error: &io::Error) -> Vec<u8> {
    [b"pirasteh: ", &shown(name)[..], b": ", reason(error).as_bytes(), b"\n"].concat()
}

/// The system's own words, without the number that Rust puts behind them.
fn reason(error: &io::Error) -> String {
    let text = error.to_string();
    let number = error.raw_os_error().map(|number| format!(" (os error {number})"));
    match number.and_then(|number| text.strip_suffix(&number)) {
        Some(words) => words.to_owned(),
        None => text,
    }
}

/// A word from outside, as it is but for control characters, so that it stays on its line. An empty
/// one is shown as the shell writes it.
fn shown(word: &OsStr) -> Vec<u8> {
    if word.is_empty() {
        return b"''".to_vec();
    }
    word.as_bytes().iter().map(|&byte| if byte.is_ascii_control() { b'?' } else { byte }).collect()
}

#[cfg(test)]
mod tests {
    use super::{failure, help, trail, version, why, wrong};
    use super::{Answer, NoTrail, Why, Wrong, NO_MASKS};
    use pirasteh::Kind;
    use std::ffi::OsStr;
    use std::io;

    const WORDS: &str = "an unproved shell over the proved library";

    const NOTHING: Why = Why {
        kind: Kind::Key,
        asked: 0,
        normal: 0,
        confined: 0,
        ruled: 0,
        granted: 0,
        allowed: true,
        staged: false,
    };

    #[test]
    fn a_refused_question_has_the_masks_of_one_that_asks_nothing() {
        let text = why(&NOTHING);
        assert_eq!(text, format!("granted 0x00000000 allowed yes staged no\n{NO_MASKS}"));
    }

    #[test]
    fn every_lost_right_has_a_line() {
        let text = why(&Why { asked: 0x0102_0004, normal: 4, allowed: false, ..NOTHING });
        let lost: Vec<&str> = text.lines().skip(5).collect();
        let expected = [
            "lost 0x00000004 create subkey: confinement",
            "lost 0x00020000 read control: normal evaluation",
            "lost 0x01000000 access system security: normal evaluation",
        ];
        assert_eq!(lost, expected);
        assert!(text.ends_with('\n'));
    }

    #[test]
    fn every_event_has_a_line() {
        let answer = Answer { granted: 1, allowed: true, staged: true };
        let line = "granted 0x00000001 allowed yes staged yes\n";
        assert_eq!(trail(answer, &[]), Ok(line.to_owned()));
        let events = "event source 0 entry 1 mask 0x00000001\n\
                      event source 256 entry 0 mask 0x10000000\n";
        let bytes = [0, 1, 1, 0x80, 2, 0, 0x80, 0x80, 0x80, 0x80, 1];
        assert_eq!(trail(answer, &bytes), Ok(format!("{line}{events}")));
        assert_eq!(trail(answer, &bytes[..10]), Err(NoTrail::CutShort));
    }

    #[test]
    fn help_has_every_refusal() {
        let help = help();
        assert!(help.contains(WORDS));
        assert!(help.contains("\n   1  the kind of object is neither 1 (file) nor 2 (key)\n"));
        assert!(
            help.ends_with("\n  12  the question file is misshapen or longer than 65,536 bytes\n")
        );
    }

    #[test]
    fn version_says_what_is_not_proved() {
        assert!(version().starts_with("pirasteh 0."));
        assert!(version().contains(WORDS));
    }

    #[test]
    fn a_failure_is_one_line_in_the_systems_words() {
        let missing = io::Error::from_raw_os_error(2);
        let said = failure(OsStr::new("a\nb"), &missing);
        assert_eq!(said, b"pirasteh: a?b: No such file or directory\n");
        let other = io::Error::other("something else");
        assert_eq!(failure(OsStr::new("x"), &other), b"pirasteh: x: something else\n");
    }

    #[test]
    fn a_wrong_line_gets_two_lines() {
        for fault in [
            Wrong::NoSubcommand,
            Wrong::NoConversion,
            Wrong::NoFile("ask"),
            Wrong::Subcommand("x\ny".into()),
            Wrong::Conversion("x".into()),
            Wrong::Option("-x".into()),
            Wrong::Surplus("x".into()),
        ] {
            let said = String::from_utf8(wrong(&fault)).expect("text");
            let lines: Vec<&str> = said.lines().collect();
            assert_eq!(lines.len(), 2, "{said}");
            assert!(lines[0].starts_with("pirasteh: "));
            assert!(lines[1].starts_with("usage: pirasteh ask FILE|-"));
        }
    }
}

//! The groups of rows, and which of them are asked for.

use crate::sheet::Sheet;
use crate::{checks, conditions, conversions, trail, why};

pub struct Group {
    pub name: &'static str,
    /// What its rows are about.
    pub about: &'static str,
    pub rows: fn(&mut Sheet),
}

pub const GROUPS: [Group; 11] = [
    Group {
        name: "table",
        about: "no entry names the asker, or the first one does and allows everything",
        rows: checks::table,
    },
    Group {
        name: "small",
        about: "small questions; no entry names the asker, or the last or first one does and \
                allows everything",
        rows: checks::small,
    },
    Group {
        name: "hard",
        about: "no entry names the asker, but all name strangers who share so much with the \
                asker's identities; the key is that of tests/bench/src/key.rs",
        rows: checks::hard,
    },
    Group {
        name: "policy",
        about: "the same in a policy of 262,144 bytes; entries are those of its rules, and the \
                descriptor has 8 beside them, of which the last allows everything",
        rows: checks::policy,
    },
    Group {
        name: "long",
        about: "strangers of fifteen words, who share all but the last with the asker's identities",
        rows: checks::long,
    },
    Group {
        name: "spare",
        about: "no entry names the asker, and each has so many spare bytes behind its SID",
        rows: checks::spare,
    },
    Group {
        name: "owner",
        about: "all entries name S-1-3-4 with these flags, on an object of the asker's if 0x08",
        rows: checks::owner,
    },
    Group {
        name: "conditions",
        about: "callback entries of strangers and of the asker; and one condition of thousands of \
                strangers, in an entry for the asker or as an applies_to, whole and half as long",
        rows: conditions::rows,
    },
    Group {
        name: "why",
        about:
            "pirasteh_why, with the masks of all steps; the last entries name the asker and, if it \
                is confined and there are more than one, the package, and allow everything, or no entry \
                names either",
        rows: why::rows,
    },
    Group {
        name: "trail",
        about: "pirasteh_trail; entries are those of the descriptor's SACL, or of each effective \
                and staged SACL of a rule, and the buffer has room for any trail of such a \
                question, or just for this one; the DACLs have 8 entries, of which the last allows \
                the asker everything",
        rows: trail::rows,
    },
    Group {
        name: "conversions",
        about: "token records to listings and back; their floor is a memcpy of what is written",
        rows: conversions::rows,
    },
];

/// All groups whose names are among the words, or all if there are no words. The error is a word
/// that names none.
pub fn chosen(words: &[String]) -> Result<Vec<&'static Group>, &String> {
    let known = |word: &&String| GROUPS.iter().any(|group| group.name == **word);
    match words.iter().find(|word| !known(word)) {
        Some(word) => Err(word),
        None => Ok(GROUPS.iter().filter(|group| asked(words, group.name)).collect()),
    }
}

fn asked(words: &[String], name: &str) -> bool {
    words.is_empty() || words.iter().any(|word| word == name)
}

#[cfg(test)]
mod tests {
    use super::{chosen, GROUPS};

    fn names(words: &[&str]) -> Result<Vec<&'static str>, String> {
        let words: Vec<String> = words.iter().map(|word| word.to_string()).collect();
        let groups = chosen(&words).map_err(String::clone)?;
        Ok(groups.iter().map(|group| group.name).collect())
    }

    #[test]
    fn words_choose_groups() {
        assert_eq!(names(&[]), Ok(GROUPS.iter().map(|group| group.name).collect()));
        assert_eq!(names(&["hard", "small", "hard"]), Ok(vec!["small", "hard"]));
        assert_eq!(names(&["hard", "harder"]), Err("harder".into()));
    }
}

//! At which of the three steps bits are lost that were asked for: normal evaluation, confinement,
//! the policy. And which refusals came through the functions that tell it.

use pirasteh_reference::Answer;

const MAXIMUM: u32 = 0x0200_0000;
const SYSTEM_SECURITY: u32 = 0x0100_0000;
const WRITE_OWNER: u32 = 0x0008_0000;

/// What has to be reached, for each kind of object and through each function.
const ROWS: [&str; 11] = [
    "bits are lost at normal evaluation alone",
    "bits are lost at confinement alone",
    "bits are lost at the policy alone",
    "bits are lost at each of the three",
    "the maximum is asked, and bits are lost at normal evaluation alone",
    "the maximum is asked, and bits are lost at confinement alone",
    "the maximum is asked, and bits are lost at the policy alone",
    "the maximum is asked, and bits are lost at each of the three",
    "0x01000000 passes normal evaluation and is lost at confinement",
    "0x01000000 is granted, and other bits are lost at normal evaluation and at the policy",
    "0x00080000 passes normal evaluation and is lost at confinement",
];

/// The function through which a question came.
#[derive(Clone, Copy)]
pub enum Door {
    Parts,
    File,
}

/// What the functions are called, and the refusals that each of them gives.
const DOORS: [(&str, &[usize]); 2] = [
    ("pirasteh_why", &[1, 2, 3, 4, 5, 6, 7, 8, 9, 10]),
    ("pirasteh_why_question", &[1, 2, 3, 4, 5, 6, 7, 8, 9, 10, 12]),
];
const KINDS: [&str; 2] = ["file", "key"];

#[derive(Default)]
pub struct Table {
    /// By row, function and kind.
    reached: [[[u64; 2]; 2]; ROWS.len()],
    /// By function and number.
    refused: [[u64; 13]; 2],
}

/// What normal evaluation, confinement and the policy take of the bits asked.
fn lost(answer: &Answer) -> [u32; 3] {
    [
        answer.asked & !answer.normal,
        answer.normal & !answer.confined,
        answer.confined & !answer.ruled,
    ]
}

/// Which rows an answer belongs to.
fn rows(mask: u32, answer: &Answer) -> [bool; ROWS.len()] {
    let [normal, confinement, policy] = lost(answer);
    let (maximum, taken) = (mask & MAXIMUM != 0, lost(answer).map(|bits| bits != 0));
    let steps = [[true, false, false], [false, true, false], [false, false, true], [true; 3]];
    let [first, second, third, all] = steps.map(|these| these == taken);
    [
        first,
        second,
        third,
        all,
        first && maximum,
        second && maximum,
        third && maximum,
        all && maximum,
        confinement & SYSTEM_SECURITY != 0,
        answer.granted & SYSTEM_SECURITY != 0 && normal != 0 && policy != 0,
        confinement & WRITE_OWNER != 0,
    ]
}

impl Table {
    /// Adds a question with this kind and mask, which was answered or refused.
    pub fn add(&mut self, door: Door, kind: u32, mask: u32, said: &Result<Answer, u32>) {
        match said {
            Ok(answer) => {
                for (times, here) in self.reached.iter_mut().zip(rows(mask, answer)) {
                    times[door as usize][kind as usize - 1] += u64::from(here);
                }
            }
            Err(number) => self.refused[door as usize][*number as usize] += 1,
        }
    }

    /// The same of a question file.
    pub fn add_file(&mut self, file: &[u8], said: &Result<(Answer, u32), u32>) {
        let kind = said.map_or(0, |(_, kind)| kind);
        let mask = said.map_or(0, |_| mask_of(file));
        self.add(Door::File, kind, mask, &said.map(|(answer, _)| answer));
    }

    /// What should have been reached and was not.
    pub fn unreached(&self) -> Vec<String> {
        let mut all = Vec::new();
        for (row, doors) in ROWS.iter().zip(&self.reached) {
            for ((door, _), kinds) in DOORS.iter().zip(doors) {
                let none = KINDS.iter().zip(kinds).filter(|(_, &times)| times == 0);
                all.extend(none.map(|(kind, _)| format!("{door}, a {kind}: {row}")));
            }
        }
        for ((door, numbers), refused) in DOORS.iter().zip(&self.refused) {
            let none = numbers.iter().filter(|&&number| refused[number] == 0);
            all.extend(none.map(|number| format!("{door}: refused {number}")));
        }
        all
    }

    pub fn print(&self) {
        let doors = DOORS.map(|(door, _)| door).join(", and the same through ");
        println!("  where bits are lost, for files and keys through {doors}:");
        for (row, doors) in ROWS.iter().zip(&self.reached) {
            let times = doors.as_flattened().iter().map(|times| format!("{times:>7}"));
            println!("  {}  {row}", times.collect::<String>());
        }
        for ((door, numbers), refused) in DOORS.iter().zip(&self.refused) {
            let times = numbers.iter().map(|&number| format!(" {number}: {}", refused[number]));
            println!("  refused by {door},{}", times.collect::<Vec<_>>().join(","));
        }
    }
}

/// The second number of a question file that is not refused with 12.
fn mask_of(file: &[u8]) -> u32 {
    let mut rest = file.iter();
    sevens(&mut rest);
    sevens(&mut rest)
}

fn sevens<'a>(rest: &mut impl Iterator<Item = &'a u8>) -> u32 {
    let (mut number, mut shift) = (0, 0);
    for byte in rest {
        number |= u32::from(byte & 0x7F) << shift;
        shift += 7;
        if byte & 0x80 == 0 {
            break;
        }
    }
    number
}

#[cfg(test)]
mod tests {
    use super::*;

    /// The rows of an answer with these masks.
    fn reached(mask: u32, [asked, normal, confined, ruled]: [u32; 4]) -> Vec<usize> {
        let answer = Answer {
            asked,
            normal,
            confined,
            ruled,
            granted: ruled,
            allowed: false,
            staged: false,
        };
        let rows = rows(mask, &answer);
        (0..ROWS.len()).filter(|&row| rows[row]).collect()
    }

    #[test]
    fn rows_are_told_apart() {
        assert_eq!(reached(7, [7, 7, 7, 7]), [0; 0]);
        assert_eq!(reached(7, [7, 3, 3, 3]), [0]);
        assert_eq!(reached(7, [7, 7, 3, 3]), [1]);
        assert_eq!(reached(7, [7, 7, 7, 3]), [2]);
        assert_eq!(reached(7, [7, 6, 2, 0]), [3]);
        assert_eq!(reached(7, [7, 6, 2, 2]), [0; 0]);
        assert_eq!(reached(MAXIMUM, [7, 6, 2, 0]), [3, 7]);
        assert_eq!(reached(MAXIMUM, [7, 7, 2, 2]), [1, 5]);
        assert_eq!(reached(0x0100_0001, [0x0100_0001, 0x0100_0001, 1, 1]), [1, 8]);
        assert_eq!(reached(0x0100_0003, [0x0100_0003, 0x0100_0001, 0x0100_0001, 0x0100_0000]), [9]);
        assert_eq!(reached(0x8_0000, [0x8_0000, 0x8_0000, 0, 0]), [1, 10]);
    }

    #[test]
    fn the_mask_of_a_file() {
        assert_eq!(mask_of(&[1, 0x80, 0x80, 0x80, 0x80, 8, 8, 1]), 0x8000_0000);
        assert_eq!(mask_of(&[2, 3, 8, 1]), 3);
    }
}

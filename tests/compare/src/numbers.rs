//! Which forms of numbers were reached, behind each door of the number reader.
//!
//! A good number counts where its record or question is accepted, or its file is not refused for
//! its own shape. A bad one counts where it is the only fault: with the number for which a careless
//! reader takes it, the reference does not refuse the same.

mod walk;
pub mod words;

use pirasteh_cases::numbers::{aims, Door, Form, Place, DOORS, FORMS};
use pirasteh_reference::{self as reference, refused};
use walk::{Number, Walk};

/// What a form is called, in the order of `FORMS`, with what its sizes are.
const NAMES: [(&str, &str); 7] = [
    ("good", "bytes"),
    ("good and the last of all", "bytes"),
    ("good, with one bit alone", "as the bit's place"),
    ("with a last byte of 0", "bytes"),
    ("too wide", "bits"),
    ("in too many bytes", "bytes"),
    ("cut off", "bytes"),
];

/// What else has to be reached: a file whose token lacks the end of its last number, and the length
/// behind the token would do for it.
const BEHIND: [&str; 2] = [
    "refused 3, only because a number is missing, for which the length behind the token would do",
    "refused 3, only because a number does not end, which would end in the length behind the token",
];

/// One more than the largest size.
const SIZES: usize = 71;

/// How often each was reached.
pub struct Table {
    times: [[[u64; SIZES]; FORMS.len()]; DOORS.len()],
    behind: [u64; BEHIND.len()],
}

impl Default for Table {
    fn default() -> Table {
        Table { times: [[[0; SIZES]; FORMS.len()]; DOORS.len()], behind: [0; BEHIND.len()] }
    }
}

/// Where the token of a question file is, as far as that goes.
pub fn token_of(file: &[u8]) -> std::ops::Range<usize> {
    Walk::of_file(file).1
}

/// What a door is called.
fn name(door: Door) -> String {
    let place = match door.place {
        Place::Record => "a converted record",
        Place::Token => "a question's token",
        Place::File => "a question file",
    };
    format!("{place}, {} bits", door.bits)
}

impl Table {
    fn count(&mut self, place: Place, bits: u32, form: Form, size: usize) {
        let Some(door) = DOORS.iter().position(|&door| door == Door { place, bits }) else {
            return;
        };
        // Of what is longer than all sizes nobody asks.
        if let Some(times) = self.times[door][form as usize].get_mut(size) {
            *times += 1;
        }
    }

    fn good(&mut self, place: Place, number: &Number, is_last: bool) {
        self.count(place, number.bits, Form::Good, number.length);
        if is_last {
            self.count(place, number.bits, Form::Last, number.length);
        }
        if number.value.is_power_of_two() {
            self.count(place, number.bits, Form::Bit, number.value.trailing_zeros() as usize);
        }
    }

    /// Adds a record that is converted, or the token of a question. Gives the number that alone
    /// made it be refused.
    pub fn record(&mut self, place: Place, record: &[u8], refusal: Option<u32>) -> Option<Number> {
        let numbers = match refusal {
            None | Some(refused::TOKEN_SHAPE) => Walk::of_record(record),
            Some(_) => return None,
        };
        if refusal.is_none() {
            for number in &numbers {
                self.good(place, number, number.end() == record.len());
            }
            return None;
        }
        let number = numbers.into_iter().last()?;
        let (form, size) = number.fault()?;
        // If the privileges are cut off, more than a number is missing.
        let alone = number.bits == 64 && form == Form::Cut
            || reference::list(&number.mended(record)).err() != refusal;
        if alone {
            self.count(place, number.bits, form, size);
        }
        alone.then_some(number)
    }

    /// Adds a question file, and the token in it.
    pub fn file(&mut self, file: &[u8], refusal: Option<u32>) {
        let (numbers, token) = Walk::of_file(file);
        if refusal == Some(refused::FILE_SHAPE) {
            let Some(number) = numbers.last() else { return };
            let Some((form, size)) = number.fault() else { return };
            if reference::question(&number.mended(file)).err() != refusal {
                self.count(Place::File, number.bits, form, size);
            }
            return;
        }
        for number in &numbers {
            self.good(Place::File, number, number.end() == file.len());
        }
        let Some(cut) = self.record(Place::Token, &file[token.clone()], refusal) else { return };
        let goes_on = Number::read(file, token.start + cut.at, cut.bits);
        if cut.end() == token.len() && cut.bits != 64 && goes_on.fault().is_none() {
            self.behind[usize::from(cut.length > 0)] += 1;
        }
    }

    /// What should have been reached and was not.
    pub fn unreached(&self) -> Vec<String> {
        let mut all = Vec::new();
        for aim in aims() {
            let (form, of) = NAMES[aim.form as usize];
            let door = DOORS.iter().position(|&door| door == aim.door).unwrap_or_default();
            if self.times[door][aim.form as usize][aim.size] == 0 {
                all.push(format!("a number in {}: {form}, {} {of}", name(aim.door), aim.size));
            }
        }
        for (_, name) in self.behind.iter().zip(BEHIND).filter(|(&times, _)| times == 0) {
            all.push(name.to_string());
        }
        all
    }

    /// For each form and door, how often the size was reached that was reached least.
    pub fn print(&self) {
        for (times, name) in self.behind.iter().zip(BEHIND) {
            println!("  {times:9}  {name}");
        }
        println!(
            "  numbers of 32, 48 and 64 bits in a converted record, the same in a question's token, \
             of 32 bits in a question file; of all sizes the one reached least:"
        );
        for (form, (name, _)) in FORMS.into_iter().zip(NAMES) {
            let least = DOORS.iter().zip(&self.times).map(|(door, times)| {
                let least = door.sizes(form).map(|size| times[form as usize][size]).min();
                format!("{:>7}", least.map_or("-".to_string(), |times| times.to_string()))
            });
            println!("  {}  {name}", least.collect::<String>());
        }
    }
}

#[cfg(test)]
mod tests;

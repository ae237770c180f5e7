//! Which words of identities were reached that take five bytes, or nearly do.

use super::walk::{Number, Walk};
use pirasteh_cases::numbers;
use pirasteh_cases::numbers::words::{aims, Aim, Form, GOOD};
use pirasteh_reference::{self as reference, refused};

/// How often each aim was reached.
pub struct Table(Vec<u64>);

impl Default for Table {
    fn default() -> Table {
        Table(vec![0; aims().len()])
    }
}

impl Table {
    fn count(&mut self, number: &Number, form: Form) {
        let Some((place, length)) = number.word else { return };
        if let Some(at) = aims().iter().position(|&aim| aim == Aim { place, length, form }) {
            self.0[at] += 1;
        }
    }

    fn good(&mut self, record: &[u8], form: fn(u32) -> Form) {
        for number in Walk::of_record(record) {
            if number.word.is_some() && GOOD.contains(&(number.value as u32)) {
                self.count(&number, form(number.value as u32));
            }
        }
    }

    /// Adds a record that is listed.
    pub fn listed(&mut self, record: &[u8], refusal: Option<u32>) {
        match refusal {
            None => self.good(record, Form::Listed),
            Some(refused::TOKEN_SHAPE) => self.bad(record),
            Some(_) => {}
        }
    }

    /// Adds the record that a listing was packed to.
    pub fn packed(&mut self, record: &[u8]) {
        self.good(record, Form::Packed);
    }

    /// A word that is cut off may not be all that is missing.
    fn bad(&mut self, record: &[u8]) {
        let Some(number) = Walk::of_record(record).pop() else { return };
        let alone = || reference::list(&number.mended(record)).is_ok();
        let form = match number.fault() {
            Some((numbers::Form::Cut, length)) => Form::Cut(length),
            Some((numbers::Form::Wide, 33)) if alone() => Form::Wide,
            Some((numbers::Form::Long, 5)) if alone() => Form::Long,
            _ => return,
        };
        self.count(&number, form);
    }

    /// What should have been reached and was not.
    pub fn unreached(&self) -> Vec<String> {
        let none = aims().into_iter().zip(&self.0).filter(|(_, &times)| times == 0);
        none.map(|(aim, _)| format!("a word of an identity: {aim:?}")).collect()
    }

    pub fn print(&self) {
        let least = self.0.iter().min().copied().unwrap_or_default();
        println!("  {least:9}  words of about five bytes, in each place, the least of all");
    }
}

#[cfg(test)]
mod tests {
    use super::*;
    use pirasteh_cases::random::{about, case, About, Case};

    #[test]
    fn all_are_reached_by_the_cases_about_them() {
        let mut table = Table::default();
        let is_about = |&number: &u64| matches!(about(number), Some(About::Words(_)));
        for number in (0..).filter(is_about).take(2 * aims().len()) {
            match case(3, number) {
                Case::List(record, _) => table.listed(&record, reference::list(&record).err()),
                Case::Pack(listing, _) => {
                    table.packed(&reference::pack(&listing).unwrap_or_default());
                }
                _ => panic!("case {number} is no conversion"),
            }
        }
        assert_eq!(table.unreached(), [""; 0]);
    }
}

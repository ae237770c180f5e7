//! Which records and listings were reached that have just the lengths by which a room is chosen.

use crate::numbers::token_of;
use pirasteh_cases::rooms::{aims, Aim, Door, Lent, Shape, DOORS, LENT, LISTINGS, RECORDS, SHAPES};
use pirasteh_reference::{self as reference, refused};

const SHAPE_NAMES: [&str; 4] = ["good", "cut off", "with more behind it", "breaking a token rule"];

type Records = [[[[u64; DOORS.len()]; RECORDS.len()]; 2]; SHAPES.len()];
type Listings = [[[[u64; LENT.len()]; LISTINGS.len()]; 2]; SHAPES.len()];

/// How often each was reached.
#[derive(Default)]
pub struct Table {
    records: Records,
    listings: Listings,
}

/// What the token of a record is, of which this was said. One that is cut off would do with one
/// byte more, and one that has a byte too many without it.
fn shape_of_record(record: &[u8], refusal: Option<u32>) -> Option<Shape> {
    match refusal {
        None | Some(refused::SHORT_BUFFER) => Some(Shape::Good),
        Some(refused::TOKEN_RULE) => Some(Shape::Rule),
        Some(refused::TOKEN_SHAPE) => {
            let extra = reference::list(&record[..record.len() - 1]).is_ok();
            let cut = || reference::list(&[record, &[1]].concat()).is_ok();
            extra.then_some(Shape::Extra).or_else(|| cut().then_some(Shape::Cut))
        }
        Some(_) => None,
    }
}

/// The same of a listing. If it ends between two words, so many bytes are missing or too many;
/// otherwise a whole word.
fn shape_of_listing(listing: &[u8], refusal: Option<u32>) -> Option<Shape> {
    match refusal {
        None | Some(refused::SHORT_BUFFER) => Some(Shape::Good),
        Some(refused::TOKEN_RULE) => Some(Shape::Rule),
        Some(refused::TOKEN_SHAPE) => {
            let over = (listing.len() + 3) % 4 + 1;
            let missing = 4 - listing.len() % 4;
            let extra = reference::pack(&listing[..listing.len() - over]).is_ok();
            let cut = || reference::pack(&[listing, &vec![0; missing]].concat()).is_ok();
            extra.then_some(Shape::Extra).or_else(|| cut().then_some(Shape::Cut))
        }
        Some(_) => None,
    }
}

fn is_small(record: &[u8]) -> bool {
    record.iter().all(|&byte| byte < 0x80)
}

/// Whether all numbers of a listing would take one byte each, as far as its words go: as numbers,
/// or as the two words of an identity before its own.
fn is_small_listing(listing: &[u8]) -> bool {
    listing
        .chunks_exact(4)
        .all(|word| matches!(word, [0..=0x7F, 0, 0, 0] | [1, 0..=15, 0, 0] | [0, 0, 0, 0..=0x7F]))
}

/// How long the buffer is in bytes.
fn room_of(lent: Lent, listing: usize, record: usize) -> usize {
    match lent {
        Lent::OneShort => record.saturating_sub(1),
        Lent::Exact => record,
        Lent::TwiceLess2 => 2 * listing - 2,
        Lent::TwiceLess1 => 2 * listing - 1,
        Lent::Twice => 2 * listing,
        Lent::TwiceMore1 => 2 * listing + 1,
    }
}

impl Table {
    /// Adds the record of a question, or one that was converted into a buffer.
    pub fn record(&mut self, record: &[u8], door: Door, refusal: Option<u32>) {
        let Some(length) = RECORDS.iter().position(|&length| length == record.len()) else {
            return;
        };
        if let Some(shape) = shape_of_record(record, refusal) {
            let small = usize::from(is_small(record));
            self.records[shape as usize][small][length][door as usize] += 1;
        }
    }

    /// Adds the token of a question file.
    pub fn file(&mut self, file: &[u8], refusal: Option<u32>) {
        if refusal != Some(refused::FILE_SHAPE) {
            self.record(&file[token_of(file)], Door::File, refusal);
        }
    }

    /// Adds a record that was converted into a buffer of so many bytes.
    pub fn converted(&mut self, record: &[u8], room: usize, said: &Result<Vec<u8>, u32>) {
        let door = match said {
            Ok(listing) if listing.len() == room => Door::Enough,
            Ok(_) => return,
            Err(refused::SHORT_BUFFER) => Door::Short,
            Err(_) if room < 64 => Door::Short,
            Err(_) => Door::Enough,
        };
        self.record(record, door, said.as_ref().err().copied());
    }

    /// Adds a listing that was converted into a buffer of so many bytes.
    pub fn listing(&mut self, listing: &[u8], room: usize, said: &Result<Vec<u8>, u32>) {
        // One that is spoiled by a byte has the length next to it.
        let near = (listing.len() + 1) / 4 * 4;
        let Some(length) = LISTINGS.iter().position(|&length| length == near) else { return };
        let Some(shape) = shape_of_listing(listing, said.as_ref().err().copied()) else { return };
        let record = reference::pack(listing).map_or(0, |record| record.len());
        let small = usize::from(is_small_listing(listing));
        for lent in LENT.into_iter().filter(|lent| lent.fits(shape)) {
            if room == room_of(lent, listing.len(), record) {
                self.listings[shape as usize][small][length][lent as usize] += 1;
            }
        }
    }

    /// What should have been reached and was not.
    pub fn unreached(&self) -> Vec<String> {
        let missing = aims().into_iter().filter(|&aim| self.times(aim) == 0);
        missing.map(|aim| format!("{aim:?}")).collect()
    }

    fn times(&self, aim: Aim) -> u64 {
        let place = |all: &[usize], length| all.iter().position(|&one| one == length);
        match aim {
            Aim::Record { length, shape, small, door } => {
                let length = place(&RECORDS, length).unwrap_or_default();
                self.records[shape as usize][usize::from(small)][length][door as usize]
            }
            Aim::Listing { length, shape, small, lent } => {
                let length = place(&LISTINGS, length).unwrap_or_default();
                self.listings[shape as usize][usize::from(small)][length][lent as usize]
            }
        }
    }

    /// For each shape, how often the length and the door were reached that were reached least.
    pub fn print(&self) {
        println!(
            "  records of {RECORDS:?} bytes in a check, in a file, converted with room and without, \
             and listings of about {LISTINGS:?} bytes; the least of all lengths and buffers:"
        );
        for (shape, name) in SHAPES.into_iter().zip(SHAPE_NAMES) {
            for (small, numbers) in
                [(false, "numbers of any length"), (true, "numbers of one byte")]
            {
                let least = self.least(shape, small).map(|times| format!("{times:>7}")).concat();
                println!("  {least}  {name}, {numbers}");
            }
        }
    }

    /// The least of each door, and of the listings.
    fn least(&self, shape: Shape, small: bool) -> [u64; 5] {
        let mut least = [u64::MAX; 5];
        for aim in aims() {
            let (place, of) = match aim {
                Aim::Record { shape, small, door, .. } => (door as usize, (shape, small)),
                Aim::Listing { shape, small, .. } => (4, (shape, small)),
            };
            if of == (shape, small) {
                least[place] = least[place].min(self.times(aim));
            }
        }
        least
    }
}

#[cfg(test)]
mod tests {
    use super::*;
    use pirasteh_cases::make::{sid, Token};

    fn shapes(token: &Token) -> [Option<Shape>; 2] {
        let (record, listing) = (token.record(), token.listing());
        let of_record = shape_of_record(&record, reference::list(&record).err());
        [of_record, shape_of_listing(&listing, reference::pack(&listing).err())]
    }

    #[test]
    fn shapes_are_told_apart() {
        let token = Token::of(&sid(5, &[7])).group(&sid(5, &[8]), 4);
        assert_eq!(shapes(&token), [Some(Shape::Good); 2]);
        assert_eq!(shapes(&token.clone().exempt()), [Some(Shape::Rule); 2]);
        let shape = |record: &[u8]| shape_of_record(record, reference::list(record).err());
        let record = token.record();
        assert_eq!(shape(&record[..record.len() - 1]), Some(Shape::Cut));
        assert_eq!(shape(&[&record[..], &[9]].concat()), Some(Shape::Extra));
        assert_eq!(shape(&record[..record.len() - 2]), None);
        let shape = |listing: &[u8]| shape_of_listing(listing, reference::pack(listing).err());
        let listing = token.listing();
        for less in [1, 4] {
            assert_eq!(shape(&listing[..listing.len() - less]), Some(Shape::Cut));
            assert_eq!(shape(&[&listing[..], &vec![0; less]].concat()), Some(Shape::Extra));
        }
        assert!(is_small_listing(&listing));
        assert!(!is_small_listing(&token.privileges(0x80).listing()));
    }
}

//! The token of a packed record, decoded once into its flat listing.

use super::{is_virtual, ALL_RESTRICTED};
use std::mem::MaybeUninit;

pub const LISTING_MAX: usize = 22_940;
pub const RECORD_MAX: usize = 28_021;
pub const MOST_NORMAL: usize = 1 + 256;
pub const MOST_CONFINED: usize = 1 + 64;
const MOST_IDENTITIES: usize = MOST_NORMAL + MOST_CONFINED;

/// Up to N things on the stack, filled from the front. N is as many as well-shaped input can
/// have.
pub struct Stack<T: Copy, const N: usize> {
    items: [MaybeUninit<T>; N],
    length: usize,
}

impl<T: Copy, const N: usize> Stack<T, N> {
    #[inline]
    pub fn new() -> Self {
        Stack { items: [MaybeUninit::uninit(); N], length: 0 }
    }

    #[inline]
    pub fn push(&mut self, item: T) {
        self.items[self.length] = MaybeUninit::new(item);
        self.length += 1;
    }

    #[inline]
    pub fn extend(&mut self, part: &[T]) {
        assert!(part.len() <= N - self.length);
        // SAFETY: there is room, and a T has the layout of its uninitialised twin.
        unsafe {
            let to = self.items.as_mut_ptr().add(self.length).cast::<T>();
            to.copy_from_nonoverlapping(part.as_ptr(), part.len());
        }
        self.length += part.len();
    }

    #[inline]
    pub fn items(&self) -> &[T] {
        // SAFETY: the first `length` items have been written.
        unsafe { std::slice::from_raw_parts(self.items.as_ptr().cast::<T>(), self.length) }
    }
}

/// Where an identity stands in the listing, and for what it counts.
#[derive(Clone, Copy)]
struct Place {
    at: u16,
    length: u8,
    allow: bool,
    deny: bool,
}

/// A decoded token: its flat listing, and the places of the identities in it.
pub struct Token {
    pub listing: Stack<u8, LISTING_MAX>,
    places: Stack<Place, MOST_IDENTITIES>,
    /// Of these, the user and the groups.
    normal: usize,
    pub flags: u32,
    pub privileges: u64,
    breaks_rule: bool,
    has_all_restricted: bool,
}

/// A number in sevens from `at` on, and where the next one starts.
#[inline]
fn sevens(bytes: &[u8], at: usize, bits: u32) -> Option<(u64, usize)> {
    let first = *bytes.get(at)?;
    if first < 0x80 {
        return Some((u64::from(first), at + 1));
    }
    let mut value = u64::from(first & 0x7F);
    let mut shift = 7;
    let mut at = at + 1;
    loop {
        let byte = *bytes.get(at)?;
        let group = u64::from(byte & 0x7F);
        if shift >= bits || (bits - shift < 7 && group >> (bits - shift) != 0) {
            return None;
        }
        value |= group << shift;
        at += 1;
        if byte < 0x80 {
            return (byte != 0).then_some((value, at));
        }
        shift += 7;
    }
}

impl Token {
    #[inline]
    pub fn new() -> Token {
        Token {
            listing: Stack::new(),
            places: Stack::new(),
            normal: 0,
            flags: 0,
            privileges: 0,
            breaks_rule: false,
            has_all_restricted: false,
        }
    }

    #[inline]
    fn place(&mut self, at: usize, length: usize, allow: bool, deny: bool) {
        self.places.push(Place { at: at as u16, length: length as u8, allow, deny });
    }

    /// The user and the groups, each with whether it counts for allow and for deny.
    pub fn normal(&self) -> impl Iterator<Item = (&[u8], bool, bool)> {
        self.placed(&self.places.items()[..self.normal])
    }

    /// The confinement identity and the capabilities.
    pub fn confined(&self) -> impl Iterator<Item = (&[u8], bool, bool)> {
        self.placed(&self.places.items()[self.normal..])
    }

    fn placed<'a>(&'a self, places: &'a [Place]) -> impl Iterator<Item = (&'a [u8], bool, bool)> {
        let bytes = self.listing.items();
        places.iter().map(move |place| {
            let at = usize::from(place.at);
            (&bytes[at..at + usize::from(place.length)], place.allow, place.deny)
        })
    }

    /// An identity from the record to the listing.
    #[inline]
    fn identity(&mut self, record: &[u8], at: usize) -> Option<(usize, usize, usize)> {
        let (count, at) = sevens(record, at, 32)?;
        if count > 15 {
            return None;
        }
        let (authority, mut at) = sevens(record, at, 48)?;
        let start = self.listing.length;
        let mut head = authority.to_be_bytes();
        head[0] = 1;
        head[1] = count as u8;
        self.listing.extend(&head);
        for _ in 0..count {
            let (word, next) = sevens(record, at, 32)?;
            self.listing.extend(&(word as u32).to_le_bytes());
            at = next;
        }
        let length = self.listing.length - start;
        if length == 12 {
            self.breaks_rule |= is_virtual(&self.listing.items()[start..]);
        }
        Some((start, length, at))
    }

    pub fn read(&mut self, record: &[u8]) -> Option<()> {
        let (version, at) = sevens(record, 0, 32)?;
        let (flags, at) = sevens(record, at, 32)?;
        if version != 1 || flags > 3 {
            return None;
        }
        let (privileges, at) = sevens(record, at, 64)?;
        self.flags = flags as u32;
        self.privileges = privileges;
        self.listing.extend(&self.flags.to_le_bytes());
        self.listing.extend(&privileges.to_le_bytes());

        let (start, length, at) = self.identity(record, at)?;
        self.place(start, length, true, true);
        let (groups, mut at) = sevens(record, at, 32)?;
        if groups > 256 {
            return None;
        }
        self.listing.extend(&(groups as u32).to_le_bytes());
        for _ in 0..groups {
            let (start, length, next) = self.identity(record, at)?;
            let (attributes, next) = sevens(record, next, 32)?;
            at = next;
            self.listing.extend(&(attributes as u32).to_le_bytes());
            let allow = attributes & 0x14 == 0x4;
            let deny = attributes & 0x14 != 0;
            self.place(start, length, allow, deny);
        }
        self.normal = self.places.length;

        if flags & 1 != 0 {
            let (start, length, next) = self.identity(record, at)?;
            self.place(start, length, true, true);
            let (count, next) = sevens(record, next, 32)?;
            at = next;
            if count > 64 {
                return None;
            }
            self.listing.extend(&(count as u32).to_le_bytes());
            for _ in 0..count {
                let (start, length, next) = self.identity(record, at)?;
                at = next;
                self.place(start, length, true, true);
                if length == 16 {
                    self.has_all_restricted |= self.listing.items()[start..] == ALL_RESTRICTED;
                }
            }
        }
        (at == record.len()).then_some(())
    }

    pub fn keeps_the_rules(&self) -> bool {
        !self.breaks_rule && self.flags != 2 && (self.flags & 1 == 0 || self.has_all_restricted)
    }
}

//! Both converters, on records of different sizes of numbers.

use crate::plain;
use crate::sheet::{heading, Sheet};
use crate::timing::{keep, timed};
use pirasteh::{Listing, Token};
use pirasteh_cases::make::{self, sid};
use std::hint::black_box;
use std::process::exit;

/// A token that is timed, as record and listing.
struct Input {
    name: &'static str,
    record: Vec<u8>,
    listing: Vec<u8>,
}

impl Input {
    fn of(name: &'static str, token: &make::Token) -> Input {
        Input { name, record: token.record(), listing: token.listing() }
    }
}

/// A user and groups that count for allow and deny, made from their numbers.
fn crowd(groups: u32, identity: impl Fn(u32) -> Vec<u8>) -> make::Token {
    (1..=groups).fold(make::Token::of(&identity(0)), |token, i| token.group(&identity(i), 7))
}

/// No number of it takes more than one byte, but for the count of 256 groups.
fn one_byte(groups: u32) -> make::Token {
    crowd(groups, |i| sid(5, &[21, 1, 2, i / 128, i % 128]))
}

/// A user and 20 groups of one domain: three long words, a number of two bytes at the end, and
/// the rest of one.
fn usual() -> make::Token {
    crowd(20, |i| sid(5, &[21, 1_004_336_348, 2_177_238_915, 182_003_330, 1_000 + i]))
}

/// The largest token that keeps the rules: all numbers as long as they get.
fn largest() -> make::Token {
    let long = sid(0xFFFF_FFFF_FFFF, &[u32::MAX; 15]);
    let mut token = make::Token::of(&long).privileges(u64::MAX);
    token.groups = vec![(long.clone(), u32::MAX); 256];
    token.flags = 1;
    let mut capabilities = vec![long.clone(); 64];
    capabilities[63] = sid(15, &[2, 2]);
    token.confinement = Some((long, capabilities));
    token
}

pub fn rows(sheet: &mut Sheet) {
    heading("conversion");
    for input in [
        Input::of("usual, 20 groups", &usual()),
        Input::of("one-byte numbers, 20 groups", &one_byte(20)),
        Input::of("one-byte numbers, 256 groups", &one_byte(256)),
        Input::of("largest", &largest()),
    ] {
        same(&input);
        list(sheet, &input);
        pack(sheet, &input);
    }
}

/// Both give what was made, in buffers that it just fits.
fn same(Input { name, record, listing }: &Input) {
    let [mut listed, mut other] = [(); 2].map(|()| vec![0; listing.len()]);
    let there = (pirasteh::list(Token(record), &mut listed), plain::list(record, &mut other));
    let [mut packed, mut another] = [(); 2].map(|()| vec![0; record.len()]);
    let back = (pirasteh::pack(Listing(listing), &mut packed), plain::pack(listing, &mut another));
    if there != (Ok(listing.len()), Ok(listing.len()))
        || back != (Ok(record.len()), Ok(record.len()))
        || [&listed, &other] != [listing; 2]
        || [&packed, &another] != [record; 2]
    {
        println!("conversions differ: {name}");
        exit(1);
    }
}

fn list(sheet: &mut Sheet, Input { name, record, listing }: &Input) {
    let [mut out, mut other, mut third] = [(); 3].map(|()| vec![0; listing.len()]);
    row(
        sheet,
        &format!("list, {name}: {} to {} bytes", record.len(), listing.len()),
        [
            &mut || keep(pirasteh::list(Token(black_box(record)), &mut out)),
            &mut || keep(plain::list(black_box(record), &mut other)),
            &mut || third.copy_from_slice(black_box(listing)),
        ],
    );
}

fn pack(sheet: &mut Sheet, Input { name, record, listing }: &Input) {
    let [mut out, mut other, mut third] = [(); 3].map(|()| vec![0; record.len()]);
    row(
        sheet,
        &format!("pack, {name}: {} to {} bytes", listing.len(), record.len()),
        [
            &mut || keep(pirasteh::pack(Listing(black_box(listing)), &mut out)),
            &mut || keep(plain::pack(black_box(listing), &mut other)),
            &mut || third.copy_from_slice(black_box(record)),
        ],
    );
}

/// The library, the plain implementation, and a bare copy of what comes out.
fn row(sheet: &mut Sheet, what: &str, candidates: [&mut dyn FnMut(); 3]) {
    sheet.row(what, what, timed(candidates));
}

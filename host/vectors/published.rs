//! What the module `of_converter` of the crate `vectors` must write: both conversions on the inputs of BitEncoding's own test, which are
//! java.util.Random's bytes, and on cases for each refusal.

use harness::conversion::{convert, Converted, Way};
use harness::forms::marked;
use std::path::Path;

/// Room for whatever is converted.
const ROOM: usize = 1 << 16;
/// The area of the cases, and what it holds before.
const AREA: usize = 9;
const PATTERN: u16 = 0xee;

pub fn write(file: &Path) {
    let short = (0..=100).map(|length| tally(length, 100) + &units(&old_form(length, 1).units) + "\n");
    let long = [1000, 32_000, 33_000].map(|length| tally(length, 3) + "\n");
    let lines: String = short.chain(long).chain(cases().iter().map(|d1| both(d1))).collect();
    std::fs::write(file, lines).expect("a file written");
}

/// The bytes that java.util.Random gives for a seed, by its documentation: each step of 48 bits gives 32, the lowest byte first.
fn random_bytes(length: usize, seed: u64) -> Vec<u8> {
    const FACTOR: u64 = 0x5_DEEC_E66D;
    const BITS: u64 = (1 << 48) - 1;
    let mut state = (seed ^ FACTOR) & BITS;
    let mut bytes = Vec::new();
    while bytes.len() < length {
        state = (u128::from(state) * u128::from(FACTOR) + 11) as u64 & BITS;
        bytes.extend(((state >> 16) as u32).to_le_bytes());
    }
    bytes.truncate(length);
    bytes
}

fn old_form(length: usize, seed: u64) -> Converted {
    convert(Way::NewToOld, &marked(&random_bytes(length, seed)), ROOM)
}

/// How many bytes, how many inputs are converted, how many of these come back, and a checksum of the old units.
fn tally(length: usize, seeds: u64) -> String {
    let (mut converted, mut back, mut sum) = (0, 0, 0u32);
    for seed in 1..=seeds {
        let old = old_form(length, seed);
        if old.number == 0 {
            converted += 1;
            let again = convert(Way::OldToNew, &old.units, ROOM);
            back += usize::from(again.units == marked(&random_bytes(length, seed)));
            sum = old.units.iter().fold(sum, |sum, unit| sum.wrapping_mul(31).wrapping_add(u32::from(*unit)));
        }
    }
    numbers(&[length as u64, converted, back as u64, u64::from(sum >> 16), u64::from(sum & 0xffff)])
}

fn cases() -> Vec<Vec<u16>> {
    vec![
        vec![],
        vec![0],
        vec![5],
        vec![0x12c, 1],
        vec![1, 0x400, 0xffff],
        vec![0, 0x7f, 0x100],
        vec![0x100],
        vec![2, 5, 0xd, 0x21, 0x51, 0x41, 0x42, 4],
        vec![1, 2, 3, 0x7f, 0x80, 0xff, 0x40, 0x55],
        vec![1, 0, 0, 0, 0, 0, 0, 0, 0],
        vec![0, 0x7f],
        vec![0, 0xff, 0xff],
        vec![0, 1, 2, 3, 4, 5, 6, 7],
        vec![0, 1, 2, 3, 4, 5, 6, 7, 8],
        vec![1; 32_768],
        vec![0; 32_769],
    ]
}

/// Number, detail, length and the whole area, of both conversions.
fn both(d1: &[u16]) -> String {
    let one = |way| {
        let given = convert(way, d1, AREA);
        let mut area = given.units.clone();
        area.resize(AREA, PATTERN);
        numbers(&given.answer()) + &units(&area)
    };
    one(Way::OldToNew) + &one(Way::NewToOld) + "\n"
}

fn numbers(list: &[u64]) -> String {
    list.iter().map(|number| format!(" {number:04x}")).collect()
}

fn units(list: &[u16]) -> String {
    list.iter().fold(" ".to_string(), |text, unit| text + &format!("{unit:02x}"))
}

//! Inputs whose d1 is converted: all short ones first, then the real classes, then made ones of every length, by their number.

use crate::corpus;
use crate::forms::{is_old, marked, packed};
use crate::input::{units, Input};
use crate::limits::UNITS;
use crate::made;
use crate::random::Random;

/// Units that mean something to one form or the other, and their neighbours.
#[rustfmt::skip]
const VALUES: [u16; 24] = [
    0, 1, 2, 3, 0x3f, 0x40, 0x41, 0x7e, 0x7f, 0x80, 0x81, 0xbf, 0xc0, 0xfe, 0xff, 0x100, 0x101, 0x17f, 0x180, 0x7fff, 0x8000, 0xff00, 0xfffe, 0xffff,
];

const ALL_BYTES: u64 = 256 + 256 * 256;
const OF_VALUES: u64 = 24 + 24 * 24 + 24 * 24 * 24;

/// Of no units; all payloads of one and two bytes; all of one and two units below 256; one, two and three units of the list.
pub const SHORT: u64 = 1 + 2 * ALL_BYTES + OF_VALUES;

/// Payloads of 28,672 bytes are the longest that come back, and 32,768 units the longest that are taken; with what comes of both.
const LONG: [usize; 4] = [28_672, 28_673, UNITS, 37_448];
/// Units up to which every length is made.
const LENGTHS: usize = 300;

pub struct Inputs {
    classes: Vec<Input>,
}

impl Default for Inputs {
    fn default() -> Self {
        Self { classes: corpus::classes() }
    }
}

impl Inputs {
    pub fn input(&self, seed: u64, number: u64) -> Input {
        if number < SHORT {
            return with_names(short(number));
        }
        let number = number - SHORT;
        if let Some(class) = self.classes.get(number as usize) {
            return class.clone();
        }
        let mut random = Random::of(seed, number);
        match random.below(60) {
            0 => with_names(long(&mut random)),
            1..=24 => with_names(of_any_length(&mut random)),
            _ => made_in_either_form(&mut random),
        }
    }

    /// Real classes of the old form, each with those of the same strings that have the marker.
    pub fn of_both_forms(&self) -> Vec<(&Input, Vec<&Input>)> {
        let is_same = |one: &Input, other: &Input| {
            (one.k, one.mv, &one.d2, &one.ends) == (other.k, other.mv, &other.d2, &other.ends)
        };
        // The facade of a multi-file class has the names of its parts in d1.
        let old = self.classes.iter().filter(|class| class.k != 4 && is_old(&class.d1));
        old.map(|one| {
            (one, self.classes.iter().filter(|other| other.d1.first() == Some(&0) && is_same(one, other)).collect())
        })
        .collect()
    }
}

fn with_names(d1: Vec<u16>) -> Input {
    let k = [1, 2, 5][d1.len() % 3];
    Input::new(k, d1, &[units("kotlin/Int"), units("f"), units("kotlin/Array")])
}

fn short(number: u64) -> Vec<u16> {
    let Some(number) = number.checked_sub(1) else {
        return Vec::new();
    };
    if number < ALL_BYTES {
        return std::iter::once(0).chain(below_256(number)).collect();
    }
    let number = number - ALL_BYTES;
    if number < ALL_BYTES {
        return below_256(number);
    }
    digits(number - ALL_BYTES, VALUES.len() as u64).into_iter().map(|digit| VALUES[digit as usize]).collect()
}

fn below_256(number: u64) -> Vec<u16> {
    digits(number, 256).into_iter().map(|digit| digit as u16).collect()
}

/// The digits of the number among all sequences of at least one digit, short ones first.
fn digits(mut number: u64, base: u64) -> Vec<u64> {
    let mut length = 1;
    while number >= base.pow(length) {
        number -= base.pow(length);
        length += 1;
    }
    (0..length).map(|place| number / base.pow(place) % base).collect()
}

/// Units around the lengths at which something changes.
fn long(random: &mut Random) -> Vec<u16> {
    let length = *random.pick(&LONG) + random.below(5) - 2;
    either_form(random, length)
}

fn of_any_length(random: &mut Random) -> Vec<u16> {
    let length = random.below(LENGTHS + 1);
    either_form(random, length)
}

/// So many units, of either form. One in some has a unit above 255, bits of its own in the last group, or units above 127.
fn either_form(random: &mut Random, length: usize) -> Vec<u16> {
    let bytes: Vec<u8> = (0..length).map(|_| random.next() as u8).collect();
    let mut d1 = if random.once_in(2) { marked(&bytes) } else { packed(&bytes) };
    d1.truncate(length);
    if d1.is_empty() {
        return d1;
    }
    let (first, last) = (0, d1.len() - 1);
    let any = random.below(d1.len());
    match random.below(12) {
        0 => d1[any] = 256 + (random.next() as u16 & 0x7fff),
        1 => d1[any] |= 0x80,
        2 => d1.iter_mut().for_each(|unit| *unit |= if random.once_in(3) { 0x80 } else { 0 }),
        3 => d1[last] = random.next() as u16 & 0x7f,
        4 => d1[last] = 1,
        5 => d1[first] = *random.pick(&[0, 1, 0x7f, 0x80, 0xff, 0x100, 0xffff]),
        6 if d1.len() > 1 => d1[1] = *random.pick(&[0x7f, 0xff, 0x7e, 0xfe, 0]),
        7 => d1[any] = 0,
        _ => {}
    }
    d1
}

/// A made input: half of those with the marker are put into the old form.
fn made_in_either_form(random: &mut Random) -> Input {
    let mut input = made::input(random);
    if let (Some((0, bytes)), true) = (input.d1.split_first(), random.once_in(2)) {
        let old = packed(&bytes.iter().map(|unit| *unit as u8).collect::<Vec<_>>());
        if is_old(&old) {
            input.d1 = old;
        }
    }
    input
}

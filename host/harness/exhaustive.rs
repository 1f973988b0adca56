//! Every short content of every message, numbered from 0.

use crate::forms::marked;
use crate::input::{units, Input};
use crate::shapes::{bytes, function_with, number, payload, star};

/// A place in a payload, the bytes that matter there, and the input around a content.
struct Place {
    alphabet: [u8; 16],
    around: fn(&[u8]) -> Input,
}

fn place(alphabet: &[u8; 16], around: fn(&[u8]) -> Input) -> Place {
    Place { alphabet: *alphabet, around }
}

/// Two strings: a name that prints, and one with two bytes to a character.
fn class_of(k: i32, d1: Vec<u16>) -> Input {
    Input::new(k, d1, &[units("kotlin/Int"), units("\u{e9}"), units("kotlin/Array")])
}

fn body(k: i32, body: &[u8]) -> Input {
    class_of(k, payload(&[], body))
}

fn function(rest: &[u8]) -> Input {
    body(2, &bytes(3, &function_with(0, rest)))
}

fn property(rest: &[u8]) -> Input {
    body(2, &bytes(4, &[&number(2, 1), rest].concat()))
}

fn alias(rest: &[u8]) -> Input {
    body(5, &bytes(5, &[&number(2, 1), rest].concat()))
}

fn record(content: &[u8]) -> Input {
    class_of(1, payload(&bytes(1, content), &[0x18, 0x00]))
}

fn places() -> Vec<Place> {
    vec![
        place(b"\x00\x01\x02\x03\x04\x08\x0a\x10\x12\x18\x1a\x22\x42\x4a\x80\xff", |c| class_of(1, marked(c))),
        place(b"\x00\x01\x02\x03\x08\x10\x2a\x0d\x18\x1a\x42\x4a\x52\x5a\x80\xff", |c| body(1, c)),
        place(b"\x00\x01\x02\x03\x10\x11\x12\x18\x1a\x2a\x1d\x22\x42\x5a\x80\xff", |c| body(5, c)),
        place(b"\x00\x01\x02\x03\x08\x0a\x10\x12\x13\x15\x18\xa2\x06\x2a\x80\xff", |c| body(1, &bytes(8, c))),
        place(b"\x00\x01\x02\x10\x1a\x18\x2a\x28\x32\x38\x40\x42\x48\xa2\x06\x80", |c| function(c)),
        place(b"\x00\x01\x02\x10\x1a\x2a\x38\x40\x48\x50\x52\x58\xa2\x06\x80\x5d", |c| property(c)),
        place(b"\x00\x01\x02\x03\x08\x10\x12\x1a\x20\x22\x28\x2a\x30\x32\x38\x80", |c| alias(c)),
        place(b"\x00\x01\x02\x03\x08\x0d\x10\x12\x1b\x22\x28\x32\x38\x3a\x80\xff", |c| body(1, &bytes(11, c))),
        place(b"\x00\x01\x02\x03\x08\x10\x12\x18\x1a\x22\x20\x28\x2a\x30\x80\xff", |c| {
            function(&bytes(6, &[&number(2, 0), c].concat()))
        }),
        place(b"\x00\x01\x02\x03\x04\x10\x12\x18\x1a\x1d\x30\x32\x33\x80\xff\x05", |c| function(&bytes(3, c))),
        place(b"\x00\x01\x02\x03\x04\x08\x0a\x10\x12\x18\x1a\x1d\x30\x80\xff\x05", |c| {
            let array = [number(6, 2), bytes(2, c)].concat();
            function(&bytes(3, &array))
        }),
        // what else a star holds
        place(b"\x00\x01\x02\x03\x04\x08\x0a\x0b\x10\x12\x15\x18\x1a\x30\x80\xff", |c| {
            let array = [number(6, 2), star(c), bytes(2, &bytes(2, &number(6, 0)))].concat();
            function(&bytes(3, &array))
        }),
        place(b"\x00\x01\x02\x03\x04\x06\x08\x0a\x10\x12\x15\x18\x30\x80\xff\x05", |c| {
            let members = bytes(3, &function_with(0, &number(7, 0)));
            body(2, &[members, bytes(30, c)].concat())
        }),
        place(b"\x00\x01\x02\x03\x04\x08\x09\x0a\x0d\x10\x12\x15\x18\x80\xff\x05", |c| function(&bytes(100, c))),
        place(b"\x00\x01\x02\x04\x08\x0a\x0b\x0d\x10\x12\x18\x1a\x22\x1b\x80\xff", |c| property(&bytes(100, c))),
        place(b"\x00\x01\x02\x03\x08\x09\x0a\x0b\x0d\x10\x12\x15\x18\x80\xff\x05", |c| {
            property(&bytes(100, &bytes(1, c)))
        }),
        place(b"\x00\x01\x02\x03\x04\x08\x0a\x10\x18\x22\x28\x2a\x2d\x32\x80\xff", |c| {
            class_of(1, payload(c, &[0x18, 0x00]))
        }),
        place(b"\x00\x01\x02\x03\x08\x0a\x10\x12\x18\x22\x20\x2a\x28\x32\x61\x80", |c| record(c)),
        place(b"\x24\x2f\x4c\x3b\x61\xc2\xc3\xe0\xed\xef\xf0\xf4\x80\x9f\xa0\xbf", |c| record(&bytes(6, c))),
        place(b"\x00\x01\x02\x03\x04\x05\x06\x07\x08\x09\x0a\x80\x81\x7f\xff\x0b", |c| {
            record(&[bytes(6, b"a\xc3\xa9\xffkL;"), bytes(4, c)].concat())
        }),
        // d1 itself, mostly in its old form: last, since it isn't held to the original
        place(b"\x00\x01\x02\x03\x05\x07\x09\x11\x21\x41\x61\x7f\x80\x81\xff\x31", |c| {
            class_of(1, c.iter().map(|byte| u16::from(*byte)).collect())
        }),
    ]
}

/// All bytes up to this length, then the place's alphabet up to longer ones, then all bytes again at the first place.
const ALL_BYTES: u64 = 1 + 256 + 256 * 256;
const SIXTEEN: u64 = 16 * 16 * 16 + 16 * 16 * 16 * 16 + 16 * 16 * 16 * 16 * 16;
const THREE_BYTES: u64 = 256 * 256 * 256;
const SIX_OF_SIXTEEN: u64 = 16 * 16 * 16 * 16 * 16 * 16;

pub struct Exhaustive(Vec<Place>);

impl Default for Exhaustive {
    fn default() -> Self {
        Self(places())
    }
}

impl Exhaustive {
    /// The input with this number; none past the last.
    pub fn input(&self, mut number: u64) -> Option<Input> {
        let places = self.0.len() as u64;
        if number < places * ALL_BYTES {
            let place = &self.0[(number / ALL_BYTES) as usize];
            return Some((place.around)(&every(number % ALL_BYTES, 0, 256, |digit| digit as u8)));
        }
        number -= places * ALL_BYTES;
        if number < places * SIXTEEN {
            return Some(self.0[(number / SIXTEEN) as usize].of_alphabet(number % SIXTEEN, 3));
        }
        number -= places * SIXTEEN;
        if number < THREE_BYTES {
            return Some((self.0[0].around)(&every(number, 3, 256, |digit| digit as u8)));
        }
        number -= THREE_BYTES;
        if number < places * SIX_OF_SIXTEEN {
            return Some(self.0[(number / SIX_OF_SIXTEEN) as usize].of_alphabet(number % SIX_OF_SIXTEEN, 6));
        }
        None
    }
}

impl Place {
    fn of_alphabet(&self, number: u64, shortest: u32) -> Input {
        (self.around)(&every(number, shortest, 16, |digit| self.alphabet[digit as usize]))
    }
}

/// The content with this number among those of at least the shortest length, in a base.
fn every(mut number: u64, shortest: u32, base: u64, symbol: impl Fn(u64) -> u8) -> Vec<u8> {
    let mut length = shortest;
    while number >= base.pow(length) {
        number -= base.pow(length);
        length += 1;
    }
    let digit = |place| symbol(number / base.pow(place) % base);
    (0..length).rev().map(digit).collect()
}

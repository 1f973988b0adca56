//! Classes for measuring: as a compiler would write them in some sizes, and the slowest that could be made.

mod names;
mod table;
mod walks;

use crate::input::{units, Input};
use crate::limits::UNITS;
use crate::shapes::{bytes, function_with, number, payload};

/// A package of ordinary functions with about this many bytes of payload; up to 30,000 it is accepted.
pub fn ordinary(size: usize) -> Input {
    let mut strings: Vec<Vec<u16>> = ["kotlin/Int", "kotlin/Unit", "count", "(I)V"].map(units).to_vec();
    let mut body = Vec::new();
    while body.len() < size {
        strings.push(units(&format!("add{}", strings.len())));
        body.extend(bytes(3, &ordinary_function(strings.len() as u64 - 1)));
    }
    let records = bytes(1, &number(1, 4)).repeat(3);
    Input::new(2, payload(&records, &body), &strings)
}

fn ordinary_function(name: u64) -> Vec<u8> {
    let type_parameter = [number(1, 0), number(2, 2), number(3, 0), bytes(5, &number(6, 0))].concat();
    let parameter = [number(2, 2), bytes(3, &number(6, 0))].concat();
    let signature = [number(1, name), number(2, 3)].concat();
    let rest = [
        bytes(3, &number(6, 1)),
        bytes(4, &type_parameter),
        bytes(6, &parameter),
        number(9, 0x1006),
        bytes(100, &signature),
    ];
    function_with(name, &rest.concat())
}

/// An input that costs as much as it can for its length.
pub struct Slow {
    pub words: String,
    /// Entries of the type table are entered again and again: nothing is noted of types, so that each costs a walk of its entry.
    pub by_type_table: bool,
    pub input: Input,
}

/// The slowest inputs that could be made: each walk of the reader repeated as often as d1 and d2 let it.
pub fn slowest() -> Vec<Slow> {
    let mut all = walks::inputs();
    all.extend(names::inputs());
    all.extend(table::inputs());
    all
}

fn slow(words: impl Into<String>, input: Input) -> Slow {
    Slow { words: words.into(), by_type_table: false, input }
}

fn package(table: &[u8], body: &[u8], strings: &[String]) -> Input {
    let strings: Vec<Vec<u16>> = strings.iter().map(|string| units(string)).collect();
    Input::new(2, payload(table, body), &strings)
}

/// As many copies of a piece as fit beside what is there.
fn filled(piece: &[u8], beside: usize) -> Vec<u8> {
    piece.repeat((UNITS - 16 - beside) / piece.len())
}

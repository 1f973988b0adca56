//! Names that cost much to work out or to write, each in every place where a name is read.

use super::{filled, package, slow, Slow};
use crate::limits::{TYPES, UNITS};
use crate::shapes::{bytes, function_with, inline_argument, number};

/// What the name with index 0 is made of: a name table, or a string of d2.
struct Made {
    words: &'static str,
    table: Vec<u8>,
    string: String,
}

/// Where the name with index 0 is read: one member after the other, as many as fit.
struct Place {
    words: &'static str,
    member: Vec<u8>,
    /// Types that each member enters; after 2,048 of them the rest of d1 is left out, so that the answer isn't 10.
    types: usize,
}

/// The members' own short name, and an array's.
const SHORT: u64 = 1;
const ARRAY: u64 = 2;

pub fn inputs() -> Vec<Slow> {
    let places = places();
    let mut all = Vec::new();
    for made in records().iter().chain(&strings()) {
        for place in &places {
            all.push(slow(format!("{}: {}", made.words, place.words), input(made, place, &[])));
        }
    }
    for place in &places {
        let made = longest();
        all.push(slow(format!("{}: {}", made.words, place.words), input(&made, place, &[])));
    }
    // The last property's signature is broken: refusal 7, when all else is read.
    let last = bytes(4, &[number(2, SHORT), bytes(100, &[0x80])].concat());
    for made in records().iter().chain(&strings()) {
        let words = format!("{}: name and signatures of each property, refused with 7 at the end", made.words);
        all.push(slow(words, input(made, &places[5], &last)));
    }
    all
}

fn input(made: &Made, place: &Place, last: &[u8]) -> crate::input::Input {
    let mut body = filled(&place.member, made.table.len() + last.len() + 8);
    if place.types > 0 {
        body.truncate(TYPES as usize / place.types * place.member.len());
    }
    body.extend(last);
    package(&made.table, &body, &[made.string.clone(), "f".to_string(), "kotlin/Array".to_string()])
}

fn places() -> Vec<Place> {
    let slow_type = number(6, 0);
    let array = [number(6, ARRAY), inline_argument(&slow_type)].concat();
    let parameter = bytes(6, &[number(2, 0), bytes(3, &slow_type)].concat());
    let returning = |ty: &[u8]| bytes(3, &function_with(SHORT, &bytes(3, ty)));
    let signature = [number(1, 0), number(2, 0)].concat();
    let three = [bytes(1, &signature), bytes(3, &signature), bytes(4, &signature)].concat();
    let alias = [number(2, 0), bytes(4, &slow_type), bytes(6, &slow_type)].concat();
    let place = |words, member, types| Place { words, member, types };
    vec![
        place("name of each property", bytes(4, &number(2, 0)), 0),
        place("name and type of each function's parameter", bytes(3, &function_with(SHORT, &parameter)), 1),
        place("type of each function", returning(&slow_type), 1),
        place("type inside the array of each function", returning(&array), 2),
        place("name and signature of each function", bytes(3, &function_with(0, &bytes(100, &signature))), 0),
        place("name and signatures of each property", bytes(4, &[number(2, 0), bytes(100, &three)].concat()), 0),
        place("name of each function, written twice", bytes(3, &number(2, 0)), 0),
        place("name and both types of each alias", bytes(5, &alias), 2),
    ]
}

/// The longest record with operation 2 that leaves room for members: its last character stands at the end of 30,000 bytes.
fn longest() -> Made {
    let content = [vec![b'L'], "a$".repeat(15_000).into_bytes(), vec![b';']].concat();
    Made {
        words: "30,000 bytes with operation 2",
        table: bytes(1, &[bytes(6, &content), number(3, 2)].concat()),
        string: String::new(),
    }
}

/// Records of the name table, of half of d1 each. What they build is short where it can be: then the answer is 0.
fn records() -> Vec<Made> {
    let made = |words, record: Vec<u8>| Made { words, table: bytes(1, &record), string: String::new() };
    let text = |content: &[u8]| bytes(6, content);
    let far = |first: u64, last: u64| [number(4, first), number(4, last)].concat();
    let numbers = [far(0, 1), number(4, 1).repeat(7998)].concat();
    let packed = [vec![0, 1], vec![1; 15998]].concat();
    let wrapped = |content: Vec<u8>| [vec![b'L'], content, vec![b';']].concat();
    let widening = [number(5, 0x61), number(5, 0x10ffff)].concat();
    vec![
        made("8,000 unpacked substring numbers", [text(b"ab"), numbers].concat()),
        made("16,000 packed substring numbers", [text(b"ab"), bytes(4, &packed)].concat()),
        made("8,000 unknown fields", [text(b"ab"), number(7, 0).repeat(8000)].concat()),
        made("8,000 replaced characters", [text(b"ab"), number(5, 0x61).repeat(8000)].concat()),
        made("15,000 bytes that are no UTF-8", text(&[0xff; 15000])),
        made("15,000 bytes that are no UTF-8 inside L..;", text(&wrapped(vec![0xff; 15000]))),
        made("15,000 bytes of two-byte characters inside L..;", text(&wrapped([0xc3, 0xa9].repeat(7500)))),
        made("a substring far inside 16,000 bytes", [text(&[b'a'; 16000]), far(15990, 15999)].concat()),
        made(
            "a substring far inside 16,000 bytes that are no UTF-8",
            [text(&[0xff; 16000]), far(47970, 47979)].concat(),
        ),
        made("a replacement that widens 16,000 bytes", [text(&[b'a'; 16000]), widening.clone()].concat()),
        made(
            "the same with operation 2, of bytes that are no UTF-8",
            [text(&[0xff; 16000]), widening, number(3, 2)].concat(),
        ),
        made("16,000 bytes with operation 2", [text(&wrapped("a$".repeat(8000).into_bytes())), number(3, 2)].concat()),
        made("16,000 bytes with dots", [text("a/".repeat(8000).as_bytes()), number(3, 1)].concat()),
        made("a record of 16,000 bytes whose text can't be built", [text(&[0xff; 16000]), far(9, 8)].concat()),
    ]
}

/// Strings of d2: the longest, and the longest of which no size is noted. A name that begins with k may be a listed one, and is compared.
fn strings() -> Vec<Made> {
    let made = |words, string: String| Made { words, table: Vec::new(), string };
    let long = UNITS - 68;
    vec![
        made("a d2 string of 32,700 ASCII units", "k".repeat(long)),
        made("a d2 string of 32,700 wide units", "\u{2020}".repeat(long)),
        made("a d2 string of 32,700 wide units inside L..;", format!("Lk{};", "\u{2020}".repeat(long - 3))),
        made("a d2 string of 32,700 units in pairs", format!("k{}", "\u{1f600}".repeat(long / 2 - 1))),
        made("a d2 string of 1,024 wide units", format!("k{}", "\u{2020}".repeat(1023))),
        made("a d2 string of 1,023 ASCII units", "k".repeat(1023)),
        made("a d2 string of 1,023 wide units", format!("k{}", "\u{2020}".repeat(1022))),
        made("a d2 string of 1,023 wide units inside L..;", format!("Lk{};", "\u{2020}".repeat(1020))),
        made("a d2 string of 1,023 units in pairs", format!("k{}", "\u{1f600}".repeat(511))),
        made("a d2 string of 260 wide units", format!("k{}", "\u{2020}".repeat(259))),
    ]
}

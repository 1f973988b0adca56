//! Walks over messages, lists and both tables, each made as long as d1 lets it be.

use super::{filled, package, slow, Slow};
use crate::input::Input;
use crate::limits::{STRINGS, TYPES, UNITS};
use crate::random::Random;
use crate::shapes::{bytes, function_with, inline_argument, number, payload, star, type_table};

fn names() -> Vec<String> {
    ["f", "kotlin/Array", "kotlin/Int"].map(String::from).to_vec()
}

pub fn inputs() -> Vec<Slow> {
    let mut all = members();
    all.extend(types());
    all.extend(look_ups());
    all.extend(long_names());
    all
}

/// A field with a tag and a number of one byte each, and one with three bytes each, which no short form reads.
pub(super) const STRANGER: [u8; 2] = [0x78, 0x00];
const LONG_STRANGER: [u8; 6] = [0xf8, 0xff, 0x01, 0x80, 0x80, 0x01];

fn members() -> Vec<Slow> {
    let function = |rest: &[u8]| package(&[], &bytes(3, &function_with(0, rest)), &names());
    let property = |rest: &[u8]| package(&[], &bytes(4, &function_with(0, rest)), &names());
    let alias = |rest: &[u8]| package(&[], &bytes(5, &function_with(0, rest)), &names());
    let parameter = |rest: &[u8]| bytes(6, &function_with(0, rest));
    let long = filled(&LONG_STRANGER, 32);
    vec![
        slow("fields of a function that nothing asks for", function(&filled(&STRANGER, 32))),
        slow("the same with tags of three bytes", function(&long)),
        slow("fields of a property that nothing asks for", property(&filled(&STRANGER, 32))),
        slow("fields of a parameter that nothing asks for", function(&parameter(&filled(&STRANGER, 32)))),
        slow("fields of a package that nothing asks for", package(&[], &filled(&STRANGER, 8), &names())),
        slow("constructors of two bytes", Input::new(1, payload(&[], &filled(&bytes(8, &[]), 8)), &[])),
        slow("properties of four bytes", package(&[], &filled(&bytes(4, &number(2, 0)), 8), &names())),
        slow("properties without a name", package(&[], &filled(&bytes(4, &[]), 8), &names())),
        slow("functions of four bytes", package(&[], &filled(&bytes(3, &number(2, 0)), 8), &names())),
        slow(
            "functions of four bytes with an empty name",
            package(&[], &filled(&bytes(3, &number(2, 0)), 8), &[String::new()]),
        ),
        slow("fields of an alias that nothing asks for", alias(&filled(&STRANGER, 32))),
        slow("aliases of four bytes", package(&[], &filled(&bytes(5, &number(2, 0)), 8), &names())),
        slow("aliases without a name", package(&[], &filled(&bytes(5, &[]), 8), &names())),
        slow("parameters of four bytes", function(&filled(&parameter(&[]), 32))),
        slow(
            "suspending functions",
            package(&[], &filled(&bytes(3, &function_with(0, &number(9, 8192))), 8), &names()),
        ),
    ]
}

fn types() -> Vec<Slow> {
    let returning = |ty: &[u8]| bytes(3, &function_with(0, &bytes(3, ty)));
    let chain = |inside: Vec<u8>| (1..2047).fold(inside, |ty, _| [number(6, 1), inline_argument(&ty)].concat());
    let array = |rest: Vec<u8>| [number(6, 1), rest].concat();
    let nothing = bytes(2, &[]);
    let wide = inline_argument(&number(6, 1)).repeat(TYPES as usize - 1);
    let beside_table = [returning(&array(nothing.clone())).repeat(2048), type_table(&[number(6, 2)], None)].concat();
    let behind = bytes(2, &[filled(&STRANGER, 64), number(1, 3)].concat());
    let inputs = vec![
        ("a chain of 2,047 inline arrays", returning(&chain(number(6, 1)))),
        ("the same in which each array has nothing inside it first", returning(&after_nothing(&nothing))),
        ("an array of 2,047 arguments", returning(&array(wide))),
        ("an array of arguments without a type", returning(&array(filled(&nothing, 32)))),
        ("an array of 2,047 stars", returning(&array(star(&[]).repeat(TYPES as usize - 1)))),
        ("a star behind fields that nothing asks for", returning(&array(behind))),
        ("an argument with fields that nothing asks for", returning(&array(bytes(2, &filled(&STRANGER, 64))))),
        ("fields of a type that nothing asks for", returning(&filled(&STRANGER, 64))),
        ("types of four bytes, each a function's", filled(&returning(&[]), 8)[..].to_vec()),
        ("2,048 types with an argument without a type, beside a type table", beside_table),
    ];
    let limited = |(words, body): (&'static str, Vec<u8>)| slow(words, package(&[], &body, &names()));
    inputs.into_iter().map(limited).collect()
}

/// Arrays one in another, each after an argument without a type.
fn after_nothing(nothing: &[u8]) -> Vec<u8> {
    let array = |ty: Vec<u8>, _| [number(6, 1), nothing.to_vec(), inline_argument(&ty)].concat();
    (1..2047).fold(number(6, 1), array)
}

fn look_ups() -> Vec<Slow> {
    let predefined = bytes(1, &number(2, 8)).repeat(4000);
    let at = |index: u64| bytes(4, &number(2, index));
    let signature = |index: u64| [number(1, index), number(2, index)].concat();
    let three =
        |index: u64| [bytes(1, &signature(index)), bytes(3, &signature(index)), bytes(4, &signature(index))].concat();
    let signed = |index: u64| bytes(4, &[number(2, index), bytes(100, &three(index))].concat());
    let empty = bytes(1, &[]).repeat(8000);
    let spread: Vec<u8> = (0..).map(|place| at(2048 + place * 2657 % 5900)).take(3300).flatten().collect();
    let steps = [number(2, 8), bytes(4, &[0, 3]), bytes(5, &[0x6b, 0x6c])].concat();
    let stepped = filled(&bytes(1, &steps), 8);
    let many: Vec<String> = (0..STRINGS).map(|place| format!("{place:08}")).map(|s| s[..8].to_string()).collect();
    vec![
        slow(
            "4,000 records, a name at the last in each property",
            package(&predefined, &filled(&at(3999), predefined.len() + 8), &names()),
        ),
        slow(
            "the same in each property's signatures",
            package(&predefined, &filled(&signed(3999), predefined.len() + 8), &names()),
        ),
        slow("8,000 empty records, names all over them in properties", package(&empty, &spread, &names())),
        slow("records of nothing", package(&filled(&bytes(1, &[]), 8), &[], &names())),
        slow("records of predefined strings", package(&filled(&bytes(1, &number(2, 43)), 8), &[], &names())),
        slow("records of predefined strings with steps", package(&stepped, &[], &names())),
        slow(
            "one record that serves 4,000,000,000 indices",
            package(
                &bytes(1, &[number(1, 4_000_000_000), number(2, 8)].concat()),
                &filled(&at(2_000_000_000), 32),
                &names(),
            ),
        ),
        slow("4,096 strings of d2", package(&[], &filled(&at(4095), 8), &many)),
    ]
}

fn long_names() -> Vec<Slow> {
    let naming = filled(&bytes(4, &number(2, 0)), 8);
    let long = "\u{2020}".repeat(UNITS);
    let parameters = bytes(6, &[number(2, 1), bytes(3, &number(6, 0))].concat()).repeat(TYPES as usize);
    let long_types = bytes(3, &function_with(1, &parameters));
    let two = vec!["\u{2020}".repeat(UNITS - 1), "p".to_string()];
    let below = vec![format!("k{}", "\u{2020}".repeat(1022)), "p".to_string()];
    let lasts: Vec<String> = (0..32).map(|_| "\u{2020}".repeat(1024)).collect();
    let last = filled(&bytes(4, &number(2, 31)), 8);
    vec![
        slow("a name of 98,304 bytes in each property", package(&[], &naming, &[long])),
        slow("2,048 types with a name of 98,301 bytes", package(&[], &long_types, &two)),
        slow("2,048 types with a name of 1,023 units in one function", package(&[], &long_types, &below)),
        slow("32 strings of 1,024 units, the last in each property", package(&[], &last, &lasts)),
        slow("31 strings of 1,023 mixed units, in turn as type of each function", mixed(1)),
        slow("the same as type of each function's parameter and of itself", mixed(2)),
    ]
}

/// 31 strings of 1,023 units of every width in no order, so that no test of a character can be foreseen. Each function has so many types.
fn mixed(types: u64) -> Input {
    let mut random = Random::of(1, 0);
    let mut string = || {
        let mut units = vec![0x6b];
        while units.len() < 1022 {
            units.extend(
                random
                    .pick(&[&[0x61][..], &[0x2f], &[0x24], &[0xe9], &[0x2020], &[0xd83d, 0xde00], &[0xd83d], &[0xde00]])
                    .iter(),
            );
        }
        units.resize(1023, 0x61);
        units
    };
    let strings: Vec<Vec<u16>> = [vec![0x66]].into_iter().chain((0..31).map(|_| string())).collect();
    let function = |place: u64| {
        let ty = |step: u64| bytes(3, &number(6, 1 + (place * types + step) % 31));
        let parameter = if types == 2 { bytes(6, &[number(2, 0), ty(1)].concat()) } else { Vec::new() };
        bytes(3, &function_with(0, &[parameter, ty(0)].concat()))
    };
    let body: Vec<u8> = (0..TYPES / types).flat_map(function).collect();
    Input::new(2, payload(&[], &body), &strings)
}

//! The specification's marked examples, and inputs at the limits of what is read.

use harness::input::{units, Input};
use harness::limits::{STRINGS, TEXT, UNITS};
use harness::shapes::{bytes, function_with, inline_argument, looked_up_argument, number, payload, type_table};

fn strings(list: &[&str]) -> Vec<Vec<u16>> {
    list.iter().map(|string| units(string)).collect()
}

fn example(k: i32, d1: &[u16], list: &[&str]) -> Input {
    Input::new(k, d1.to_vec(), &strings(list))
}

/// (a) to (l), as inputs of a whole class; (d) to (f) by class flags.
pub fn marked_examples() -> Vec<Input> {
    let unit = [0, 0, 0x1a, 6, 0x10, 0, 0x1a, 2, 0x30, 1];
    let flags = |varint: &[u8]| Input::new(1, payload(&[], &[&[0x08], varint].concat()), &[]);
    let returns = |ty: &[u8]| bytes(3, &function_with(0, &bytes(3, ty)));
    let names = strings(&["f", "kotlin/Array", "kotlin/Int"]);
    let of_types = |body: Vec<u8>| Input::new(2, payload(&[], &body), &names);
    let itself = type_table(&[looked_up_argument(0)], None);
    let many = |count: usize| returns(&[number(6, 1), inline_argument(&number(6, 2)).repeat(count - 1)].concat());
    let mut inputs = vec![
        example(2, &unit, &["f", "kotlin/Unit"]),
        example(1, &[0, 0], &[]),
        example(1, &[0], &[]),
        flags(&[0x96, 0x01]),
        flags(&[[0x80; 9].as_slice(), &[0x7f]].concat()),
        flags(&[0x80; 10]),
        flags(&[0x80; 11]),
        example(1, &[1; 8], &[]),
        example(1, &[1], &[]),
        of_types(returns(&[number(6, 1), inline_argument(&number(6, 2))].concat())),
        of_types(returns(&number(6, 1))),
        of_types([bytes(3, &function_with(0, &number(7, 0))), itself].concat()),
        of_types(many(2048)),
        of_types(many(2049)),
    ];
    for major in [2, 3, -1, i32::MIN, i32::MAX] {
        inputs.push(Input { mv: [major, 0, 0], ..example(2, &unit, &["f", "kotlin/Unit"]) });
    }
    inputs
}

/// Counts at a limit and one more, ends that fall or end elsewhere, and text at its limit and one more.
pub fn limits() -> Vec<Input> {
    let unit = [0, 0, 0x1a, 6, 0x10, 0, 0x1a, 2, 0x30, 1];
    let plain = example(2, &unit, &["f", "kotlin/Unit"]);
    let mut inputs = Vec::new();
    for over in [0, 1] {
        let mut d1 = plain.d1.clone();
        d1.resize(UNITS + over, 0);
        inputs.push(Input { d1, ..plain.clone() });
        let mut list = strings(&["f", "kotlin/Unit"]);
        list.push(vec![0x61; UNITS + over - 12]);
        inputs.push(Input::new(2, unit.to_vec(), &list));
        let list: Vec<Vec<u16>> =
            (0..STRINGS + over).map(|place| units(if place == 1 { "kotlin/Unit" } else { "f" })).collect();
        inputs.push(Input::new(2, unit.to_vec(), &list));
        inputs.push(text_of(TEXT as usize + over));
    }
    let ends: [&[u32]; 8] =
        [&[1, 12, 11, 12], &[1, 13], &[1, 11], &[], &[12, 1], &[u32::MAX, 12], &[0, 1, 12], &[1, 12, 12]];
    for k in [2, 3] {
        inputs.extend(ends.iter().map(|ends| Input { k, ends: ends.to_vec(), ..plain.clone() }));
    }
    for ends in [vec![], vec![0], vec![0, 0], vec![1]] {
        inputs.push(Input { d2: Vec::new(), ends, ..plain.clone() });
    }
    // The longest sheet that 65,536 bytes hold, one constructor more, and with it too long a text.
    for count in [2729, 2730] {
        inputs.push(Input::new(1, payload(&[], &bytes(8, &[]).repeat(count)), &[]));
    }
    let both = bytes(4, &number(2, 0)).repeat(2000);
    inputs.push(Input::new(2, payload(&[], &both), &[vec![0x61; 60]]));
    // The order of refusals 1 to 4, each input with more than one of them.
    for (d1, d2, major) in [(UNITS + 1, UNITS + 1, 3), (1, UNITS + 1, 3), (1, 1, 3), (0, 0, 3)] {
        inputs.push(Input { k: 1, mv: [major, 0, 0], d1: vec![0; d1], d2: vec![0x61; d2], ends: Vec::new() });
    }
    inputs
}

/// Properties whose names are together so many bytes long.
pub fn text_of(total: usize) -> Input {
    let each = 600;
    let mut body = bytes(4, &number(2, 0)).repeat(total / each);
    body.extend(bytes(4, &number(2, 1)));
    let names = [vec![0x61; each], vec![0x62; total % each]];
    Input::new(2, payload(&[], &body), &names)
}

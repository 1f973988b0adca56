//! Inputs of a certain shape: depths, counts and lengths at which something changes.

use crate::forms::{marked, packed};
use crate::input::{units, Input};
use crate::limits::{STRINGS, TEXT, TYPES, UNITS};
use crate::random::Random;
use crate::tree::put_varint;

// Pieces of a payload.

pub fn number(field: u64, value: u64) -> Vec<u8> {
    let mut out = Vec::new();
    put_varint(&mut out, field * 8);
    put_varint(&mut out, value);
    out
}

pub fn bytes(field: u64, content: &[u8]) -> Vec<u8> {
    let mut out = Vec::new();
    put_varint(&mut out, field * 8 + 2);
    put_varint(&mut out, content.len() as u64);
    out.extend(content);
    out
}

pub fn function_with(name: u64, rest: &[u8]) -> Vec<u8> {
    [&number(2, name), rest].concat()
}

pub fn payload(table: &[u8], body: &[u8]) -> Vec<u16> {
    let mut out = Vec::new();
    put_varint(&mut out, table.len() as u64);
    out.extend(table);
    out.extend(body);
    marked(&out)
}

fn package(table: &[u8], body: &[Vec<u8>], strings: &[&str]) -> Input {
    let strings: Vec<Vec<u16>> = strings.iter().map(|string| units(string)).collect();
    Input::new(2, payload(table, &body.concat()), &strings)
}

/// A function whose return type is this.
fn returns(ty: &[u8]) -> Vec<u8> {
    bytes(3, &function_with(0, &bytes(3, ty)))
}

pub fn type_table(entries: &[Vec<u8>], first_nullable: Option<u64>) -> Vec<u8> {
    let mut table: Vec<u8> = entries.iter().flat_map(|entry| bytes(1, entry)).collect();
    table.extend(first_nullable.map_or(Vec::new(), |first| number(2, first)));
    bytes(30, &table)
}

pub fn inline_argument(ty: &[u8]) -> Vec<u8> {
    bytes(2, &bytes(2, ty))
}

pub fn looked_up_argument(index: u64) -> Vec<u8> {
    bytes(2, &number(3, index))
}

/// A star argument, with what else it holds.
pub fn star(rest: &[u8]) -> Vec<u8> {
    bytes(2, &[&number(1, 3), rest].concat())
}

/// A star with nothing else, or with what isn't read of it: a type, broken or not, an index, a second projection.
fn any_star(random: &mut Random) -> Vec<u8> {
    match random.below(8) {
        0 => star(&bytes(2, &[0x0b])),
        1 => star(&bytes(2, &[0x80])),
        2 => star(&bytes(2, &number(6, 2))),
        3 => star(&number(3, random.below(3) as u64)),
        4 => star(&number(1, 2)),
        5 => bytes(2, &[bytes(2, &number(6, 2)), number(1, 3)].concat()),
        _ => star(&[]),
    }
}

/// Types one in another, all inline; the innermost holds `inside`.
fn chain(length: usize, inside: &[u8]) -> Vec<u8> {
    (1..length).fold(inside.to_vec(), |ty, _| inline_argument(&ty))
}

const STRINGS_FOR_TYPES: &[&str] = &["f", "kotlin/Array", "kotlin/Int", "p", "kotlin/Unit"];

/// One input of some shape; most are cheap, some take milliseconds.
pub fn input(random: &mut Random) -> Input {
    match random.below(22) {
        0 => deep_inline(random),
        1 => deep_by_index(random),
        2 => deep_mixed(random),
        3 => types_by_parameters(random),
        4 => types_by_doubling(random),
        5 => types_wide(random),
        6 => failing_lookups(random),
        7 => many_records(random),
        8 => ranges(random),
        9 => long_text(random),
        10 => many_members(random),
        11 => host_limits(random),
        12 => string_ends(random),
        13 => long_chain(random),
        14 => old_lengths(random),
        15 => types_by_aliases(random),
        16 => alias_lists(random),
        17 => stars_around_limit(random),
        18 => deep_stars(random),
        19 => projections(random),
        20 => nameless_parameters(random),
        _ => arrays(random),
    }
}

fn near_64(random: &mut Random) -> usize {
    match random.below(4) {
        0 => 1 + random.below(6),
        _ => 58 + random.below(12),
    }
}

/// Inline types around depth 64 with a lookup inside the last.
fn deep_inline(random: &mut Random) -> Input {
    let inside = [number(6, 1), looked_up_argument(0)].concat();
    let ty = chain(near_64(random), &inside);
    let entry = number(6, 2);
    package(&[], &[returns(&ty), type_table(&[entry], Some(random.below(2) as u64))], STRINGS_FOR_TYPES)
}

/// Entries that hold the next one or themselves.
fn deep_by_index(random: &mut Random) -> Input {
    let count = 1 + random.below(70);
    let own = random.once_in(2);
    let entry = |place: usize| {
        let next = if own && place + 1 == count { place } else { place + 1 };
        [number(6, 1), looked_up_argument(next as u64)].concat()
    };
    let entries: Vec<Vec<u8>> = (0..count).map(entry).collect();
    let function = bytes(3, &function_with(0, &number(7, 0)));
    package(&[], &[function, type_table(&entries, Some(random.below(count + 1) as u64))], STRINGS_FOR_TYPES)
}

/// Lookups into entries whose arguments are inline chains that look up again.
fn deep_mixed(random: &mut Random) -> Input {
    let steps = 1 + random.below(5);
    let inner = [looked_up_argument(0), number(6, 1)].concat();
    let entry = chain(steps, &inner);
    let ty = chain(near_64(random), &[looked_up_argument(0), looked_up_argument(1)].concat());
    package(&[], &[returns(&ty), type_table(&[entry, number(6, 2)], None)], STRINGS_FOR_TYPES)
}

/// A number of types around the allowance.
fn around_limit(random: &mut Random) -> usize {
    TYPES as usize - 2 + random.below(5)
}

/// The last type's own fields, or its argument's, may be broken.
fn last_type(random: &mut Random) -> Vec<u8> {
    match random.below(5) {
        0 => vec![0x0b],
        1 => bytes(2, &[0x0b]),
        2 => bytes(2, &bytes(2, &[0x0b])),
        3 => inline_argument(&[]),
        _ => number(6, 2),
    }
}

fn types_by_parameters(random: &mut Random) -> Input {
    let count = around_limit(random);
    let parameter = bytes(6, &[number(2, 3), bytes(3, &[])].concat());
    let mut function = function_with(0, &parameter.repeat(count - 1));
    function.extend(bytes(3, &last_type(random)));
    package(&[], &[bytes(3, &function)], STRINGS_FOR_TYPES)
}

fn alias_with(name: u64, rest: &[u8]) -> Vec<u8> {
    bytes(5, &[&number(2, name), rest].concat())
}

/// A number of types around the allowance, the last ones in aliases, inline and by index.
fn types_by_aliases(random: &mut Random) -> Input {
    let count = around_limit(random);
    let of_aliases = 2 * (1 + random.below(20));
    let parameter = bytes(6, &[number(2, 3), bytes(3, &[])].concat());
    let mut body = vec![bytes(3, &function_with(0, &parameter.repeat(count - of_aliases)))];
    let inline = [bytes(4, &number(6, 1)), bytes(6, &number(6, 2))].concat();
    let both = [bytes(4, &[]), number(5, 0), number(7, 0)].concat();
    let by_index = [number(7, 0), number(5, 0)].concat();
    for place in 1..of_aliases / 2 {
        body.push(alias_with(
            3,
            if place % 3 == 0 {
                &inline
            } else if place % 3 == 1 {
                &both
            } else {
                &by_index
            },
        ));
    }
    body.push(alias_with(0, &[bytes(4, &number(6, 2)), bytes(6, &last_type(random))].concat()));
    body.push(type_table(&[number(6, 4)], Some(random.below(2) as u64)));
    random.shuffle(&mut body);
    package(&[], &body, STRINGS_FOR_TYPES)
}

/// Short lists of aliases that are whole, nameless or broken, among other members, in a class and in a package.
fn alias_lists(random: &mut Random) -> Input {
    let (k, function, property, field) = *random.pick(&[(1, 9, 10, 11), (1, 9, 10, 5), (2, 3, 4, 5), (5, 3, 4, 5)]);
    let mut body = vec![type_table(&[number(6, 1), looked_up_argument(1)], None)];
    for _ in 0..random.below(6) {
        let name = *random.pick(&[0, 1, 2, 9, 1 << 32]);
        let mut fields = vec![number(2, name)];
        for (inline, index) in [(4, 5), (6, 7)] {
            match random.below(8) {
                0 => fields.push(bytes(inline, &last_type(random))),
                6 | 7 => fields.push(bytes(inline, random.pick::<&[u8]>(&[&[0x0b], &[0x80], &[0x80; 11], &[0x0a, 1]]))),
                1 => fields.push(number(index, random.below(3) as u64)),
                2 => fields.extend([number(index, 0), bytes(inline, &number(6, 2))]),
                3 => fields.extend([number(inline, 0), bytes(index, &[])]),
                4 => fields.push(bytes(inline, &chain(near_64(random), &looked_up_argument(1)))),
                _ => {}
            }
        }
        if random.once_in(3) {
            fields.remove(0);
        }
        if random.once_in(4) {
            fields.push(number(1, *random.pick(&[0, 6, 1 << 40, u64::MAX])));
        }
        if random.once_in(12) {
            fields.push(vec![0x0b]);
        }
        random.shuffle(&mut fields);
        body.push(bytes(field, &fields.concat()));
    }
    body.push(bytes(function, &function_with(0, &bytes(3, &number(6, 4)))));
    body.push(bytes(property, &function_with(3, &bytes(3, if random.once_in(12) { &[0x0b] } else { &[] }))));
    random.shuffle(&mut body);
    let mut input = package(&[], &body, STRINGS_FOR_TYPES);
    input.k = k;
    input
}

/// Short lists of parameters with a name and without one, for every reason, in a constructor and in a function that may have a receiver or suspend.
/// Their types are there or not, have a descriptor or not, or are broken.
fn nameless_parameters(random: &mut Random) -> Input {
    // predefined 44 has no text, so the record that decides index 1 has none
    let record = bytes(1, &number(2, 44));
    let table = if random.once_in(2) { [bytes(1, &number(1, 1)), record].concat() } else { Vec::new() };
    let list = |random: &mut Random, field| {
        let mut parameters = Vec::new();
        for _ in 0..random.below(5) {
            let name = match random.below(7) {
                0 => Vec::new(),
                1 => bytes(2, &[]),
                2 => number(2, 1 << 32),
                3 => number(2, 9),
                4 => number(2, 1),
                _ => number(2, *random.pick(&[0, 3])),
            };
            let mut fields = vec![name, number(1, random.below(4) as u64)];
            for (inline, index) in [(3, 5), (4, 6)] {
                match random.below(9) {
                    0 => fields.push(bytes(inline, &last_type(random))),
                    1 => fields.push(bytes(inline, random.pick::<&[u8]>(&[&[0x0b], &[0x80], &[0x80; 11], &[0x0a, 1]]))),
                    2 => fields.push(number(index, random.below(3) as u64)),
                    3 => fields.push(bytes(inline, &[])),
                    4 if inline == 4 => {}
                    _ => fields.push(bytes(inline, &number(6, *random.pick(&[0, 2, 3, 4])))),
                }
            }
            if random.once_in(20) {
                fields.push(vec![0x0b]);
            }
            random.shuffle(&mut fields);
            parameters.push(if random.once_in(15) { number(field, 1) } else { bytes(field, &fields.concat()) });
        }
        parameters
    };
    let mut function = list(random, 6);
    function.push(number(2, 0));
    function.push(bytes(3, &number(6, *random.pick(&[2, 4, 4]))));
    if random.once_in(3) {
        function.push(bytes(5, &number(6, 2)));
    }
    if random.once_in(3) {
        function.push(number(9, 8192 + 6));
    }
    let constructor = list(random, 2);
    let (k, functions) = *random.pick(&[(1, 9), (2, 3), (5, 3)]);
    let mut body = vec![bytes(functions, &function.concat()), bytes(8, &constructor.concat())];
    body.push(type_table(&[number(6, 2), looked_up_argument(1)], None));
    random.shuffle(&mut body);
    let mut input = package(&table, &body, STRINGS_FOR_TYPES);
    input.k = k;
    input
}

/// Entries that hold the next one twice: 2,047 types from eleven, and a few beside them.
fn types_by_doubling(random: &mut Random) -> Input {
    let entry = |next: u64| [looked_up_argument(next), looked_up_argument(next)].concat();
    let mut entries: Vec<Vec<u8>> = (1..11).map(entry).collect();
    entries.push(number(6, 2));
    let mut body = vec![bytes(3, &function_with(0, &number(7, 0)))];
    for _ in 0..random.below(3) {
        let last = last_type(random);
        body.push(returns(&last));
    }
    if random.once_in(3) {
        body.insert(0, returns(&last_type(random)));
    }
    if random.once_in(4) {
        entries[0] = [looked_up_argument(0), looked_up_argument(0)].concat();
    }
    body.push(type_table(&entries, None));
    package(&[], &body, STRINGS_FOR_TYPES)
}

/// One type with very many arguments.
fn types_wide(random: &mut Random) -> Input {
    let count = around_limit(random);
    let mut ty = [number(6, 1), inline_argument(&number(6, 2)).repeat(count - 2)].concat();
    ty.extend(inline_argument(&last_type(random)));
    package(&[], &[returns(&ty)], STRINGS_FOR_TYPES)
}

/// A number of types around the allowance, stars among them; the last is a star or follows one.
fn stars_around_limit(random: &mut Random) -> Input {
    let count = around_limit(random);
    let stars = *random.pick(&[1, 2, 1000, count - 1]);
    let others = inline_argument(&number(6, 2)).repeat(count - 1 - stars);
    let mut before = star(&[]).repeat(stars - 1);
    if random.once_in(2) {
        before.extend(others);
    } else {
        before = [others, before].concat();
    }
    let mut ty = [number(6, *random.pick(&[1, 2])), before, any_star(random)].concat();
    match random.below(4) {
        0 => ty.extend(inline_argument(&last_type(random))),
        1 => ty.extend(any_star(random)),
        2 => ty.extend(bytes(2, &[0x0b])),
        _ => {}
    }
    if random.once_in(3) {
        let function = bytes(3, &function_with(0, &number(7, 0)));
        return package(&[], &[function, type_table(&[ty], None)], STRINGS_FOR_TYPES);
    }
    package(&[], &[returns(&ty)], STRINGS_FOR_TYPES)
}

/// Stars inside inline types around depth 64, or inside entries that are looked up; an argument of the same depth by index may be dropped.
fn deep_stars(random: &mut Random) -> Input {
    let mut arguments = vec![any_star(random), looked_up_argument(0)];
    random.shuffle(&mut arguments);
    let inside = [number(6, 1), arguments.concat()].concat();
    if random.once_in(3) {
        let function = bytes(3, &function_with(0, &number(7, 0)));
        return package(&[], &[function, type_table(&[inside], Some(random.below(2) as u64))], STRINGS_FOR_TYPES);
    }
    let ty = chain(near_64(random), &inside);
    package(&[], &[returns(&ty), type_table(&[number(6, 2)], None)], STRINGS_FOR_TYPES)
}

/// Few arguments with every projection: inline, by index, dropped or a star.
fn projections(random: &mut Random) -> Input {
    let stars = random.once_in(2);
    let mut arguments = vec![number(6, 1 + random.below(2) as u64)];
    for _ in 0..1 + random.below(4) {
        let mut fields = Vec::new();
        let projection = *random.pick(&[0, 1, 2, 3, 4, 1 << 32, (1 << 32) + 3, u64::MAX]);
        match random.below(8) {
            0 => {}
            1 => fields.push(bytes(1, &[])),
            2 => fields.push([&[0x0d][..], &[3, 0, 0, 0]].concat()),
            3 => fields.push([&[0x09][..], &[3, 0, 0, 0, 0, 0, 0, 0]].concat()),
            _ => fields.push(number(1, if projection == 3 && !stars { 1 } else { projection })),
        }
        if random.once_in(4) {
            fields.push(number(1, random.below(4) as u64));
        }
        match random.below(6) {
            0..=2 => fields.push(bytes(2, &number(6, 2))),
            3 => fields.push(number(3, random.below(3) as u64)),
            4 => fields.push(bytes(2, if stars { &[0x0b] } else { &[] })),
            _ => {}
        }
        if random.once_in(4) {
            random.shuffle(&mut fields);
        }
        arguments.push(bytes(2, &fields.concat()));
    }
    random.shuffle(&mut arguments);
    let ty = arguments.concat();
    let entries = [number(6, 4), [number(6, 1), looked_up_argument(0)].concat()];
    let function = function_with(0, &[bytes(6, &[number(2, 3), bytes(3, &ty)].concat()), bytes(3, &ty)].concat());
    package(&[], &[bytes(3, &function), type_table(&entries, Some(1))], STRINGS_FOR_TYPES)
}

/// An entry with many lookups past the table, entered some times.
fn failing_lookups(random: &mut Random) -> Input {
    let entry = [looked_up_argument(9).repeat(1 + random.below(300)), looked_up_argument(1)].concat();
    let functions = bytes(3, &function_with(0, &number(7, 0))).repeat(1 + random.below(30));
    package(&[], &[functions, type_table(&[entry, number(6, 2)], None)], STRINGS_FOR_TYPES)
}

/// Very many records of one index each.
fn many_records(random: &mut Random) -> Input {
    let count = 1 + random.below(3000);
    let table: Vec<u8> = (0..count).flat_map(|_| bytes(1, &number(2, random.below(45) as u64))).collect();
    let member = |random: &mut Random| bytes(4, &number(2, (count + 2).saturating_sub(random.below(6)) as u64));
    let body: Vec<Vec<u8>> = (0..20).map(|_| member(random)).collect();
    package(&table, &body, &["a", "b"])
}

/// Ranges that sum to a number around 65,536 or far above, and names at their edges.
fn ranges(random: &mut Random) -> Input {
    let large = *random.pick(&[3, 300, 65_000, 65_536, 65_537, 1 << 20, u64::from(u32::MAX)]);
    let sizes = [*random.pick(&[0, 1, 2, 7]), large, *random.pick(&[1, 536, 3])];
    let mut table = Vec::new();
    let mut edges = Vec::new();
    let mut first = 0;
    for (place, size) in sizes.iter().enumerate() {
        let decides = if random.once_in(4) { Vec::new() } else { number(2, place as u64 + 5) };
        table.extend(bytes(1, &[number(1, *size), decides].concat()));
        first += (*size).max(1);
        edges.extend([first - 1, first]);
    }
    let body: Vec<Vec<u8>> = edges.iter().map(|edge| bytes(4, &number(2, *edge))).collect();
    package(&table, &body, &["a", "b", "c"])
}

/// Properties whose names sum to a number of bytes around the limit.
fn long_text(random: &mut Random) -> Input {
    let total = TEXT as usize - 2 + random.below(5);
    let wide = random.once_in(3);
    let (character, width) = if wide { ("\u{2020}", 3) } else { ("a", 1) };
    let each = 1 + random.below(3000);
    let rest = total % (each * width);
    let strings = [character.repeat(each), "b".repeat(rest)];
    // The last name is a property's or an alias's.
    let last = *random.pick(&[4, 4, 5]);
    let mut body = bytes(4, &number(2, 0)).repeat(total / (each * width));
    body.extend(bytes(last, &number(2, 1)));
    // An empty text at the end has a ref of its own.
    if random.once_in(3) {
        body.extend(bytes(last, &number(2, 2)));
    }
    package(&[], &[body], &[&strings[0], &strings[1], ""])
}

/// Very many of the shortest members.
fn many_members(random: &mut Random) -> Input {
    let count = *random.pick(&[100, 3000, 10_000, 16_383]);
    let (k, member) = match random.below(5) {
        0 => (1, bytes(8, &[])),
        1 => (1, bytes(9, &[])),
        2 => (1, bytes(11, &number(2, 0))),
        3 => (2, bytes(5, &number(2, 0))),
        _ => (2, bytes(3, &number(2, 0))),
    };
    let count = count.min((UNITS - 2) / member.len());
    Input::new(k, payload(&[], &member.repeat(count)), &[Vec::new()])
}

/// Counts at the limits of what a host may hand in, and one more.
fn host_limits(random: &mut Random) -> Input {
    let over = random.below(2);
    let mut input = package(&[], &[returns(&number(6, 2))], STRINGS_FOR_TYPES);
    match random.below(3) {
        0 => {
            // Strangers fill d1 up.
            let have = input.d1.len();
            input.d1.extend(marked(&vec![0; UNITS + over - have])[1..].iter());
        }
        1 => {
            let mut strings: Vec<Vec<u16>> = STRINGS_FOR_TYPES.iter().map(|string| units(string)).collect();
            let have: usize = strings.iter().map(Vec::len).sum();
            strings.push(vec![0x61; UNITS + over - have]);
            input.set_strings(&strings);
        }
        _ => {
            let strings: Vec<Vec<u16>> = (0..STRINGS + over).map(|place| units(&place.to_string())).collect();
            input.set_strings(&strings);
        }
    }
    if random.once_in(4) {
        input.mv[0] = 3;
        input.k = 3;
    }
    input
}

/// String ends that fall, that end elsewhere, or that are as they should be.
fn string_ends(random: &mut Random) -> Input {
    let mut input = package(&[], &[returns(&number(6, 1))], &["f", "kotlin/Unit", ""]);
    match random.below(8) {
        0 => input.ends = vec![1, 12, 11, 12],
        1 => input.ends = vec![1, 13],
        2 => input.ends = vec![1, 11],
        3 => input.ends = Vec::new(),
        4 => input = Input { d2: Vec::new(), ends: Vec::new(), ..input },
        5 => input = Input { d2: Vec::new(), ends: vec![0], ..input },
        6 => input.ends = vec![u32::MAX, 12],
        _ => input.ends = vec![0, 0, 12, 12],
    }
    input.k = *random.pick(&[1, 2, 3, 5]);
    input.mv[0] = *random.pick(&[1, 1, 2, 3]);
    input
}

/// Types nested by hundreds or by thousands.
fn long_chain(random: &mut Random) -> Input {
    let length = *random.pick(&[200, 700, 1000, 2047, 2048, 2049, 3000]);
    let ty = chain(length, &number(6, 1));
    let ty = if random.once_in(3) { chain(length, &[0x0b]) } else { ty };
    package(&[], &[returns(&ty)], STRINGS_FOR_TYPES)
}

/// Old forms of every length up to some units.
fn old_lengths(random: &mut Random) -> Input {
    let body = returns(&number(6, 1 + random.below(4) as u64));
    let bytes: Vec<u8> = payload(&[], &body)[1..].iter().map(|unit| *unit as u8).collect();
    let mut d1 = packed(&bytes);
    d1[0] |= 0x80;
    d1.truncate(if random.once_in(2) { d1.len() } else { random.below(d1.len() + 1) });
    for _ in 0..random.below(9) {
        d1.push(random.below(256) as u16);
    }
    let mut input = package(&[], &[], STRINGS_FOR_TYPES);
    input.d1 = d1;
    input
}

/// Arrays of arrays, with what stands inside them changing.
fn arrays(random: &mut Random) -> Input {
    let inside = match random.below(5) {
        0 => number(6, 4),
        1 => [number(6, 2), number(3, 1)].concat(),
        2 => Vec::new(),
        3 => looked_up_argument(5),
        _ => number(6, 1),
    };
    let before = match random.below(6) {
        0 | 1 => looked_up_argument(7),
        2 => star(&[]),
        _ => Vec::new(),
    };
    let projection = if random.once_in(3) { number(1, random.below(3) as u64) } else { Vec::new() };
    let array = |ty: Vec<u8>, before: &[u8]| {
        let argument = bytes(2, &[projection.clone(), bytes(2, &ty)].concat());
        [&number(6, 1), before, &argument].concat()
    };
    // What stands before the element stands in each array, or in the innermost alone.
    let innermost = random.once_in(2);
    let outer: &[u8] = if innermost { &[] } else { &before };
    let depth = random.below(6);
    let ty = (0..depth).fold(inside, |ty, place| array(ty, if place == 0 { &before } else { outer }));
    let parameter = bytes(6, &[number(2, 3), bytes(3, &ty)].concat());
    let receiver = if random.once_in(3) { bytes(5, &ty) } else { Vec::new() };
    let function = function_with(0, &[parameter, receiver, bytes(3, &ty)].concat());
    package(&[], &[bytes(3, &function)], STRINGS_FOR_TYPES)
}

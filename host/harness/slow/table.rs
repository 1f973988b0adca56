//! Entries of the type table that are entered again and again. Nothing is noted of types: each entering walks what joining has left of its entry.

use super::walks::STRANGER;
use super::{package, Slow};
use crate::limits::{TYPES, UNITS};
use crate::shapes::{bytes, function_with, inline_argument, looked_up_argument, number, star, type_table};

/// The class names of entries.
const ARRAY: u64 = 1;
const INT: u64 = 2;

/// Types inside one another that joining goes into: `LEVELS` of the reader's joined_types.
const JOINED: usize = 128;

pub fn inputs() -> Vec<Slow> {
    let mut all = entered_by_functions();
    all.extend(joined());
    all.extend(inside());
    all.extend(nested());
    all.extend(at_depth_64());
    all.extend(inline_at_depth_64());
    all.extend(broken());
    all.extend(of_one_walk());
    all
}

fn slow(words: impl Into<String>, members: &[u8], entries: &[Vec<u8>]) -> Slow {
    let names = ["f", "kotlin/Array", "kotlin/Int"].map(String::from);
    let body = [members, &type_table(entries, None)].concat();
    Slow { words: words.into(), by_type_table: true, input: package(&[], &body, &names) }
}

/// A function whose return type is the first entry.
fn function() -> Vec<u8> {
    bytes(3, &function_with(0, &number(7, 0)))
}

/// As many copies of a piece as fit into the entry of a kind of input, when so many bytes are taken by the rest.
fn many(piece: &[u8], taken: usize) -> Vec<u8> {
    piece.repeat((UNITS - 64 - taken) / piece.len())
}

fn array(rest: &[u8]) -> Vec<u8> {
    [&number(6, ARRAY), rest].concat()
}

/// Entries that have a last one entered 2,024 times for 24 types besides: the first holds the second 23 times, and that the last 88 times.
const FANNED: usize = 550;

fn fanned(last: Vec<u8>) -> Vec<Vec<u8>> {
    vec![looked_up_argument(1).repeat(23), looked_up_argument(2).repeat(88), last]
}

/// The same for a last entry that enters one more type: 44 besides 1,001 times two types.
fn fanned_half(last: Vec<u8>) -> Vec<Vec<u8>> {
    vec![looked_up_argument(1).repeat(11), looked_up_argument(2).repeat(91), last]
}

/// What stands in an entry and is no part of any sheet, in pieces as short as they can be.
fn pieces() -> Vec<(&'static str, Vec<u8>)> {
    vec![
        ("fields that nothing asks for", STRANGER.to_vec()),
        ("second names and flags", [number(6, ARRAY), number(3, 0)].concat()),
        ("arguments without a type", bytes(2, &[])),
        ("arguments with an index past the table", looked_up_argument(900)),
    ]
}

fn entered_by_functions() -> Vec<Slow> {
    let half = function().repeat(2047);
    let strangers = array(&STRANGER.repeat(8000));
    let failing = array(&looked_up_argument(900).repeat(3000));
    let out = array(&bytes(2, &[number(1, 1), number(3, 900)].concat()).repeat(2500));
    let aliases = bytes(5, &[number(2, 0), number(5, 0), number(7, 0)].concat()).repeat(1023);
    let parameters = bytes(3, &function_with(0, &bytes(6, &[number(2, 0), number(5, 0)].concat()).repeat(2048)));
    let of_parameters = array(&many(&looked_up_argument(900), parameters.len()));
    vec![
        slow("a large entry of failing lookups, entered 1,024 times", &function(), &doubling(true)),
        slow("2,047 types by index", &function(), &doubling(false)),
        slow("an entry with 8,000 fields that nothing asks for, each function's type", &half, &[strangers.clone()]),
        slow("the same entry, both types of each alias", &aliases, &[strangers]),
        slow("an array with 3,000 failing arguments, each function's type", &half, &[failing]),
        slow("the same with 2,500, each out", &half, &[out]),
        slow("an array of failing arguments, each parameter's type in one function", &parameters, &[of_parameters]),
    ]
}

/// Ten entries that each hold the next one twice, and a last that is long or short.
fn doubling(long: bool) -> Vec<Vec<u8>> {
    let mut entries: Vec<Vec<u8>> = (1..11).map(|next| looked_up_argument(next).repeat(2)).collect();
    let doubled = entries.iter().map(Vec::len).sum::<usize>() + 100;
    entries.push(if long { many(&looked_up_argument(900), doubled) } else { number(6, INT) });
    entries
}

/// What joining makes one field of, in an entry that is entered 2,024 times; with an argument that is kept after it, 1,001 times.
fn joined() -> Vec<Slow> {
    let mut all = Vec::new();
    for (words, piece) in pieces() {
        let last = array(&many(&piece, FANNED));
        all.push(slow(format!("an entry of {words}, entered 2,024 times"), &function(), &fanned(last.clone())));
        let kept = [last, inline_argument(&number(6, INT))].concat();
        let words_kept = format!("the same before an argument that is kept, entered 1,001 times: {words}");
        all.push(slow(words_kept, &function(), &fanned_half(kept)));
        let functions = function().repeat(1023);
        let kept = [array(&many(&piece, functions.len() + 100)), inline_argument(&number(6, INT))].concat();
        all.push(slow(format!("the same as type of each function: {words}"), &functions, &[kept]));
    }
    all
}

/// In an argument's message, in the type inline in it, and between arguments that are kept, in runs of four bytes, which are left.
fn inside() -> Vec<Slow> {
    let strangers = many(&STRANGER, FANNED);
    let argument = |rest: &[u8]| array(&bytes(2, rest));
    let kept = argument(&[strangers.clone(), bytes(2, &number(6, INT))].concat());
    let second = argument(&[bytes(2, &number(6, INT)), many(&number(3, 0), FANNED)].concat());
    let a_star = argument(&[many(&bytes(2, &[]), FANNED), number(1, 3)].concat());
    let between = [star(&[]), bytes(2, &[]).repeat(2)].concat().repeat(2000);
    vec![
        slow(
            "an argument without a type and with fields that nothing asks for",
            &function(),
            &fanned(argument(&strangers)),
        ),
        slow("an argument with a type after fields that nothing asks for", &function(), &fanned_half(kept)),
        slow("an argument with a type and then indices", &function(), &fanned_half(second)),
        slow("a star behind types inline that are not read", &function(), &fanned_half(a_star)),
        slow("2,000 stars with two arguments without a type after each", &function(), &[array(&between)]),
    ]
}

/// Types inline in an entry, one in another; the innermost holds what costs much. Each visit enters all of them.
fn nested() -> Vec<Slow> {
    let mut all = Vec::new();
    for levels in [2, 3, 65, JOINED - 1, JOINED, JOINED + 1, 2 * JOINED, 400] {
        for (words, piece) in pieces() {
            let functions = function().repeat(TYPES as usize / levels);
            let innermost = array(&many(&piece, functions.len() + 8 * levels + 100));
            let entry = (1..levels).fold(innermost, |ty, _| inline_argument(&ty));
            all.push(slow(format!("{levels} types inline one in another, in the last {words}"), &functions, &[entry]));
        }
    }
    all
}

/// Arguments by index that are dropped by their depth alone: where a look-up is left they are kept. The last of 32 entries is entered 2,000 times.
fn at_depth_64() -> Vec<Slow> {
    let by_index = |count: usize| many(&looked_up_argument(0), count);
    let strange = [number(1, 1), number(3, 0)].concat();
    let parameters = bytes(3, &function_with(0, &bytes(6, &[number(2, 0), number(5, 0)].concat()).repeat(61)));
    vec![
        slow("arguments by index at depth 64", &function(), &chained(30, 125, array(&by_index(1000)))),
        slow("the same with a projection", &function(), &chained(30, 125, array(&many(&bytes(2, &strange), 1000)))),
        slow(
            "the same of a class that is no array",
            &function(),
            &chained(30, 125, [number(6, INT), by_index(1000)].concat()),
        ),
        slow("the same with types inline between", &function(), &chained_inline(array(&by_index(1100)))),
        slow("arguments by index at depth 64, of a type inline", &deep_function(62, 1500), &[array(&by_index(7000))]),
        slow(
            "arguments by index at depth 64 of a type inline in an entry, of a type inline",
            &deep_function(61, 900),
            &[inline_argument(&array(&by_index(7000)))],
        ),
        slow(
            "32 arrays one in another by index, each function's type with its descriptor: arguments by index in the last",
            &function().repeat(63),
            &arrays_in_a_chain(array(&by_index(1500))),
        ),
        slow(
            "42 arrays by index and inline in turn, each function's type with its descriptor: arguments by index in the last, inline",
            &bytes(3, &function_with(0, &bytes(3, &array(&looked_up_argument(0))))).repeat(46),
            &arrays_inline_in_a_chain(array(&by_index(1500))),
        ),
        slow(
            "the same of 61 parameters of one function, whose descriptor is longer than 256 bytes: an argument is kept behind them",
            &parameters,
            &arrays_in_a_chain([array(&by_index(2000)), inline_argument(&number(6, INT))].concat()),
        ),
        slow(
            "the same beside 1,750 functions, which make the body be walked twice",
            &[parameters.clone(), bytes(3, &number(2, 0)).repeat(1750)].concat(),
            &arrays_in_a_chain([array(&by_index(8500)), inline_argument(&number(6, INT))].concat()),
        ),
    ]
}

/// The same in types inline, one in another, of an entry that is entered where look-ups are left: only the innermost type's arguments stand at depth 64.
/// With an odd number of them the function's own type is inline, and holds the first entry.
fn inline_at_depth_64() -> Vec<Slow> {
    let mut all = Vec::new();
    for levels in [1, 2, 3, 4, 10, 20, 40] {
        let (member, before) =
            if levels % 2 == 0 { (function(), 30 - levels / 2) } else { (inline_function(), 29 - levels / 2) };
        let innermost = array(&many(&looked_up_argument(0), 1000));
        let around = |before: &[u8], after: &[u8]| {
            (0..levels).fold(innermost.clone(), |ty, _| [before, &inline_argument(&ty), after].concat())
        };
        let deeper = inline_argument(&around(&[], &[]));
        let mut with = |words: &str, types: usize, last: Vec<u8>| {
            let words =
                format!("arguments by index at depth 64 of the last type inline in an entry, of {levels}{words}");
            all.push(slow(words, &member, &chained(before, 2000 / types / 16, last)));
        };
        with("", levels + 1, around(&[], &[]));
        with(", and at depth 65 of one more", levels + 2, deeper);
        with(", each after a star", 2 * levels + 1, around(&star(&[]), &[]));
        with(", each before a star", 2 * levels + 1, around(&[], &star(&[])));
    }
    all
}

/// A function whose return type is inline, with the first entry as its argument.
fn inline_function() -> Vec<u8> {
    bytes(3, &function_with(0, &bytes(3, &looked_up_argument(0))))
}

/// So many entries that each hold the next one, then one that is held 16 times and holds the last so many times.
fn chained(before: usize, count: usize, last: Vec<u8>) -> Vec<Vec<u8>> {
    let next = |place: usize| looked_up_argument(place as u64 + 1);
    let mut entries: Vec<Vec<u8>> = (0..before - 1).map(next).collect();
    entries.push(next(before - 1).repeat(16));
    entries.push(next(before).repeat(count));
    entries.push(last);
    entries
}

/// Arrays that each hold the next one, down to depth 64, then one more entry.
fn arrays_in_a_chain(last: Vec<u8>) -> Vec<Vec<u8>> {
    let mut entries: Vec<Vec<u8>> = (1..32).map(|next| array(&looked_up_argument(next))).collect();
    entries.push(last);
    entries
}

/// Arrays that each hold the next one in an array inline, three steps of depth each, down to depth 62, then one that holds the last inline.
fn arrays_inline_in_a_chain(last: Vec<u8>) -> Vec<Vec<u8>> {
    let around = |inner: &[u8]| array(&inline_argument(&array(inner)));
    let mut entries: Vec<Vec<u8>> = (1..21).map(|next| around(&looked_up_argument(next))).collect();
    entries.push(array(&inline_argument(&last)));
    entries
}

/// Entries that each hold the next one in a type inline: three steps of depth each.
fn chained_inline(last: Vec<u8>) -> Vec<Vec<u8>> {
    let next = |place: usize, count: usize| inline_argument(&looked_up_argument(place as u64 + 1).repeat(count));
    let mut entries: Vec<Vec<u8>> = (0..19).map(|place| next(place, 1)).collect();
    entries.push(next(19, 16));
    entries.push(next(20, 120));
    entries.push(last);
    entries
}

/// A function whose type has so many types inline one in another; the innermost holds the first entry so many times.
fn deep_function(levels: usize, times: usize) -> Vec<u8> {
    let ty = (1..levels).fold(looked_up_argument(0).repeat(times), |ty, _| inline_argument(&ty));
    bytes(3, &function_with(0, &bytes(3, &ty)))
}

/// A broken argument at the end, in an entry that is entered and in one that isn't.
fn broken() -> Vec<Slow> {
    let last = |piece: &[u8]| [array(&many(piece, FANNED + 500)), bytes(2, &[0x0b])].concat();
    let mut all = Vec::new();
    for (words, piece) in pieces() {
        all.push(slow(format!("{words}, then a broken argument"), &function(), &fanned(last(&piece))));
        let mut entries = fanned(number(6, INT));
        entries.push(last(&piece));
        all.push(slow(format!("the same in an entry that isn't entered: {words}"), &function(), &entries));
    }
    all
}

/// Tables that cost as much as they can where each entry is walked once.
fn of_one_walk() -> Vec<Slow> {
    let entries = |entry: &[u8], count: usize| vec![entry.to_vec(); count];
    let last = |count: u64| bytes(3, &function_with(0, &number(7, count - 1)));
    let deep = (1..3900).fold(number(6, INT), |ty, _| inline_argument(&ty));
    let inline = many(&inline_argument(&[]), 100);
    let nothing = many(&bytes(2, &[]), 100);
    vec![
        slow("16,000 entries without a field", &last(16_000), &entries(&[], 16_000)),
        slow(
            "6,000 entries without a field, each function's type the last",
            &last(6000).repeat(2040),
            &entries(&[], 6000),
        ),
        slow(
            "5,000 entries with a field that nothing asks for",
            &last(5000),
            &entries(&[0x78, 0x00, 0x78, 0x00], 5000),
        ),
        slow("an entry of 3,900 types inline one in another, not entered", &function(), &[number(6, INT), deep]),
        slow("an entry of types inline without a field, not entered", &function(), &[number(6, INT), inline]),
        slow("an entry of arguments without a type, not entered", &function(), &[number(6, INT), nothing]),
    ]
}

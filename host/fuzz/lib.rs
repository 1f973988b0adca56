//! A libFuzzer target: an input is a program's input, and the reader is held to the original Rust on it; what is told of its strings to the second
//! reading; then both conversions of its d1 to their second implementation.
//!
//! What guides the search are the branches of the original, of the second reading and, where host/fuzz/library has
//! built it so, of the static library. An input that is found wrong can be given to `compare --file`.

use harness::conversion::{convert, length, Converter, Lender, Way};
use harness::damage::damaged;
use harness::expected::{expected, Judge};
use harness::input::Input;
use harness::limits::{Areas, Beside};
use harness::made;
use harness::random::Random;
use harness::reader::{Caller, Reader};
use std::cell::RefCell;

extern "C" {
    fn LLVMFuzzerMutate(data: *mut u8, size: usize, max_size: usize) -> usize;
}

thread_local! {
    static CALLER: RefCell<Caller> = RefCell::new(Caller::default());
    static LENDER: RefCell<Lender> = RefCell::new(Lender::default());
}

#[no_mangle]
pub unsafe extern "C" fn LLVMFuzzerTestOneInput(data: *const u8, size: usize) -> i32 {
    let Some(input) = Input::parse(slice(data, size)) else {
        return -1;
    };
    let accepted = check(&input, Areas::PROGRAM);
    if let Some((sheet, text)) = accepted {
        check(&input, Areas { sheet, text });
        check(&input, Areas { sheet: sheet - 1, text });
    }
    check_strings(&input);
    Way::BOTH.into_iter().for_each(|way| check_conversion(way, &input.d1));
    0
}

/// Converts d1 into areas that are a unit short, just enough and longer, and ends the run where an answer isn't what it must be.
fn check_conversion(way: Way, d1: &[u16]) {
    let enough = length(way, d1.len());
    for room in [enough.saturating_sub(1), enough, enough + 3] {
        let expected = convert(way, d1, room);
        let converter = Converter::beside(Reader::DEFAULT);
        let (_, difference) = LENDER.with_borrow_mut(|lender| lender.call(converter, way, d1, room, &expected));
        if let Some(words) = difference {
            eprintln!("{}, area of {room} units: {words}", way.words());
            std::process::abort();
        }
    }
}

/// Asks for the strings that the reading falls to, in areas that are a byte short, just enough and longer, and ends the run likewise.
fn check_strings(input: &Input) {
    let judge = Judge::of(input);
    for area in [-1, 0, 3].map(|more| Beside(more).length(input)) {
        let expected = judge.used(area);
        let difference = |caller: &mut Caller| caller.difference_in_strings(Reader::DEFAULT, input, area, &expected);
        if let Some(words) = CALLER.with_borrow_mut(difference) {
            eprintln!("area of {area} bytes: {words}");
            std::process::abort();
        }
    }
}

/// Reads an input and ends the run where the answer isn't what it must be; gives the lengths of an accepted one.
fn check(input: &Input, areas: Areas) -> Option<(usize, usize)> {
    let expected = expected(input, areas);
    let difference = CALLER.with_borrow_mut(|caller| caller.difference(Reader::DEFAULT, input, areas, &expected.whole));
    let in_room = || CALLER.with_borrow_mut(|caller| caller.difference_in_room(Reader::DEFAULT, input, &expected.room));
    let difference = difference.or_else(in_room).or(expected.disagreement);
    if let Some(words) = difference {
        eprintln!("areas {} {}: {words}; it must be {}", areas.sheet, areas.text, expected.whole.line());
        std::process::abort();
    }
    let answer = expected.whole.answer;
    (answer.number == 0).then_some((answer.sheet as usize, answer.text as usize))
}

/// Changes an input: libFuzzer's way on the bytes of d1, or by fields with their lengths kept right.
#[no_mangle]
pub unsafe extern "C" fn LLVMFuzzerCustomMutator(data: *mut u8, size: usize, max_size: usize, seed: u32) -> usize {
    let mut random = Random::new(u64::from(seed));
    let mut input = Input::parse(slice(data, size)).unwrap_or_else(|| made::input(&mut random));
    if random.once_in(2) {
        let other = made::input(&mut random);
        input = damaged(&mut random, &input, &other);
    } else {
        input.d1 = mutated(&input.d1);
    }
    let bytes = input.to_bytes();
    if bytes.len() > max_size {
        return size;
    }
    std::ptr::copy_nonoverlapping(bytes.as_ptr(), data, bytes.len());
    bytes.len()
}

/// libFuzzer's own change of the bytes after the first unit, which stays.
fn mutated(d1: &[u16]) -> Vec<u16> {
    let first = d1.first().copied().unwrap_or(0);
    let mut bytes: Vec<u8> = d1.iter().skip(1).map(|unit| *unit as u8).collect();
    let size = bytes.len();
    bytes.resize(size + 64, 0);
    let size = unsafe { LLVMFuzzerMutate(bytes.as_mut_ptr(), size, bytes.len()) };
    std::iter::once(first).chain(bytes[..size].iter().map(|byte| u16::from(*byte))).collect()
}

unsafe fn slice<'a>(data: *const u8, size: usize) -> &'a [u8] {
    if size == 0 {
        return &[];
    }
    std::slice::from_raw_parts(data, size)
}

//! One program input, or a file of them.

use crate::options::Options;
use harness::corpus;
use harness::expected::{expected, original_answer, Judge};
use harness::input::Input;
use harness::limits::Areas;
use harness::reader::Caller;
use harness::second::{self, Reading};

/// Prints the line that is right and how the reader's answer differs from it, if it does.
pub fn one(bytes: &[u8], options: &Options) -> bool {
    let Some(input) = Input::parse(bytes) else {
        println!("input");
        return true;
    };
    let areas = Areas { sheet: options.sheet, text: options.text };
    let expected = expected(&input, areas);
    println!("{}", expected.whole.line());
    println!("types {}, settled by {:?}", expected.whole.answer.types, expected.basis);
    if let Some(line) = &expected.disagreement {
        println!("the second reading has {line}");
    }
    println!("room {:?}", expected.room.to_array());
    println!("strings fallen to {}", fallen_to(&input));
    let mut caller = Caller::default();
    let difference = caller.difference(options.reader, &input, areas, &expected.whole);
    let difference = difference.or_else(|| caller.difference_in_room(options.reader, &input, &expected.room));
    let (area, judge) = (input.ends.len(), Judge::of(&input));
    let difference =
        difference.or_else(|| caller.difference_in_strings(options.reader, &input, area, &judge.used(area)));
    match &difference {
        Some(words) => println!("{} differs: {words}", options.reader.name()),
        None => println!("{} agrees", options.reader.name()),
    }
    difference.is_none() && expected.disagreement.is_none()
}

/// Prints for each input of a file the line that is right.
pub fn lines(file: &[u8]) -> bool {
    each(file, |input| expected(input, Areas::PROGRAM).whole.line())
}

/// Prints for each input of a file the Rust's own line, without what sheets have got since.
pub fn original_lines(file: &[u8]) -> bool {
    each(file, |input| original_answer(input).map_or("not run".to_string(), |whole| whole.line()))
}

/// The indices of the strings that the reading falls to, with how many strings there are; of what is refused number and detail.
fn fallen_to(input: &Input) -> String {
    let Reading { whole, fallen, .. } = second::read(input);
    if whole.answer.number != 0 {
        return format!("refused {} {}", whole.answer.number, whole.answer.detail);
    }
    let places: Vec<String> = (0..fallen.len()).filter(|place| fallen[*place]).map(|place| place.to_string()).collect();
    format!("{}{} of {}", places.join(" "), if places.is_empty() { "none" } else { "" }, fallen.len())
}

fn each(file: &[u8], line: impl Fn(&Input) -> String) -> bool {
    for bytes in corpus::split(file) {
        match Input::parse(bytes) {
            Some(input) => println!("{}", line(&input)),
            None => println!("input"),
        }
    }
    true
}

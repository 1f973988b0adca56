//! Cases that are written down one by one: the lists in `cases/`, and the inputs of docs/DIFFERENCES.md.

use crate::settled;
use harness::input::{from_hex, units, Input};
use harness::limits::Areas;

pub type Case = (Input, Areas);

/// The files of `cases/`, in the order in which they are run.
const LISTS: [&str; 18] = [
    "host_refusals",
    "kinds_and_versions",
    "fields",
    "records",
    "characters",
    "constructors",
    "functions",
    "parameters",
    "properties",
    "aliases",
    "types",
    "projections",
    "descriptors",
    "places",
    "areas",
    "edges",
    "limits",
    "classes",
];
const FOLDER: &str = concat!(env!("CARGO_MANIFEST_DIR"), "/vectors/cases");
const DIFFERENCES: &str = concat!(env!("CARGO_MANIFEST_DIR"), "/../docs/DIFFERENCES.md");

pub fn lists() -> Vec<(String, Vec<Case>)> {
    let mut lists: Vec<(String, Vec<Case>)> = LISTS.iter().map(|name| (name.to_string(), list(name))).collect();
    let files = std::fs::read_dir(FOLDER).expect("the folder of cases").count();
    assert_eq!(files, LISTS.len(), "a file of {FOLDER} is in no list");
    lists.push(("differences".to_string(), differences()));
    lists
}

fn list(name: &str) -> Vec<Case> {
    let text = std::fs::read_to_string(format!("{FOLDER}/{name}.txt")).expect("a list of cases");
    let lines = text.lines().filter(|line| !line.is_empty() && !line.starts_with('#'));
    lines.map(|line| case(line).unwrap_or_else(|| panic!("{name}: no case: {line}"))).collect()
}

/// `k=2 mv=1.9.0 d1=0000 d2="f","g" ends=1,2 areas=58,15`; mv, d1, d2 and ends may be left out.
fn case(line: &str) -> Option<Case> {
    let mut input = Input { mv: [1, 9, 0], ..Input::default() };
    let mut areas = None;
    for part in parts(line, ' ') {
        let (name, value) = part.split_once('=')?;
        match name {
            "k" => input.k = value.parse().ok()?,
            "mv" => input.mv = numbers(value.split('.'))?.try_into().ok()?,
            "d1" => input.d1 = repeated(value, d1_units)?.concat(),
            "d2" => input.set_strings(&repeated(value, string_units)?),
            "ends" => input.ends = repeated(value, |end| Some(vec![end.parse().ok()?]))?.concat(),
            "areas" => {
                let (sheet, text) = value.split_once(',')?;
                areas = Some(Areas { sheet: sheet.parse().ok()?, text: text.parse().ok()? });
            }
            _ => return None,
        }
    }
    Some((input, areas?))
}

fn numbers<'a>(words: impl Iterator<Item = &'a str>) -> Option<Vec<i32>> {
    words.map(|word| word.parse().ok()).collect()
}

/// The parts between separators, of which those inside a string are none.
fn parts(text: &str, separator: char) -> Vec<&str> {
    let (mut inside, mut escaped) = (false, false);
    let mut ends_part = |letter: char| {
        let ends = letter == separator && !inside;
        inside ^= letter == '"' && !escaped;
        escaped = letter == '\\' && !escaped;
        ends
    };
    text.split(|letter| ends_part(letter)).filter(|part| !part.is_empty()).collect()
}

/// What stands between commas, each as often as a `*` after it says.
fn repeated<T: Copy>(text: &str, one: impl Fn(&str) -> Option<Vec<T>>) -> Option<Vec<Vec<T>>> {
    let part = |part: &str| match part.rsplit_once('*') {
        Some((once, times)) if !times.ends_with('"') => Some(one(once)?.repeat(times.parse().ok()?)),
        _ => one(part),
    };
    parts(text, ',').into_iter().map(part).collect()
}

/// Bytes in hex, or one unit of four digits after 0x.
fn d1_units(text: &str) -> Option<Vec<u16>> {
    match text.strip_prefix("0x") {
        Some(unit) => Some(vec![u16::from_str_radix(unit, 16).ok()?]),
        None => Some(from_hex(text)?.into_iter().map(u16::from).collect()),
    }
}

/// A string in quotes; a unit that can't be shown is `\u` and four digits.
fn string_units(text: &str) -> Option<Vec<u16>> {
    let mut letters = text.strip_prefix('"')?.strip_suffix('"')?.chars();
    let mut string = Vec::new();
    while let Some(letter) = letters.next() {
        let shown = if letter == '\\' { letters.next()? } else { letter };
        if letter == '\\' && shown == 'u' {
            let digits: String = letters.by_ref().take(4).collect();
            string.push(u16::from_str_radix(&digits, 16).ok()?);
        } else {
            string.extend(units(shown.encode_utf8(&mut [0; 4])));
        }
    }
    Some(string)
}

/// The inputs of docs/DIFFERENCES.md, in areas two bytes longer than they need. The answer that stands there must be the right one.
fn differences() -> Vec<Case> {
    let text = std::fs::read_to_string(DIFFERENCES).expect("docs/DIFFERENCES.md");
    let mut cases: Vec<Case> = Vec::new();
    let mut lines = text.lines();
    while let Some(line) = lines.next() {
        if let Some(given) = line.strip_prefix("- Input: ") {
            let input = described(given).unwrap_or_else(|| panic!("no input: {line}"));
            let shown = lines.next().and_then(|line| line.strip_prefix("- Answer:")).expect("the input's answer");
            let shown = if shown.is_empty() { lines.next().expect("the answer's line") } else { shown };
            let right = format!("`{}`", right_answer(&input).line());
            assert_eq!(shown.trim(), right, "docs/DIFFERENCES.md: the answer to {given}");
            cases.push(with_room(input));
        } else if let Some(row) = line.strip_prefix("| `") {
            let (before, _) = cases.last().expect("an input before the table");
            let input = another_class(before, row).unwrap_or_else(|| panic!("no row of class names: {line}"));
            cases.push(with_room(input));
        }
    }
    cases
}

fn right_answer(input: &Input) -> harness::answer::Whole {
    settled(input, Areas::PROGRAM)
}

fn with_room(input: Input) -> Case {
    let answer = right_answer(&input).answer;
    (input, Areas { sheet: answer.sheet as usize + 2, text: answer.text as usize + 2 })
}

/// k 1, d1 `00 0100`, d2 "a", "b"; none for no strings, and `the unit D800 hex` for a string of that unit.
fn described(given: &str) -> Option<Input> {
    let (k, rest) = given.strip_prefix("k ")?.split_once(", d1 `")?;
    let (d1, d2) = rest.split_once("`, d2 ")?;
    let unit = |digits| u16::from_str_radix(digits, 16).ok();
    let strings = match d2.strip_prefix("the unit ") {
        Some(digits) => vec![vec![unit(digits.strip_suffix(" hex")?)?]],
        None if d2 == "none" => Vec::new(),
        None => d2.split(", ").map(string_units).collect::<Option<_>>()?,
    };
    Some(Input::new(k.parse().ok()?, d1.split(' ').map(unit).collect::<Option<_>>()?, &strings))
}

/// A table's row: the input before it with another second string, and the descriptor that it must get.
fn another_class(before: &Input, row: &str) -> Option<Input> {
    let cells: Vec<&str> = row.split('`').collect();
    let [name, _, _, _, descriptor, _] = cells[..] else { return None };
    let first = before.strings().next()?.to_vec();
    let input = Input::new(before.k, before.d1.clone(), &[first, units(name)]);
    let text = right_answer(&input).text;
    assert!(text.ends_with(descriptor.as_bytes()), "docs/DIFFERENCES.md: the descriptor of {name}");
    Some(input)
}

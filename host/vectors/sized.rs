//! Inputs with the sizes of the areas that they are read into, and the answers with all bytes of both areas.

use crate::cases::Case;
use crate::{answer, cases, examples, numbered, settled};
use harness::answer::{Answer, Whole, NUMBERS};
use harness::expected::{around, Judge};
use harness::input::hex;
use harness::limits::{Areas, TEXT};
use std::path::Path;

/// What the areas hold before an input is read into them.
const PATTERN: u8 = 0xa5;
/// Whole areas are written down, so inputs are short and few.
const LONGEST: usize = 80;
const SHORTEST: u64 = 23;
const LONGEST_SHEET: u64 = 150;
const ACCEPTED: usize = 26;
const REFUSED: usize = 4;

/// What the crate `replays` is run on beside its standard input and what it must write of that: a file for each list, its arguments, and all lines.
pub fn write(folder: &Path) {
    let data = folder.join("data");
    std::fs::create_dir_all(&data).expect("a folder to write to");
    let (mut arguments, mut lines) = (String::new(), String::new());
    let made = ("sized".to_string(), pairs());
    for (name, cases) in std::iter::once(made).chain(cases::lists()) {
        let mut bin = Vec::new();
        lines += &format!("{name}.bin\n");
        for (input, areas) in &cases {
            let bytes = input.to_bytes();
            for number in [bytes.len(), areas.sheet, areas.text] {
                bin.extend((number as u32).to_le_bytes());
            }
            bin.extend(bytes);
            lines += &line(&settled(input, *areas), *areas);
        }
        arguments += &format!("{name}.bin\n");
        std::fs::write(data.join(format!("{name}.bin")), &bin).expect("a file written");
        println!("{name}: {} inputs with areas", cases.len());
    }
    std::fs::write(folder.join("args"), &arguments).expect("a file written");
    std::fs::write(folder.join("stdout"), &lines).expect("a file written");
}

/// Both lengths, the number of types, number, detail, and the areas with the bytes that stay as they were.
fn line(whole: &Whole, areas: Areas) -> String {
    let Answer { number, detail, sheet, text, types } = whole.answer;
    let area = |size: usize, bytes: &[u8]| {
        let mut area = vec![PATTERN; size];
        area[..bytes.len()].copy_from_slice(bytes);
        if area.is_empty() {
            "-".to_string()
        } else {
            hex(&area)
        }
    };
    let (sheet_area, text_area) = (area(areas.sheet, &whole.sheet), area(areas.text, &whole.text));
    format!("{sheet} {text} {types} {number} {detail} {sheet_area} {text_area}\n")
}

fn pairs() -> Vec<Case> {
    let mut pairs = Vec::new();
    let mut seen = [0; NUMBERS];
    let examples = examples::marked_examples();
    let count = examples.len();
    for (place, input) in examples.into_iter().chain((0..4000).map(numbered)).enumerate() {
        let Some(whole) = answer(&input, Areas::PROGRAM) else {
            continue;
        };
        let Answer { number, sheet, .. } = whole.answer;
        let longest = if number == 0 { LONGEST } else { 4 * LONGEST };
        let short = input.d1.len() <= longest && input.d2.len() <= longest && input.ends.len() <= longest;
        // Of the sheets without declarations, the examples have enough.
        let shows = number != 0 || (sheet <= LONGEST_SHEET && (sheet > SHORTEST || place < count));
        let most = if number == 0 { ACCEPTED } else { REFUSED };
        if !short || !shows || seen[number as usize] == most {
            continue;
        }
        seen[number as usize] += 1;
        let mut areas = around(&Judge::of(&input));
        if number != 0 {
            areas.push(Areas { sheet: 32, text: 16 });
        }
        pairs.extend(areas.into_iter().map(|areas| (input.clone(), areas)));
    }
    // The longest text, in an area of just its length.
    let longest = examples::text_of(TEXT as usize);
    let enough = around(&Judge::of(&longest))[0];
    pairs.push((longest, enough));
    pairs
}

//! Writes inputs with the answer lines that are right, for a program that replays them. See host/README.md.

mod cases;
mod examples;
mod published;
mod sized;

use harness::answer::{Whole, NUMBERS};
use harness::comparison::Basis;
use harness::expected::{expected, original_answer, Expected};
use harness::input::Input;
use harness::limits::Areas;
use harness::random::Random;
use harness::{corpus, damage, made, shapes};
use std::path::Path;

/// Of each answer's number, at most so many made and damaged inputs.
const OF_EACH: usize = 40;
const LONGEST: usize = 400;

fn main() {
    let Some(folder) = std::env::args().nth(1) else {
        eprintln!(
            "vectors FOLDER    writes made, limits and classes, each as .bin and .lines, the files of replays, and conversions.lines"
        );
        std::process::exit(2);
    };
    let folder = Path::new(&folder);
    std::fs::create_dir_all(folder).expect("a folder to write to");
    write(folder, "made", &made_inputs());
    write(folder, "limits", &examples::limits());
    sized::write(&folder.join("replays"));
    published::write(&folder.join("conversions.lines"));
    let classes = corpus::classes();
    if classes.is_empty() {
        println!("classes: none, no file of real classes in {}", corpus::folder().display());
        return;
    }
    write(folder, "classes", &classes);
    let own = |input| original_answer(input).expect("a real class that the original can be run on").line() + "\n";
    let lines: String = classes.iter().map(own).collect();
    let given = std::fs::read_to_string(corpus::folder().join("classes.lines")).unwrap_or_default();
    assert_eq!(lines, given, "the Rust's own lines aren't those beside the real classes");
    println!("classes: the Rust's own lines are those that stand beside them");
}

/// The answer of an input that a replay may hold: the original's, a limit's, of the old form, the 2,049th type, a forbidden field, one with stars, type
/// aliases, a nameless parameter or operation 2.
fn answer(input: &Input, areas: Areas) -> Option<Whole> {
    let expected = checked(input, areas);
    let settled = match expected.basis {
        Basis::Original
        | Basis::Limits
        | Basis::OldForm
        | Basis::Types
        | Basis::DescriptorOperation
        | Basis::Forbidden
        | Basis::Stars
        | Basis::Nameless
        | Basis::Aliases => true,
        Basis::Ranges | Basis::Memory => false,
    };
    settled.then_some(expected.whole)
}

/// The answer of a case that is written down: where the original can't be run, the second reading's.
fn settled(input: &Input, areas: Areas) -> Whole {
    checked(input, areas).whole
}

fn checked(input: &Input, areas: Areas) -> Expected {
    let expected = expected(input, areas);
    assert!(expected.disagreement.is_none(), "the second reading differs from the Rust");
    expected
}

fn write(folder: &Path, name: &str, inputs: &[Input]) {
    let program = |input| answer(input, Areas::PROGRAM).expect("an input that is settled");
    let answers: Vec<Whole> = inputs.iter().map(program).collect();
    let lines: String = answers.iter().map(|whole| whole.line() + "\n").collect();
    std::fs::write(folder.join(format!("{name}.bin")), corpus::join(inputs)).expect("a file written");
    std::fs::write(folder.join(format!("{name}.lines")), &lines).expect("a file written");
    let accepted = answers.iter().filter(|whole| whole.answer.number == 0).count();
    println!("{name}: {} inputs, {accepted} accepted", inputs.len());
}

/// Examples, and short inputs of every kind, with a limit on how many have the same answer's number.
fn made_inputs() -> Vec<Input> {
    let mut inputs = examples::marked_examples();
    let mut seen = [0; NUMBERS];
    for number in 0..4000 {
        let input = numbered(number);
        let short = input.d1.len() <= LONGEST && input.d2.len() <= LONGEST && input.ends.len() <= LONGEST;
        let Some(whole) = answer(&input, Areas::PROGRAM).filter(|whole| short && whole.sheet.len() <= 4 * LONGEST)
        else {
            continue;
        };
        let place = whole.answer.number as usize;
        // Accepted inputs show most, so more of them are kept.
        let most = if place == 0 { 6 * OF_EACH } else { OF_EACH };
        if seen[place] < most {
            seen[place] += 1;
            inputs.push(input);
        }
    }
    inputs
}

/// An input of any kind, by its number.
fn numbered(number: u64) -> Input {
    let mut random = Random::of(2026, number);
    match number % 8 {
        0..=3 => made::input(&mut random),
        4..=5 => shapes::input(&mut random),
        _ => {
            let (one, other) = (made::input(&mut random), made::input(&mut random));
            damage::damaged(&mut random, &one, &other)
        }
    }
}

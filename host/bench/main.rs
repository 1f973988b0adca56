//! Times the reader's whole sheet, and what it tells of the room and of the strings, beside the original's decode, in one process. See
//! host/README.md.

mod timing;

use harness::forms::{is_old, marked, unpacked};
use harness::input::Input;
use harness::limits::{self, AREA};
use harness::reader::{Reader, LARGEST};
use harness::{corpus, slow};
use timing::Timing;

const USAGE: &str = "bench [--clear] [--reader library|stand-in]
bench --slow [WORDS]              the slowest inputs that could be made, each by itself, or those with such words;
                                  with the words \"type table\" all that are made by it
bench --each                      each real class by itself: those that cost most beside the Rust
bench --corpus N [--rust|--room|--strings]  N times all real classes, for a profiler: reading, the Rust's decode, or what is told of the room
                                  or of the strings
bench --once FILE N [--rust|--room|--strings]   N calls on one program input, for a profiler";

fn main() {
    let words: Vec<String> = std::env::args().skip(1).collect();
    let has = |word: &str| words.iter().any(|other| other == word);
    let after = |word: &str, places: usize| {
        let at = words.iter().position(|other| other == word)?;
        words.get(at + places).cloned()
    };
    let reader = match after("--reader", 1) {
        Some(name) => Reader::named(&name).expect(USAGE),
        None => Reader::DEFAULT,
    };
    let what = match (has("--rust"), has("--room"), has("--strings")) {
        (true, _, _) => What::Rust,
        (_, true, _) => What::Room,
        (_, _, true) => What::Strings,
        _ => What::Reading,
    };
    if has("--once") {
        let file = after("--once", 1).expect(USAGE);
        let count = after("--once", 2).and_then(|count| count.parse().ok()).expect(USAGE);
        return once(&file, count, reader, what);
    }
    if has("--corpus") {
        let count = after("--corpus", 1).and_then(|count| count.parse().ok()).expect(USAGE);
        return corpus(count, reader, what);
    }
    let timing = Timing::new(reader, has("--clear"));
    if has("--each") {
        return each(timing);
    }
    if has("--slow") {
        return slowest(timing, &after("--slow", 1).unwrap_or_default());
    }
    all(timing);
}

/// What a profiler is to see.
enum What {
    Reading,
    Room,
    Strings,
    Rust,
}

/// So many times these inputs.
fn repeat(inputs: &[Input], count: u64, reader: Reader, what: What) {
    let mut timing = Timing::new(reader, false);
    match what {
        What::Rust => timing.originals(inputs, count),
        What::Reading => (0..count).for_each(|_| inputs.iter().for_each(|input| timing.reader(input, 1))),
        What::Room => (0..count).for_each(|_| inputs.iter().for_each(|input| timing::room(reader, input))),
        What::Strings => (0..count).for_each(|_| inputs.iter().for_each(|input| timing.strings(input))),
    }
}

/// The real classes that the reader's limits let through. Those of the old form are apart: the Rust refuses them.
fn classes() -> Vec<Input> {
    corpus::classes().into_iter().filter(|class| class.d1.len() <= limits::UNITS && !is_of_old_form(class)).collect()
}

fn of_old_form() -> Vec<Input> {
    corpus::classes().into_iter().filter(|class| class.d1.len() <= limits::UNITS && is_of_old_form(class)).collect()
}

fn is_of_old_form(class: &Input) -> bool {
    limits::reads_payload(class.k) && is_old(&class.d1)
}

fn corpus(count: u64, reader: Reader, what: What) {
    let classes = classes();
    repeat(&classes, count, reader, what);
    println!("{} classes", classes.len());
}

/// How many classes with declarations are slower than the Rust, and the ratios of the ten highest.
fn each(mut timing: Timing) {
    let of_kinds: Vec<Input> = classes().into_iter().filter(|class| limits::reads_payload(class.k)).collect();
    let mut ratios: Vec<(f64, f64, &Input)> = of_kinds
        .iter()
        .map(|class| {
            let [read, decode] = timing.both(class);
            (read / decode, read, class)
        })
        .collect();
    ratios.sort_by(|a, b| b.0.total_cmp(&a.0));
    let slower = ratios.iter().filter(|ratio| ratio.0 > 1.0).count();
    println!("classes of kinds 1, 2 and 5: {}; slower than the Rust's decode: {slower}", ratios.len());
    println!("median ratio {:.2}, lowest {:.2}", ratios[ratios.len() / 2].0, ratios[ratios.len() - 1].0);
    for (ratio, read, class) in ratios.iter().take(10) {
        let units = class.d1.len();
        println!(
            "kind {}, {units} units of d1, {} of d2: {:.0} ns, ratio {ratio:.2}",
            class.k,
            class.d2.len(),
            read * 1e9
        );
    }
}

fn once(file: &str, count: u64, reader: Reader, what: What) {
    let bytes = std::fs::read(file).expect("a program input");
    let input = Input::parse(&bytes).expect("a whole program input");
    repeat(std::slice::from_ref(&input), count, reader, what);
}

fn all(mut timing: Timing) {
    println!("reader: {}; areas of {AREA} bytes, {}", timing.reader.name(), timing.clearing());
    let classes = classes();
    timing.set("real classes, as they are", &classes);
    if let Some(largest) = classes.iter().max_by_key(|class| class.d1.len() + class.d2.len()) {
        timing.set("the largest real class", &[largest.clone()]);
    }
    let heads: Vec<Input> = classes.iter().filter(|class| !limits::reads_payload(class.k)).cloned().collect();
    timing.set("real classes of kinds 3 and 4", &heads);
    let old = of_old_form();
    timing.set("real classes of the old form, which the Rust refuses", &old);
    timing.set("the same with the marker", &old.iter().map(with_marker).collect::<Vec<_>>());
    for size in [1, 3, 10, 20, 30] {
        timing.set(&format!("a made class of {size} kB"), &[slow::ordinary(size * 1000)]);
    }
}

fn with_marker(class: &Input) -> Input {
    Input { d1: marked(&unpacked(&class.d1)), ..class.clone() }
}

/// The slowest inputs, those that the type table makes last.
fn slowest(mut timing: Timing, having: &str) {
    timing.lend(LARGEST);
    println!("reader: {}; a sheet area of {LARGEST} bytes", timing.reader.name());
    let mut inputs = slow::slowest();
    inputs.retain(|slow| slow.words.contains(having) || slow.by_type_table && having == "type table");
    for by_type_table in [false, true] {
        println!("{}", if by_type_table { "made by the type table:" } else { "the slowest inputs:" });
        for slow in inputs.iter().filter(|slow| slow.by_type_table == by_type_table) {
            timing.slow(&slow.words, &slow.input);
        }
    }
    timing.tell_worst();
}

//! Runs over numbered inputs, what they count, and the differences that they show.

use crate::convert;
use crate::options::{Mode, Options};
use crate::strings;
use harness::answer::{Answer, NUMBERS};
use harness::comparison::{Basis, Change};
use harness::exhaustive::Exhaustive;
use harness::expected::{around, expected, fitting, Judge};
use harness::input::{hex, Input};
use harness::limits::{Areas, Beside, TEXT};
use harness::random::Random;
use harness::reader::{Caller, Reader, LARGEST};
use harness::slow::{slowest, Slow};
use harness::{corpus, damage, made, shapes, shrink, tables};
use std::time::Instant;

/// Where inputs come from.
pub struct Source {
    classes: Vec<Input>,
    exhaustive: Exhaustive,
    slow: Vec<Slow>,
}

impl Default for Source {
    fn default() -> Self {
        Self { classes: corpus::classes(), exhaustive: Exhaustive::default(), slow: slowest() }
    }
}

/// Small areas serve short contents and are quicker to fill.
const SMALL: Areas = Areas { sheet: 600, text: 600 };
const LARGE: Areas = Areas { sheet: LARGEST, text: LARGEST };

impl Source {
    /// The input with this number of a mode's run.
    pub fn input(&self, mode: Mode, seed: u64, number: u64) -> Option<Input> {
        let mut random = Random::of(seed, number);
        Some(match mode {
            Mode::Exhaustive => self.exhaustive.input(seed + number)?,
            Mode::Made => self.made(&mut random),
            Mode::Tables => tables::input(&mut random),
            Mode::Damaged => self.damaged(&mut random, number),
            Mode::Boundaries => {
                if random.once_in(4) {
                    self.made(&mut random)
                } else {
                    shapes::input(&mut random)
                }
            }
            Mode::Room => self.class(number).unwrap_or_else(|| self.made(&mut random)),
            Mode::Strings => self.class(number).unwrap_or_else(|| match random.below(4) {
                0 => self.damaged(&mut random, number),
                1 => tables::input(&mut random),
                _ => self.made(&mut random),
            }),
            Mode::Slow => self.slow.get(number as usize)?.input.clone(),
            Mode::Convert => return None,
        })
    }

    /// The real class with this number, if there are so many.
    fn class(&self, number: u64) -> Option<Input> {
        self.classes.get(number as usize).cloned()
    }

    fn made(&self, random: &mut Random) -> Input {
        if random.once_in(400) {
            return shapes::input(random);
        }
        made::input(random)
    }

    /// The real classes as they are first, then damaged copies of them and of made inputs.
    fn damaged(&self, random: &mut Random, number: u64) -> Input {
        if let Some(class) = self.class(number) {
            return class;
        }
        let mut one = || match self.classes.len() {
            0 => made::input(random),
            count if random.once_in(2) => self.classes[random.below(count)].clone(),
            _ => made::input(random),
        };
        let (input, other) = (one(), one());
        damage::damaged(random, &input, &other)
    }
}

/// The areas that a mode reads an input into, and the number that must come of it where the room tells it.
fn areas(mode: Mode, judge: &Judge) -> Vec<(Areas, Option<u64>)> {
    let areas = match mode {
        Mode::Exhaustive => vec![SMALL],
        Mode::Made | Mode::Tables | Mode::Damaged => vec![Areas::PROGRAM],
        Mode::Boundaries => around(judge).into_iter().chain([LARGE, Areas::PROGRAM]).collect(),
        Mode::Room => return fitting(&judge.room()).into_iter().map(|(areas, number)| (areas, Some(number))).collect(),
        Mode::Slow => vec![Areas::PROGRAM, LARGE],
        Mode::Strings | Mode::Convert => Vec::new(),
    };
    areas.into_iter().map(|areas| (areas, None)).collect()
}

/// Areas for the strings that a reading falls to: just long enough, longer, too short. Each input gets one of them by turn, in mode strings all.
pub const FOR_STRINGS: [Beside; 5] = [Beside::EXACTLY, Beside(1), Beside(-1), Beside(40), Beside::NONE];

/// A call of the reader.
#[derive(Clone, Copy)]
enum Call {
    Read(Areas),
    Room,
    Strings(Beside),
}

/// What a run saw.
#[derive(Default)]
pub struct Seen {
    pub calls: u64,
    rooms: u64,
    /// Calls for the strings, and those with too short an area.
    strings: u64,
    too_short: u64,
    /// Rooms with a text that no area holds, and rooms of a sheet without text.
    too_long: u64,
    without_text: u64,
    numbers: [u64; NUMBERS],
    /// How many calls each basis settled, in the order of `Basis::ALL`.
    settled: [u64; Basis::ALL.len()],
    /// How often each change was made before the original was compared, in the order of `Change::ALL`.
    changed: [u64; Change::ALL.len()],
    pub differences: u64,
    disagreements: u64,
}

pub struct Run {
    pub reader: Reader,
    caller: Caller,
    pub seen: Seen,
    show: usize,
}

impl Run {
    pub fn new(reader: Reader, show: usize) -> Self {
        Self { reader, caller: Caller::default(), seen: Seen::default(), show }
    }

    /// Asks for the room of an input, reads it into the mode's areas, and holds each answer to what it must be.
    pub fn check(&mut self, mode: Mode, input: &Input) {
        let judge = Judge::of(input);
        let Answer { number, text, .. } = judge.room().answer;
        self.seen.rooms += 1;
        self.seen.too_long += u64::from(text > TEXT);
        self.seen.without_text += u64::from(number == 0 && text == 0);
        if self.caller.difference_in_room(self.reader, input, &judge.room()).is_some() {
            self.differs(input, Call::Room);
        }
        self.strings(input, &judge);
        for (areas, number) in areas(mode, &judge) {
            self.read(input, &judge, areas, number);
        }
    }

    /// Asks for the strings that the reading falls to, in the next of the areas.
    fn strings(&mut self, input: &Input, judge: &Judge) {
        let beside = FOR_STRINGS[self.seen.strings as usize % FOR_STRINGS.len()];
        let area = beside.length(input);
        let expected = judge.used(area);
        self.seen.strings += 1;
        self.seen.too_short += u64::from(expected.answer[0] == 12);
        if self.caller.difference_in_strings(self.reader, input, area, &expected).is_some() {
            self.differs(input, Call::Strings(beside));
        }
    }

    fn read(&mut self, input: &Input, judge: &Judge, areas: Areas, number: Option<u64>) {
        let expected = judge.expected(areas);
        self.seen.calls += 1;
        self.seen.numbers[expected.whole.answer.number as usize] += 1;
        self.seen.settled[expected.basis as usize] += 1;
        for change in expected.changes {
            self.seen.changed[change as usize] += 1;
        }
        if expected.disagreement.is_some() || number.is_some_and(|number| number != expected.whole.answer.number) {
            self.seen.disagreements += 1;
            if self.seen.disagreements as usize <= self.show {
                self.tell_disagreement(input, areas);
            }
        }
        if self.caller.difference(self.reader, input, areas, &expected.whole).is_some() {
            self.differs(input, Call::Read(areas));
        }
    }

    /// Counts a difference in a call's answer, and tells the first ones.
    fn differs(&mut self, input: &Input, call: Call) {
        self.seen.differences += 1;
        if self.seen.differences as usize > self.show {
            return;
        }
        let (reader, caller) = (self.reader, &mut self.caller);
        let mut difference = |input: &Input| match call {
            Call::Read(areas) => caller.difference(reader, input, areas, &expected(input, areas).whole),
            Call::Room => caller.difference_in_room(reader, input, &Judge::of(input).room()),
            Call::Strings(beside) => {
                let area = beside.length(input);
                caller.difference_in_strings(reader, input, area, &Judge::of(input).used(area))
            }
        };
        let small = shrink::shrink(input, &mut |input| difference(input).is_some());
        println!("difference: {}", difference(&small).unwrap_or_default());
        match call {
            Call::Read(areas) => tell(&small, areas),
            Call::Room => tell(&small, LARGE),
            Call::Strings(beside) => {
                println!("  area of {} bytes for {} strings", beside.length(&small), small.ends.len());
                tell(&small, LARGE);
            }
        }
    }

    fn tell_disagreement(&self, input: &Input, areas: Areas) {
        let differs = |input: &Input| expected(input, areas).disagreement;
        let small = shrink::shrink(input, &mut |input| differs(input).is_some());
        println!("the second reading differs from the Rust: {}", differs(&small).unwrap_or_default());
        tell(&small, areas);
    }
}

/// Units of d1 that are shown beside the whole input.
const UNITS_SHOWN: usize = 200;

fn tell(input: &Input, areas: Areas) {
    println!("  areas {} {}", areas.sheet, areas.text);
    println!("  input {}", hex(&input.to_bytes()));
    println!("  must be {}", expected(input, areas).whole.line());
    let mut units: Vec<String> = input.d1.iter().take(UNITS_SHOWN).map(|unit| format!("{unit:02x}")).collect();
    if input.d1.len() > UNITS_SHOWN {
        units.push(format!("and {} more", input.d1.len() - UNITS_SHOWN));
    }
    let strings = if harness::limits::before_reading(input).is_some_and(|number| number < 4) {
        format!("{:?} ends {:?}", input.d2, input.ends)
    } else {
        format!("{:?}", input.strings().map(String::from_utf16_lossy).collect::<Vec<_>>())
    };
    println!("  k {} mv {:?} d1 {} d2 {strings}", input.k, input.mv, units.join(" "));
}

pub fn modes(modes: &[Mode], options: &Options) -> bool {
    let source = Source::default();
    println!("reader: {}; seed {}", options.reader.name(), options.seed);
    let mut fine = true;
    for mode in modes {
        // Where all modes are run, those with many and long calls get fewer inputs.
        let fewer = modes.len() > 1 && *mode == Mode::Boundaries;
        let count = if fewer { options.count / 20 } else { options.count };
        fine &= match mode {
            Mode::Convert => convert::mode(count, options),
            Mode::Strings => strings::mode(&source, count, options),
            _ => one_mode(&source, *mode, count, options),
        };
    }
    fine
}

fn one_mode(source: &Source, mode: Mode, count: u64, options: &Options) -> bool {
    let start = Instant::now();
    let mut run = Run::new(options.reader, options.show);
    let mut inputs = 0;
    for number in 0..count {
        let Some(input) = source.input(mode, options.seed, number) else {
            break;
        };
        inputs += 1;
        run.check(mode, &input);
    }
    let seen = &run.seen;
    let refused: Vec<String> =
        (1..NUMBERS).filter(|n| seen.numbers[*n] > 0).map(|n| format!("{n}: {}", seen.numbers[n])).collect();
    println!(
        "{}: {inputs} inputs, {} calls in {:.1} s; accepted {}, refused {}",
        mode.name(),
        seen.calls,
        start.elapsed().as_secs_f64(),
        seen.numbers[0],
        if refused.is_empty() { "none".to_string() } else { refused.join(", ") }
    );
    let settled = Basis::ALL.iter().zip(seen.settled).map(|(basis, count)| format!("{} {count}", basis.words()));
    println!("  held to {}", settled.collect::<Vec<_>>().join(", "));
    let changed = Change::ALL.iter().zip(seen.changed).map(|(change, count)| format!("{} {count}", change.words()));
    println!("  of those held to the Rust: {}", changed.collect::<Vec<_>>().join(", "));
    println!(
        "  rooms told: {}, of which {} of a text that fits no area and {} without text",
        seen.rooms, seen.too_long, seen.without_text
    );
    println!("  strings told: {}, of which {} in too short an area", seen.strings, seen.too_short);
    println!("  differences {}, second reading against the Rust {}", seen.differences, seen.disagreements);
    seen.differences == 0 && seen.disagreements == 0
}

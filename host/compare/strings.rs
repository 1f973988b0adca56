//! Strings that nobody refers to. The call that tells them is held to the second reading, in areas of every kind. Then those strings of d2 that the
//! second reading doesn't fall to are changed, all at once: number, detail, lengths, types and both areas must stay, and the room and the strings
//! that are told. Last one of those that it falls to is changed, and it is counted how often that shows.

use crate::options::{Mode, Options};
use crate::run::{Source, FOR_STRINGS};
use harness::answer::{NUMBERS, ROOM};
use harness::input::{hex, Input};
use harness::limits::{Areas, UNITS};
use harness::random::Random;
use harness::reader::{Caller, Reader};
use harness::second::{self, Mistake, Reading};
use std::time::Instant;

/// What a run saw.
#[derive(Default)]
struct Seen {
    /// Inputs by the number of their room.
    numbers: [u64; NUMBERS],
    /// Calls that told strings, and those with too short an area.
    calls: u64,
    too_short: u64,
    /// Strings of what was changed afterwards that are fallen to, and those that aren't and were changed.
    fallen: u64,
    changed: u64,
    /// Inputs with a changed string, and those of them whose d2 has another number of units.
    with_changed: u64,
    other_units: u64,
    /// Inputs of which one string that is fallen to was changed, and those whose answer is another one then.
    tried: u64,
    shown: u64,
    differences: u64,
}

pub struct Strings {
    reader: Reader,
    caller: Caller,
    seen: Seen,
    show: usize,
}

/// Areas that hold what most made inputs come to, and shorter ones.
const AREAS: [Areas; 3] =
    [Areas { sheet: 4000, text: 4000 }, Areas { sheet: 300, text: 60 }, Areas { sheet: 60, text: 300 }];

/// What a string is changed into: mostly nothing, else other units, also many.
fn other_string(random: &mut Random) -> Vec<u16> {
    match random.below(8) {
        0 => vec![0xd800; 1 + random.below(3)],
        1 => vec![u16::from(b'L'), u16::from(b';')],
        2 if random.once_in(20) => vec![u16::from(b'x'); 1500],
        3 => (0..random.below(9)).map(|_| random.next() as u16).collect(),
        _ => Vec::new(),
    }
}

impl Strings {
    pub fn new(reader: Reader, show: usize) -> Self {
        Self { reader, caller: Caller::default(), seen: Seen::default(), show }
    }

    /// Of an input that is refused by 1 to 3, before or after a change, no string is changed. How many differences there were so far.
    pub fn check(&mut self, input: &Input, random: &mut Random) -> u64 {
        let reading = second::read(input);
        let number = reading.whole.answer.number;
        self.seen.numbers[number as usize] += 1;
        self.told(input, &reading);
        if !(1..=3).contains(&number) {
            self.unreferred(input, &reading.fallen, random);
        }
        self.seen.differences
    }

    /// What is told of the strings, in areas that are just long enough, longer and too short.
    fn told(&mut self, input: &Input, reading: &Reading) {
        for beside in FOR_STRINGS {
            let area = beside.length(input);
            let expected = reading.used(area);
            self.seen.calls += 1;
            self.seen.too_short += u64::from(expected.answer[0] == 12);
            if let Some(words) = self.caller.difference_in_strings(self.reader, input, area, &expected) {
                self.tell(&format!("{words}, area of {area} bytes"), input, None);
            }
        }
    }

    /// Strings that aren't fallen to are changed, in two ways; then one that is.
    fn unreferred(&mut self, input: &Input, fallen: &[bool], random: &mut Random) {
        self.seen.fallen += fallen.iter().filter(|fallen| **fallen).count() as u64;
        let areas = AREAS[random.below(4).saturating_sub(1)];
        for blank in [true, false] {
            let strings = input.strings().zip(fallen).map(|(string, fallen)| match fallen {
                true => string.to_vec(),
                false if blank => Vec::new(),
                false => other_string(random),
            });
            let strings: Vec<Vec<u16>> = strings.collect();
            self.changed(input, &strings, areas);
        }
        self.converse(input, fallen, areas, random);
    }

    /// All strings that aren't fallen to are others.
    fn changed(&mut self, input: &Input, strings: &[Vec<u16>], areas: Areas) {
        let mut other = input.clone();
        other.set_strings(strings);
        if other.d2.len() > UNITS {
            return;
        }
        let changed = input.strings().zip(strings).filter(|(before, after)| before != after).count();
        self.seen.changed += changed as u64;
        self.seen.with_changed += u64::from(changed > 0);
        self.seen.other_units += u64::from(other.d2.len() != input.d2.len());
        if let Some(words) = self.difference(input, &other, areas) {
            self.tell(&format!("{words}, areas {} {}", areas.sheet, areas.text), input, Some(&other));
        }
    }

    /// How the answers to two inputs differ, if they do.
    fn difference(&mut self, input: &Input, other: &Input, areas: Areas) -> Option<String> {
        let whole = self.caller.whole(self.reader, input, areas);
        let difference = self.caller.difference(self.reader, other, areas, &whole);
        let mut rooms = [[0; ROOM]; 2];
        self.reader.room(input, &mut rooms[0]);
        self.reader.room(other, &mut rooms[1]);
        let used = [input, other].map(|input| self.caller.used(self.reader, input));
        difference
            .or_else(|| (rooms[0] != rooms[1]).then(|| format!("the room: {:?} and not {:?}", rooms[1], rooms[0])))
            .or_else(|| (used[0] != used[1]).then(|| format!("the strings: {:?} and not {:?}", used[1], used[0])))
    }

    /// One string that is fallen to gets another unit in front.
    fn converse(&mut self, input: &Input, fallen: &[bool], areas: Areas, random: &mut Random) {
        let places: Vec<usize> = (0..fallen.len()).filter(|place| fallen[*place]).collect();
        if places.is_empty() || input.d2.len() >= UNITS {
            return;
        }
        let mut strings: Vec<Vec<u16>> = input.strings().map(<[u16]>::to_vec).collect();
        strings[*random.pick(&places)].insert(0, u16::from(b'q'));
        let mut other = input.clone();
        other.set_strings(&strings);
        self.seen.tried += 1;
        self.seen.shown += u64::from(self.difference(input, &other, areas).is_some());
    }

    fn tell(&mut self, words: &str, input: &Input, other: Option<&Input>) {
        self.seen.differences += 1;
        if self.seen.differences as usize > self.show {
            return;
        }
        println!("difference: {words}\n  input {}", hex(&input.to_bytes()));
        if let Some(other) = other {
            println!("  other {}", hex(&other.to_bytes()));
        }
    }
}

/// After how many inputs a mistake shows, if it does.
pub fn found_after(source: &Source, mistake: Mistake, options: &Options) -> Option<u64> {
    let mut run = Strings::new(Reader::StandIn(mistake), 0);
    (0..options.count).find(|number| {
        let input = source.input(Mode::Strings, options.seed, *number);
        input.is_some_and(|input| run.check(&input, &mut Random::of(!options.seed, *number)) > 0)
    })
}

pub fn mode(source: &Source, count: u64, options: &Options) -> bool {
    let start = Instant::now();
    let mut run = Strings::new(options.reader, options.show);
    for number in 0..count {
        let Some(input) = source.input(Mode::Strings, options.seed, number) else {
            break;
        };
        run.check(&input, &mut Random::of(!options.seed, number));
    }
    let seen = &run.seen;
    let refused = (1..NUMBERS).filter(|n| seen.numbers[*n] > 0).map(|n| format!("{n}: {}", seen.numbers[n]));
    println!(
        "strings: {count} inputs in {:.1} s; accepted {}, refused {}",
        start.elapsed().as_secs_f64(),
        seen.numbers[0],
        refused.collect::<Vec<_>>().join(", ")
    );
    println!("  calls that tell the strings: {}, of which {} with too short an area", seen.calls, seen.too_short);
    println!(
        "  but for those refused by 1 to 3: strings fallen to {}; changed of the others, in two ways, {}; so {} other inputs, {} of them with another number of units",
        seen.fallen, seen.changed, seen.with_changed, seen.other_units
    );
    println!("  of {} with one changed that is fallen to, the answer changed in {}", seen.tried, seen.shown);
    println!("  differences {}", seen.differences);
    seen.differences == 0
}

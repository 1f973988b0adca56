//! Holds both conversions to the second implementation, to each other where they must undo one another, and to the reader: a d1 and its converted
//! form are read alike.

use crate::options::Options;
use harness::answer::NUMBERS;
use harness::conversion::{comes_back, convert, length, Converted, Converter, Inputs, Lender, Way};
use harness::forms::is_old;
use harness::input::Input;
use harness::limits::Areas;
use harness::reader::{Caller, Reader};
use std::time::Instant;

/// What a run saw.
#[derive(Default)]
struct Seen {
    calls: u64,
    /// How often each number was right, by the way.
    numbers: [[u64; NUMBERS]; 2],
    /// Units that were the same after the conversion back, and those that weren't, as the specification says of each.
    back: u64,
    not_back: u64,
    /// Inputs that were read in both forms, and those that were accepted.
    read: u64,
    accepted: u64,
    /// Real classes of the old form, and those that are there with the marker too.
    old_classes: u64,
    both_forms: u64,
    differences: u64,
}

pub struct Conversions {
    converter: Converter,
    reader: Reader,
    lender: Lender,
    caller: Caller,
    seen: Seen,
    show: usize,
}

/// Areas that hold what most made inputs come to.
const AREAS: Areas = Areas { sheet: 4000, text: 4000 };

impl Conversions {
    pub fn new(converter: Converter, reader: Reader, show: usize) -> Self {
        Self { converter, reader, lender: Lender::default(), caller: Caller::default(), seen: Seen::default(), show }
    }

    pub fn differs(&self) -> bool {
        self.seen.differences > 0
    }

    /// Both conversions of d1, and what must hold of what they give.
    pub fn check(&mut self, input: &Input) {
        for way in Way::BOTH {
            let converted = self.convert(way, &input.d1);
            if converted.number == 0 {
                self.back(way, &input.d1, &converted.units);
                self.read_alike(input, converted.units);
            }
        }
    }

    /// Into areas of every kind: none, one unit short, just enough, longer. The last call's answer.
    fn convert(&mut self, way: Way, d1: &[u16]) -> Converted {
        let enough = length(way, d1.len());
        let mut given = Converted::default();
        for room in [0, enough.saturating_sub(1), enough, enough + 1 + d1.len() % 9] {
            given = self.call(way, d1, room);
        }
        given
    }

    fn call(&mut self, way: Way, d1: &[u16], room: usize) -> Converted {
        let expected = convert(way, d1, room);
        self.seen.calls += 1;
        self.seen.numbers[way as usize][expected.number as usize] += 1;
        let (given, difference) = self.lender.call(self.converter, way, d1, room, &expected);
        if let Some(words) = difference {
            self.tell(&format!("{}, area of {room} units: {words}", way.words()), d1);
        }
        given
    }

    /// Back into just as many units as there were: the same units where the specification says so, else others or a refusal.
    fn back(&mut self, way: Way, d1: &[u16], units: &[u16]) {
        let back = self.call(way.back(), units, d1.len());
        let same = back.number == 0 && back.units == d1;
        let must = comes_back(way, d1);
        if same != must {
            let is = if same { "the same units and should not" } else { "not the same units" };
            self.tell(&format!("{} and back gives {is}: {:?}", way.words(), back.answer()), d1);
        }
        if way == Way::NewToOld && !must && back.number != 1 {
            self.tell(&format!("more bytes than come back give {:?} and not 1", back.answer()), d1);
        }
        self.seen.back += u64::from(must);
        self.seen.not_back += u64::from(!must);
    }

    /// Number, detail, lengths, types and bytes are the same for both forms. Units that are too many for the reader are left out.
    fn read_alike(&mut self, input: &Input, units: Vec<u16>) {
        if units.len() > harness::limits::UNITS {
            return;
        }
        let other = Input { d1: units, ..input.clone() };
        let whole = self.caller.whole(self.reader, input, AREAS);
        self.seen.read += 1;
        self.seen.accepted += u64::from(whole.answer.number == 0);
        if let Some(words) = self.caller.difference(self.reader, &other, AREAS, &whole) {
            self.tell(&format!("read in its other form, k {}: {words}", input.k), &input.d1);
        }
    }

    /// Real classes of the old form that the compiler wrote with the marker too: their units are converted into each other.
    fn both_forms(&mut self, inputs: &Inputs) {
        for (old, marked) in inputs.of_both_forms() {
            self.seen.old_classes += 1;
            let new = self.call(Way::OldToNew, &old.d1, length(Way::OldToNew, old.d1.len()));
            match marked.iter().find(|class| class.d1 == new.units) {
                Some(class) => {
                    self.seen.both_forms += 1;
                    let back = self.call(Way::NewToOld, &class.d1, old.d1.len());
                    if back.units != old.d1 {
                        self.tell("the compiler's old form isn't what new to old gives", &class.d1);
                    }
                }
                None if marked.is_empty() => {}
                None => self.tell("the compiler's form with the marker isn't what old to new gives", &old.d1),
            }
        }
    }

    fn tell(&mut self, words: &str, d1: &[u16]) {
        self.seen.differences += 1;
        if self.seen.differences as usize <= self.show {
            println!("difference: {words}\n  d1, {} units: {}", d1.len(), shown(d1));
        }
    }
}

/// Units that are shown of a difference.
const UNITS_SHOWN: usize = 200;

fn shown(d1: &[u16]) -> String {
    let mut units: Vec<String> = d1.iter().take(UNITS_SHOWN).map(|unit| format!("{unit:02x}")).collect();
    if d1.len() > UNITS_SHOWN {
        units.push(format!("and {} more", d1.len() - UNITS_SHOWN));
    }
    units.join(" ")
}

pub fn mode(count: u64, options: &Options) -> bool {
    let start = Instant::now();
    let inputs = Inputs::default();
    let mut run = Conversions::new(Converter::beside(options.reader), options.reader, options.show);
    run.both_forms(&inputs);
    let mut old = 0;
    for number in 0..count {
        let input = inputs.input(options.seed, number);
        old += u64::from(is_old(&input.d1));
        run.check(&input);
    }
    let seen = &run.seen;
    println!(
        "convert: {count} inputs, {old} of the old form, {} calls in {:.1} s",
        seen.calls,
        start.elapsed().as_secs_f64()
    );
    for way in Way::BOTH {
        let numbers = seen.numbers[way as usize];
        let refused = (1..NUMBERS).filter(|n| numbers[*n] > 0).map(|n| format!("{n}: {}", numbers[n]));
        println!("  {}: converted {}, refused {}", way.words(), numbers[0], refused.collect::<Vec<_>>().join(", "));
    }
    println!("  and back: the same units {}, other units or refused as they must be {}", seen.back, seen.not_back);
    println!("  read in both forms alike: {}, accepted {}", seen.read, seen.accepted);
    println!("  real classes of the old form: {}, with the marker too: {}", seen.old_classes, seen.both_forms);
    println!("  differences {}", seen.differences);
    seen.differences == 0
}

/// After how many inputs a mistake of a converter shows, if it does.
pub fn found_after(converter: Converter, inputs: &Inputs, options: &Options) -> Option<u64> {
    let mut run = Conversions::new(converter, Reader::StandIn(harness::second::Mistake::None), 0);
    (0..options.count + harness::conversion::SHORT).find(|number| {
        run.check(&inputs.input(options.seed, *number));
        run.differs()
    })
}

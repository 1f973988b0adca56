//! The two calls, by the static library or by a stand-in, and how their answers are held to what they must be.

use super::{mistakes, Converted, Mistake, Way};
use crate::areas::Guarded;
use crate::reader::Reader;

#[cfg(feature = "library")]
extern "C" {
    // A slice goes as a pointer and a count of its elements.
    fn sheet_old_to_new(d1: *const u16, d1_count: usize, units: *mut u16, units_count: usize, answer: *mut [u64; 3]);
    fn sheet_new_to_old(d1: *const u16, d1_count: usize, units: *mut u16, units_count: usize, answer: *mut [u64; 3]);
}

#[derive(Debug, Clone, Copy, PartialEq, Eq)]
pub enum Converter {
    Library,
    StandIn(Mistake),
}

impl Converter {
    /// The converter beside a reader: the library's, or a stand-in without a mistake.
    pub fn beside(reader: Reader) -> Self {
        match reader {
            Reader::Library => Self::Library,
            Reader::StandIn(_) => Self::StandIn(Mistake::None),
        }
    }

    fn call(self, way: Way, d1: &[u16], units: &mut [u16], answer: &mut [u64; 3]) {
        match self {
            Self::Library => library(way, d1, units, answer),
            Self::StandIn(mistake) => mistakes::stand_in(mistake, way, d1, units, answer),
        }
    }
}

#[cfg(feature = "library")]
fn library(way: Way, d1: &[u16], units: &mut [u16], answer: &mut [u64; 3]) {
    let call = match way {
        Way::OldToNew => sheet_old_to_new,
        Way::NewToOld => sheet_new_to_old,
    };
    unsafe { call(d1.as_ptr(), d1.len(), units.as_mut_ptr(), units.len(), answer) }
}

#[cfg(not(feature = "library"))]
fn library(_: Way, _: &[u16], _: &mut [u16], _: &mut [u64; 3]) {
    panic!("built without the static library");
}

/// The memory that a converter is called with, bounded by pages that can't be touched.
pub struct Lender {
    d1: Guarded,
    units: Guarded,
    answer: Guarded,
    calls: u64,
}

/// Units of the largest area that is lent.
pub const LARGEST: usize = 1 << 17;

/// What the area holds before a call; two of them, so that a unit written as it was shows.
const PATTERNS: [u16; 2] = [0xa5a5, 0x5a5a];

impl Default for Lender {
    fn default() -> Self {
        Self { d1: Guarded::new(2 * LARGEST), units: Guarded::new(2 * LARGEST), answer: Guarded::new(64), calls: 0 }
    }
}

impl Lender {
    /// Calls a converter over a patterned area of so many units. What it gave, and how it differs from what it must be.
    pub fn call(
        &mut self,
        converter: Converter,
        way: Way,
        d1: &[u16],
        room: usize,
        expected: &Converted,
    ) -> (Converted, Option<String>) {
        self.calls += 1;
        let at_end = self.calls % 2 == 0;
        let pattern = PATTERNS[(self.calls / 2 % 2) as usize];
        let lent = self.d1.slice::<u16>(d1.len(), at_end);
        lent.copy_from_slice(d1);
        let units = self.units.slice::<u16>(room, at_end);
        units.fill(pattern);
        let answer = &mut self.answer.slice::<[u64; 3]>(1, at_end)[0];
        *answer = [0x5a5a_5a5a; 3];
        converter.call(way, lent, units, answer);
        let given = Converted {
            number: answer[0],
            detail: answer[1],
            units: units[..units.len().min(answer[2] as usize)].to_vec(),
        };
        let difference =
            if lent == d1 { difference(*answer, units, pattern, expected) } else { Some("d1 was changed".to_string()) };
        (given, difference)
    }
}

/// The first difference in number, detail and length, then in the area's units.
fn difference(answer: [u64; 3], area: &[u16], pattern: u16, expected: &Converted) -> Option<String> {
    if answer != expected.answer() {
        return Some(format!("number, detail, length: {answer:?} and not {:?}", expected.answer()));
    }
    let (used, past) = area.split_at(expected.units.len());
    if let Some(place) = (0..used.len()).find(|place| used[*place] != expected.units[*place]) {
        return Some(format!("unit {place}: {:02x} and not {:02x}", used[place], expected.units[place]));
    }
    let touched = past.iter().position(|unit| *unit != pattern)?;
    Some(format!("unit {}, past the length {}, is touched", used.len() + touched, used.len()))
}

//! The conversions between the forms of d1, written from the specification: what `sheet_old_to_new` and `sheet_new_to_old` must answer.

mod calls;
mod inputs;
mod mistakes;

pub use calls::{Converter, Lender};
pub use inputs::{Inputs, SHORT};
pub use mistakes::Mistake;

use crate::forms::{is_old, marked, packed, unpacked};
use crate::limits::UNITS;

#[derive(Debug, Clone, Copy, PartialEq, Eq)]
pub enum Way {
    OldToNew,
    NewToOld,
}

impl Way {
    pub const BOTH: [Self; 2] = [Self::OldToNew, Self::NewToOld];

    pub fn words(self) -> &'static str {
        match self {
            Self::OldToNew => "old to new",
            Self::NewToOld => "new to old",
        }
    }

    pub fn back(self) -> Self {
        match self {
            Self::OldToNew => Self::NewToOld,
            Self::NewToOld => Self::OldToNew,
        }
    }
}

/// Number and detail, and the units, of which there are none on a refusal.
#[derive(Debug, Clone, PartialEq, Eq, Default)]
pub struct Converted {
    pub number: u64,
    pub detail: u64,
    pub units: Vec<u16>,
}

impl Converted {
    /// Number, detail and length, as a call puts them into its answer.
    pub fn answer(&self) -> [u64; 3] {
        [self.number, self.detail, self.units.len() as u64]
    }
}

/// The refusals in the order in which they are tested.
const ORDER: [u64; 6] = [1, 5, 15, 6, 16, 12];

/// What a conversion into an area of so many units must give.
pub fn convert(way: Way, d1: &[u16], room: usize) -> Converted {
    match first_refusal(&ORDER, way, d1, room) {
        Some((number, detail)) => Converted { number, detail, units: Vec::new() },
        None => Converted { number: 0, detail: 0, units: image(way, d1) },
    }
}

/// The first refusal that applies, with its detail.
fn first_refusal(order: &[u64], way: Way, d1: &[u16], room: usize) -> Option<(u64, u64)> {
    order.iter().find_map(|number| Some((*number, detail_of(*number, way, d1, room)?)))
}

/// The detail of a refusal, if it applies.
fn detail_of(number: u64, way: Way, d1: &[u16], room: usize) -> Option<u64> {
    let applies = match number {
        1 => d1.len() > UNITS,
        5 => d1.is_empty() || way == Way::NewToOld && d1 == [0],
        15 => !d1.is_empty() && is_old(d1) != (way == Way::OldToNew),
        6 => return d1.iter().find(|unit| **unit > 255).map(|unit| u64::from(*unit)),
        16 => way == Way::NewToOld && d1.get(1).is_some_and(|first| first % 128 == 127),
        _ => length(way, d1.len()) > room,
    };
    applies.then_some(0)
}

/// How many units so many give.
pub fn length(way: Way, count: usize) -> usize {
    match way {
        Way::OldToNew => 1 + 7 * count / 8,
        Way::NewToOld => (8 * count.saturating_sub(1)).div_ceil(7),
    }
}

/// The units of the other form, for what isn't refused.
fn image(way: Way, d1: &[u16]) -> Vec<u16> {
    match way {
        Way::OldToNew => marked(&unpacked(d1)),
        Way::NewToOld => packed(&d1[1..].iter().map(|unit| *unit as u8).collect::<Vec<_>>()),
    }
}

/// The most bytes that come back: more give more units than old to new takes.
const BYTES_BACK: usize = 28_672;

/// Whether units that were converted are the same again after the conversion back, by the specification's conditions. Of bytes: at most 28,672.
/// Of units: all are below 128, no fewer units would do, and the last group's spare bits are zero.
pub fn comes_back(way: Way, d1: &[u16]) -> bool {
    match way {
        Way::NewToOld => d1.len() - 1 <= BYTES_BACK,
        Way::OldToNew => {
            let bytes = 7 * d1.len() / 8;
            let fewest = (8 * bytes).div_ceil(7);
            let spare = (7 * d1.len() - 8 * bytes) as u32;
            let last = d1.last().map_or(0, |unit| (unit + 127) % 128);
            d1.iter().all(|unit| *unit < 128) && d1.len() == fewest && last >> (7 - spare) == 0
        }
    }
}

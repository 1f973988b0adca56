//! The refusals that the original doesn't have: what the host hands in, and the lengths of the areas.

use crate::input::Input;

pub const UNITS: usize = 32_768;
pub const STRINGS: usize = 4_096;
pub const TYPES: u64 = 2_048;
pub const TEXT: u64 = 65_534;
/// The program's areas.
pub const AREA: usize = 65_536;

/// Lengths of the two lent areas.
#[derive(Debug, Clone, Copy, PartialEq, Eq)]
pub struct Areas {
    pub sheet: usize,
    pub text: usize,
}

impl Areas {
    pub const PROGRAM: Self = Self { sheet: AREA, text: AREA };
}

/// An area for the strings that a reading falls to: so many bytes more than d2 has strings, or fewer, but not fewer than none.
#[derive(Debug, Clone, Copy, PartialEq, Eq)]
pub struct Beside(pub isize);

impl Beside {
    pub const EXACTLY: Self = Self(0);
    /// No byte at all, unless d2 has more strings than any input.
    pub const NONE: Self = Self(isize::MIN);

    pub fn length(self, input: &Input) -> usize {
        input.ends.len().saturating_add_signed(self.0)
    }
}

/// Refusals 1 to 4, in this order.
pub fn before_reading(input: &Input) -> Option<u64> {
    if input.d1.len() > UNITS {
        return Some(1);
    }
    if input.d2.len() > UNITS || input.ends.len() > STRINGS {
        return Some(2);
    }
    let falls = input.ends.windows(2).any(|pair| pair[1] < pair[0]);
    let last = input.ends.last().copied().unwrap_or(0);
    if falls || last as usize != input.d2.len() {
        return Some(3);
    }
    if input.mv[0] > 2 {
        return Some(4);
    }
    None
}

/// Refusals 11 and 12, in this order.
pub fn after_reading(sheet: u64, text: u64, areas: Areas) -> Option<u64> {
    if text > TEXT.min(areas.text as u64) {
        return Some(11);
    }
    if sheet > areas.sheet as u64 {
        return Some(12);
    }
    None
}

/// Whether the payload is read: kinds 3 and 4 give the head alone.
pub fn reads_payload(k: i32) -> bool {
    k != 3 && k != 4
}

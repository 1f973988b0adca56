//! The calls of the reader, by the static library or by a stand-in, and how their answers are held to others.

use crate::answer::{Answer, Room, Used, Whole, ROOM, ROOM_WORDS, USED};
use crate::areas::Guarded;
use crate::input::Input;
use crate::limits::Areas;
use crate::second::{self, Mistake};

#[cfg(feature = "library")]
extern "C" {
    // A slice goes as a pointer and a count of its elements.
    fn sheet_read(
        k: i32,
        major: i32,
        minor: i32,
        patch: i32,
        d1: *const u16,
        d1_count: usize,
        d2: *const u16,
        d2_count: usize,
        ends: *const u32,
        ends_count: usize,
        sheet: *mut u8,
        sheet_length: usize,
        text: *mut u8,
        text_length: usize,
        answer: *mut [u64; 5],
    );

    fn sheet_room(
        k: i32,
        major: i32,
        minor: i32,
        patch: i32,
        d1: *const u16,
        d1_count: usize,
        d2: *const u16,
        d2_count: usize,
        ends: *const u32,
        ends_count: usize,
        answer: *mut [u64; ROOM],
    );

    fn sheet_strings(
        k: i32,
        major: i32,
        minor: i32,
        patch: i32,
        d1: *const u16,
        d1_count: usize,
        d2: *const u16,
        d2_count: usize,
        ends: *const u32,
        ends_count: usize,
        used: *mut u8,
        used_count: usize,
        answer: *mut [u64; USED],
    );
}

#[derive(Debug, Clone, Copy, PartialEq, Eq)]
pub enum Reader {
    Library,
    StandIn(Mistake),
}

impl Reader {
    pub const DEFAULT: Self = if cfg!(feature = "library") { Self::Library } else { Self::StandIn(Mistake::None) };

    /// `library`, `stand-in`, or the name of a mistake.
    pub fn named(name: &str) -> Option<Self> {
        match name {
            "library" => cfg!(feature = "library").then_some(Self::Library),
            "stand-in" => Some(Self::StandIn(Mistake::None)),
            _ => Mistake::ALL
                .iter()
                .find(|mistake| format!("{mistake:?}") == name)
                .map(|mistake| Self::StandIn(*mistake)),
        }
    }

    pub fn name(self) -> String {
        match self {
            Self::Library => "the library".to_string(),
            Self::StandIn(Mistake::None) => "the stand-in".to_string(),
            Self::StandIn(mistake) => format!("the stand-in with a mistake ({})", mistake.words()),
        }
    }

    /// One call. `input` is read where its vectors stand, and the areas are as lent.
    pub fn call(self, input: &Input, sheet: &mut [u8], text: &mut [u8], answer: &mut [u64; 5]) {
        match self {
            Self::StandIn(mistake) => second::stand_in(mistake, input, sheet, text, answer),
            Self::Library => Lent::of(input).call(sheet, text, answer),
        }
    }

    /// One call that tells the room.
    pub fn room(self, input: &Input, answer: &mut [u64; ROOM]) {
        match self {
            Self::StandIn(mistake) => second::stand_in_room(mistake, input, answer),
            Self::Library => Lent::of(input).room(answer),
        }
    }

    /// One call that tells the strings that the reading falls to.
    pub fn strings(self, input: &Input, used: &mut [u8], answer: &mut [u64; USED]) {
        match self {
            Self::StandIn(mistake) => second::stand_in_strings(mistake, input, used, answer),
            Self::Library => Lent::of(input).strings(used, answer),
        }
    }
}

/// An input as slices that stand anywhere.
pub struct Lent<'a> {
    pub k: i32,
    pub mv: [i32; 3],
    pub d1: &'a [u16],
    pub d2: &'a [u16],
    pub ends: &'a [u32],
}

impl<'a> Lent<'a> {
    /// An input where its vectors stand.
    fn of(input: &'a Input) -> Self {
        Self { k: input.k, mv: input.mv, d1: &input.d1, d2: &input.d2, ends: &input.ends }
    }

    fn is(&self, input: &Input) -> bool {
        self.d1 == input.d1 && self.d2 == input.d2 && self.ends == input.ends
    }

    #[cfg(feature = "library")]
    pub fn call(&self, sheet: &mut [u8], text: &mut [u8], answer: &mut [u64; 5]) {
        let [major, minor, patch] = self.mv;
        unsafe {
            sheet_read(
                self.k,
                major,
                minor,
                patch,
                self.d1.as_ptr(),
                self.d1.len(),
                self.d2.as_ptr(),
                self.d2.len(),
                self.ends.as_ptr(),
                self.ends.len(),
                sheet.as_mut_ptr(),
                sheet.len(),
                text.as_mut_ptr(),
                text.len(),
                answer,
            );
        }
    }

    #[cfg(feature = "library")]
    pub fn room(&self, answer: &mut [u64; ROOM]) {
        let [major, minor, patch] = self.mv;
        unsafe {
            sheet_room(
                self.k,
                major,
                minor,
                patch,
                self.d1.as_ptr(),
                self.d1.len(),
                self.d2.as_ptr(),
                self.d2.len(),
                self.ends.as_ptr(),
                self.ends.len(),
                answer,
            );
        }
    }

    #[cfg(feature = "library")]
    pub fn strings(&self, used: &mut [u8], answer: &mut [u64; USED]) {
        let [major, minor, patch] = self.mv;
        unsafe {
            sheet_strings(
                self.k,
                major,
                minor,
                patch,
                self.d1.as_ptr(),
                self.d1.len(),
                self.d2.as_ptr(),
                self.d2.len(),
                self.ends.as_ptr(),
                self.ends.len(),
                used.as_mut_ptr(),
                used.len(),
                answer,
            );
        }
    }

    #[cfg(not(feature = "library"))]
    pub fn call(&self, _: &mut [u8], _: &mut [u8], _: &mut [u64; 5]) {
        panic!("built without the static library");
    }

    #[cfg(not(feature = "library"))]
    pub fn room(&self, _: &mut [u64; ROOM]) {
        panic!("built without the static library");
    }

    #[cfg(not(feature = "library"))]
    pub fn strings(&self, _: &mut [u8], _: &mut [u64; USED]) {
        panic!("built without the static library");
    }
}

/// Pages for an input: each of its slices ends, or begins, where a page that can't be touched is.
struct InputPages {
    d1: Guarded,
    d2: Guarded,
    ends: Guarded,
}

impl Default for InputPages {
    fn default() -> Self {
        Self { d1: Guarded::new(1 << 20), d2: Guarded::new(1 << 20), ends: Guarded::new(1 << 20) }
    }
}

impl InputPages {
    fn lend(&mut self, input: &Input, at_end: bool) -> Lent<'_> {
        let d1 = self.d1.slice::<u16>(input.d1.len(), at_end);
        d1.copy_from_slice(&input.d1);
        let d2 = self.d2.slice::<u16>(input.d2.len(), at_end);
        d2.copy_from_slice(&input.d2);
        let ends = self.ends.slice::<u32>(input.ends.len(), at_end);
        ends.copy_from_slice(&input.ends);
        Lent { k: input.k, mv: input.mv, d1, d2, ends }
    }
}

/// The memory that one reader is called with: every slice is bounded by pages that can't be touched.
pub struct Caller {
    input: InputPages,
    sheet: Guarded,
    text: Guarded,
    used: Guarded,
    answer: Guarded,
    calls: u64,
    rooms: u64,
    strings: u64,
    untouched: [Vec<u8>; 2],
}

/// The largest areas that a comparison lends.
pub const LARGEST: usize = 1 << 19;

/// What the areas hold before a call; two of them, so that a byte written as it was shows.
const PATTERNS: [u8; 2] = [0xa5, 0x5a];

impl Default for Caller {
    fn default() -> Self {
        Self {
            input: InputPages::default(),
            sheet: Guarded::new(LARGEST),
            text: Guarded::new(LARGEST),
            used: Guarded::new(LARGEST),
            answer: Guarded::new(ROOM * 8),
            calls: 0,
            rooms: 0,
            strings: 0,
            untouched: PATTERNS.map(|pattern| vec![pattern; LARGEST]),
        }
    }
}

impl Caller {
    /// What the reader gives.
    pub fn whole(&mut self, reader: Reader, input: &Input, areas: Areas) -> Whole {
        let sheet = self.sheet.slice::<u8>(areas.sheet, true);
        let text = self.text.slice::<u8>(areas.text, true);
        let mut answer = [0; 5];
        reader.call(input, sheet, text, &mut answer);
        let answer = Answer::from_array(answer);
        let bytes = |area: &[u8], length: u64| area[..area.len().min(length as usize)].to_vec();
        Whole { answer, sheet: bytes(sheet, answer.sheet), text: bytes(text, answer.text) }
    }

    /// Calls the reader over patterned areas, and tells how answer and areas differ from what they must be.
    pub fn difference(&mut self, reader: Reader, input: &Input, areas: Areas, expected: &Whole) -> Option<String> {
        self.calls += 1;
        let at_end = self.calls % 2 == 0;
        let untouched = &self.untouched[(self.calls / 2 % 2) as usize];
        let sheet = self.sheet.slice::<u8>(areas.sheet, at_end);
        let text = self.text.slice::<u8>(areas.text, at_end);
        sheet.copy_from_slice(&untouched[..areas.sheet]);
        text.copy_from_slice(&untouched[..areas.text]);
        let answer = &mut self.answer.slice::<[u64; 5]>(1, at_end)[0];
        *answer = [0x5a5a_5a5a; 5];
        if reader == Reader::Library {
            let lent = self.input.lend(input, at_end);
            lent.call(sheet, text, answer);
            if !lent.is(input) {
                return Some("the input was changed".to_string());
            }
        } else {
            reader.call(input, sheet, text, answer);
        }
        compare(*answer, sheet, text, untouched, expected)
    }

    /// Asks for the room, and tells how it differs from what it must be.
    pub fn difference_in_room(&mut self, reader: Reader, input: &Input, expected: &Room) -> Option<String> {
        self.rooms += 1;
        let at_end = self.rooms % 2 == 0;
        let answer = &mut self.answer.slice::<[u64; ROOM]>(1, at_end)[0];
        *answer = [0x5a5a_5a5a; ROOM];
        if reader == Reader::Library {
            let lent = self.input.lend(input, at_end);
            lent.room(answer);
            if !lent.is(input) {
                return Some("the input was changed by the room".to_string());
            }
        } else {
            reader.room(input, answer);
        }
        let wanted = expected.to_array();
        let place = (0..ROOM).find(|place| answer[*place] != wanted[*place])?;
        Some(format!("the room's {}: {answer:?} and not {wanted:?}", ROOM_WORDS[place]))
    }

    /// Asks for the strings that the reading falls to, in a patterned area of so many bytes, and tells how answer and area differ from what they must be.
    pub fn difference_in_strings(
        &mut self,
        reader: Reader,
        input: &Input,
        area: usize,
        expected: &Used,
    ) -> Option<String> {
        self.strings += 1;
        let at_end = self.strings % 2 == 0;
        let untouched = &self.untouched[(self.strings / 2 % 2) as usize];
        let used = self.used.slice::<u8>(area, at_end);
        used.copy_from_slice(&untouched[..area]);
        let answer = &mut self.answer.slice::<[u64; USED]>(1, at_end)[0];
        *answer = [0x5a5a_5a5a; USED];
        if reader == Reader::Library {
            let lent = self.input.lend(input, at_end);
            lent.strings(used, answer);
            if !lent.is(input) {
                return Some("the input was changed by the call for its strings".to_string());
            }
        } else {
            reader.strings(input, used, answer);
        }
        compare_used(*answer, used, untouched, expected)
    }

    /// The strings that the reading falls to, as the reader tells them in an area of just as many bytes.
    pub fn used(&mut self, reader: Reader, input: &Input) -> Used {
        let used = self.used.slice::<u8>(input.ends.len(), true);
        let mut answer = [0; USED];
        reader.strings(input, used, &mut answer);
        Used { answer, bytes: if answer[0] == 0 { used.to_vec() } else { Vec::new() } }
    }
}

/// The first difference in number, detail and count, then in the bytes of the strings, then in those past them.
fn compare_used(answer: [u64; USED], used: &[u8], untouched: &[u8], expected: &Used) -> Option<String> {
    if answer != expected.answer {
        return Some(format!("number, detail and count of the strings: {answer:?} and not {:?}", expected.answer));
    }
    let wanted = expected.bytes.iter().chain(&untouched[expected.bytes.len()..]);
    let place = used.iter().zip(wanted).position(|(byte, wanted)| byte != wanted)?;
    Some(match expected.bytes.get(place) {
        Some(wanted) => format!("the byte of string {place}: {:02x} and not {wanted:02x}", used[place]),
        None if expected.answer[0] != 0 => {
            format!("byte {place} of the strings' area is touched, although it is refused")
        }
        None => format!("byte {place} of the strings' area, past {} strings, is touched", expected.bytes.len()),
    })
}

/// The first difference in number, detail, lengths, types, then in the bytes of both areas.
fn compare(answer: [u64; 5], sheet: &[u8], text: &[u8], untouched: &[u8], expected: &Whole) -> Option<String> {
    let wanted = expected.answer.to_array();
    let words = ["number", "detail", "sheet length", "text length", "types"];
    for (place, word) in words.iter().enumerate() {
        if answer[place] != wanted[place] {
            let (is, must) = (Answer::from_array(answer), expected.answer);
            return Some(format!("{word}: {is:?} and not {must:?}"));
        }
    }
    let area = |name: &str, area: &[u8], bytes: &[u8]| {
        let (used, past) = area.split_at(bytes.len());
        if used != bytes {
            let place = (0..used.len()).find(|place| used[*place] != bytes[*place])?;
            return Some(format!("{name} byte {place}: {:02x} and not {:02x}", used[place], bytes[place]));
        }
        if past != &untouched[..past.len()] {
            let place = used.len() + (0..past.len()).find(|place| past[*place] != untouched[*place])?;
            return Some(format!("{name} byte {place}, past the length {}, is touched", used.len()));
        }
        None
    };
    area("sheet", sheet, &expected.sheet).or_else(|| area("text", text, &expected.text))
}

//! A second reading, written from the specification and not from the original.
//!
//! It tells beforehand whether the original can be run on an input (a payload can make it enter types, copy
//! records or build texts without end), it settles refusal 10 where the original has none, and it stands in for
//! the library where that isn't built. As a stand-in it can be given a planted mistake, which a comparison must
//! find.

mod descriptors;
mod members;
mod mistakes;
mod names;
mod sheet;
mod types;
mod wire;

pub use mistakes::Mistake;

use crate::answer::{Answer, Room, Used, Whole, KINDS, LISTS, ROOM, USED};
use crate::forms::{self, is_old};
use crate::input::Input;
use crate::limits::{self, Areas};
use mistakes::planted;
use wire::Refused;

/// What the second reading gives for one input.
pub struct Reading {
    /// The answer with areas that are as large as can be, or the refusal.
    pub whole: Whole,
    /// All texts together; the text of `whole` holds them only up to the limit.
    pub text_total: u64,
    /// Records of each kind on the sheet, from kind 1 on.
    pub records: [u64; KINDS],
    /// Bytes of text of the properties, functions, constructors, aliases and head.
    pub texts: [u64; LISTS],
    /// Bytes that the original's copies of name records take, about.
    pub record_bytes: u64,
    /// What the ranges of the name records sum to.
    pub ranges: u64,
    /// Whether d1's bytes were taken from the old form.
    pub old_form: bool,
    /// Whether the body could be cut into its fields and holds a type alias, named or not.
    pub aliases: bool,
    /// Whether a record of the name table that decides its indices has operation 2.
    pub descriptor_operation: bool,
    /// Whether a parameter that was met has no name.
    pub nameless: bool,
    /// Which strings of d2 the reading falls to: looked up, decided by no record, and there, before it ends or is refused.
    pub fallen: Vec<bool>,
    /// Whether a message that was cut has a field with a number that the encoding guide forbids, also where that is forgiven.
    pub forbidden: bool,
    /// Whether a star was entered, also where the payload is refused later.
    pub star: bool,
}

/// The reading apart from the areas.
pub fn read(input: &Input) -> Reading {
    let mut reading = Reading {
        whole: Whole::default(),
        text_total: 0,
        records: [0; KINDS],
        texts: [0; LISTS],
        record_bytes: 0,
        ranges: 0,
        old_form: false,
        aliases: false,
        descriptor_operation: false,
        nameless: false,
        fallen: vec![false; input.ends.len()],
        forbidden: false,
        star: false,
    };
    wire::met_forbidden();
    if let Some(number) = limits::before_reading(input) {
        reading.whole = Whole::refused(number, 0);
        return reading;
    }
    let kind = if (1..=5).contains(&input.k) { input.k as u8 } else { 1 };
    if !limits::reads_payload(input.k) {
        let mut out = sheet::Writer::default();
        out.head_alone(kind);
        reading.accept(out, 0);
        return reading;
    }
    let bytes = match decode(&input.d1) {
        Ok(bytes) => bytes,
        Err(whole) => {
            reading.whole = whole;
            return reading;
        }
    };
    reading.old_form = is_old(&input.d1);
    if let Err(refused) = payload(&bytes, input, kind, &mut reading) {
        let (number, detail) = refused.number();
        reading.whole = Whole::refused(number, detail);
    }
    reading.forbidden = wire::met_forbidden();
    reading
}

fn payload(bytes: &[u8], input: &Input, kind: u8, reading: &mut Reading) -> Result<(), Refused> {
    let whole = wire::Part::whole(bytes);
    let mut at = 0;
    let table = wire::delimited(whole, &mut at)?;
    let strings: Vec<&[u16]> = input.strings().collect();
    let names = names::Names::of(table, &strings, reading)?;
    let body = wire::cut(whole.from(at))?;
    reading.aliases = members::has_aliases(&body, kind);
    let mut types = types::Types::of(&body, &names)?;
    let class = members::class(&body, kind, &names, &mut types, &mut reading.nameless);
    reading.star = types.met_star;
    reading.fallen = names.fallen();
    let class = class?;
    let mut out = sheet::Writer::default();
    out.class(&class, &names);
    reading.accept(out, class.types);
    Ok(())
}

impl Reading {
    fn accept(&mut self, out: sheet::Writer, types: u64) {
        self.text_total = out.text_total;
        self.records = out.records;
        self.texts = out.texts;
        let types = if planted(Mistake::TypesOneMore) && types > 3 { types + 1 } else { types };
        self.whole = Whole {
            answer: Answer { number: 0, detail: 0, sheet: out.bytes.len() as u64, text: out.text_total, types },
            sheet: out.bytes,
            text: out.text,
        };
    }

    /// What is told of the room: the lengths are the true ones, also of a text that fits no area.
    pub fn room(&self) -> Room {
        Room { answer: self.whole.answer, records: self.records, texts: self.texts }
    }

    /// What is told of the strings that the reading falls to, in an area of so many bytes. The area is looked at last.
    pub fn used(&self, area: usize) -> Used {
        let Answer { number, detail, .. } = self.whole.answer;
        if planted(Mistake::UsedShortFirst) && area < self.fallen.len() {
            return Used::refused(12, 0);
        }
        match number {
            0 if area < self.fallen.len() => Used::refused(12, 0),
            0 => Used::of(&self.fallen),
            _ => Used::refused(number, detail),
        }
    }

    /// The answer with these areas.
    pub fn in_areas(&self, areas: Areas) -> Whole {
        let Answer { number, sheet, text, .. } = self.whole.answer;
        if number != 0 {
            return self.whole.clone();
        }
        if planted(Mistake::SheetBeforeText) && sheet > areas.sheet as u64 {
            return Whole::refused(12, 0);
        }
        if planted(Mistake::TextLimit) && text == limits::TEXT + 1 && areas.text as u64 >= text {
            return self.whole.clone();
        }
        match limits::after_reading(sheet, text, areas) {
            Some(number) => Whole::refused(number, 0),
            None => self.whole.clone(),
        }
    }
}

/// The payload's bytes from d1's units.
pub fn decode(units: &[u16]) -> Result<Vec<u8>, Whole> {
    if units.is_empty() {
        return Err(Whole::refused(5, 0));
    }
    if let Some(unit) = units.iter().find(|unit| **unit > 255) {
        return Err(Whole::refused(6, u64::from(*unit)));
    }
    if !is_old(units) {
        return Ok(units[1..].iter().map(|unit| *unit as u8).collect());
    }
    if planted(Mistake::OldFormUnshifted) {
        return Ok(unshifted(units));
    }
    Ok(forms::unpacked(units))
}

/// The bytes of the old form without the shift by one, as the original takes them.
pub fn unshifted(units: &[u16]) -> Vec<u8> {
    forms::bytes_of(units.iter().map(|unit| unit % 128).collect())
}

/// The stand-in: the same call as the library's, with a planted mistake or none.
#[allow(clippy::too_many_arguments)]
pub fn stand_in(mistake: Mistake, input: &Input, sheet: &mut [u8], text: &mut [u8], answer: &mut [u64; 5]) {
    mistakes::plant(mistake);
    let areas = Areas { sheet: sheet.len(), text: text.len() };
    let whole = read(input).in_areas(areas);
    sheet[..whole.sheet.len()].copy_from_slice(&whole.sheet);
    text[..whole.text.len()].copy_from_slice(&whole.text);
    *answer = whole.answer.to_array();
    if planted(Mistake::PastTheText) && whole.text.len() > 8 && whole.text.len() < text.len() {
        text[whole.text.len()] = 0;
    }
    if planted(Mistake::TouchesWhenRefused) && whole.answer.number == 7 && !sheet.is_empty() {
        sheet[0] = 1;
    }
    if planted(Mistake::DetailLeft) && whole.answer.number >= 10 && whole.answer.number <= 12 {
        answer[1] = 1;
    }
    if planted(Mistake::PlaceWithMarker) && [7, 8, 9, 13, 14, 17].contains(&whole.answer.number) {
        answer[1] += 1;
    }
    if planted(Mistake::PastTruncated) && whole.answer.number == 13 {
        answer[0] = 7;
    }
    mistakes::plant(Mistake::None);
}

/// The stand-in for the call that tells the room.
pub fn stand_in_room(mistake: Mistake, input: &Input, answer: &mut [u64; ROOM]) {
    mistakes::plant(mistake);
    *answer = read(input).room().to_array();
    let refused = answer[0] != 0;
    // Number and detail are one off where it is refused, the others where it isn't.
    if let Some(place) = mistake.place_in_room().filter(|place| (*place < 2) == refused) {
        answer[place] += 1;
    }
    if planted(Mistake::RoomLeft) && refused {
        answer[5] = 1;
    }
    if planted(Mistake::RoomSheetOrder) {
        answer[5 + KINDS..].copy_from_slice(&sheet::in_sheet_order(read(input).texts));
    }
    let too_long = answer[3] > limits::TEXT;
    if planted(Mistake::RoomTextCut) && too_long {
        answer[3] = limits::TEXT + 1;
    }
    if planted(Mistake::RoomTextRefused) && too_long {
        *answer = [0; ROOM];
        answer[0] = 11;
    }
    mistakes::plant(Mistake::None);
}

/// The stand-in for the call that tells the strings that a reading falls to.
pub fn stand_in_strings(mistake: Mistake, input: &Input, used: &mut [u8], answer: &mut [u64; USED]) {
    mistakes::plant(mistake);
    let reading = read(input);
    let told = reading.used(used.len());
    let refused = told.answer[0] != 0;
    *answer = told.answer;
    for (byte, mark) in used.iter_mut().zip(&told.bytes) {
        if *mark == 1 || !planted(Mistake::UsedOnesAlone) {
            *byte = *mark;
        }
    }
    if let (Mistake::UsedLast, Some(last)) = (mistake, told.bytes.len().checked_sub(1)) {
        used[last] = 0;
    }
    if planted(Mistake::UsedPast) && !refused && used.len() > told.bytes.len() {
        used[told.bytes.len()] = 0;
    }
    let met = refused && answer[0] != 12;
    if planted(Mistake::UsedWhenRefused) && met {
        reading.fallen.iter().zip(used.iter_mut()).filter(|(fallen, _)| **fallen).for_each(|(_, byte)| *byte = 1);
    }
    if planted(Mistake::UsedInShort) && answer[0] == 12 {
        reading.fallen.iter().zip(used.iter_mut()).for_each(|(fallen, byte)| *byte = u8::from(*fallen));
    }
    if planted(Mistake::UsedDetail) && met {
        answer[1] = 0;
    }
    if planted(Mistake::UsedCountLeft) && met {
        answer[2] = reading.fallen.iter().filter(|fallen| **fallen).count() as u64;
    }
    if planted(Mistake::UsedOneMore) && !refused {
        answer[2] += 1;
    }
    if planted(Mistake::UsedTwelveDetail) && answer[0] == 12 {
        answer[1] = reading.fallen.len() as u64;
    }
    mistakes::plant(Mistake::None);
}

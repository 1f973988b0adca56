//! The answer that an input must get: the original's, with the refusals that the original doesn't have; the second reading's where the original
//! isn't held to (`comparison`).

use crate::answer::{records_on, texts_on, Answer, Room, Used, Whole};
use crate::comparison::{self, Basis, Change};
use crate::forms;
use crate::input::Input;
use crate::limits::{self, Areas, TEXT};
use crate::reader::LARGEST;
use crate::second::{self, Reading};
use original::class::Class;
use original::sheet::Sheet;

pub struct Expected {
    pub whole: Whole,
    /// What must be told of the input before it is read.
    pub room: Room,
    pub basis: Basis,
    /// What was changed before the original was compared.
    pub changes: Vec<Change>,
    /// What the second reading has where it differs from the original, or from itself: one of them is wrong.
    pub disagreement: Option<String>,
}

pub fn expected(input: &Input, areas: Areas) -> Expected {
    Judge::of(input).expected(areas)
}

/// All that settles the answers of one input, whatever areas are lent.
pub struct Judge {
    reading: Reading,
    basis: Basis,
    decoded: Vec<u8>,
    /// What the original gives, where it is run: its sheet as it stands, or its refusal.
    original: Option<Result<Sheet, Whole>>,
}

impl Judge {
    pub fn of(input: &Input) -> Self {
        let reading = second::read(input);
        let basis = comparison::basis(&reading);
        let runs = match basis {
            Basis::Original => true,
            Basis::Aliases => reading.whole.answer.number == 0,
            _ => false,
        };
        let decoded = second::decode(&input.d1).unwrap_or_default();
        Self { reading, basis, decoded, original: runs.then(|| original_sheet(input)) }
    }

    pub fn room(&self) -> Room {
        self.reading.room()
    }

    /// What must be told of the strings that the reading falls to, in an area of so many bytes.
    pub fn used(&self, area: usize) -> Used {
        self.reading.used(area)
    }

    /// The answer with these areas.
    pub fn expected(&self, areas: Areas) -> Expected {
        let second = self.reading.in_areas(areas);
        let (whole, changes) = self.settled(&second, areas);
        let disagreement = if whole != second || !self.agrees_before_aliases() {
            Some(second.line())
        } else {
            (!self.room_fits()).then(|| format!("the room {:?}", self.room().to_array()))
        };
        Expected { whole, room: self.room(), basis: self.basis, changes, disagreement }
    }

    /// The original's answer where it settles it, else the second reading's.
    fn settled(&self, second: &Whole, areas: Areas) -> (Whole, Vec<Change>) {
        match &self.original {
            Some(Ok(sheet)) if self.basis == Basis::Original => {
                let projections = (sheet.types > 0).then_some(Change::Projections);
                let changes = [Change::NoAliases].into_iter().chain(projections).collect();
                (accepted(comparison::in_form(sheet, &self.reading), areas), changes)
            }
            Some(Err(original)) if self.basis == Basis::Original => {
                if comparison::agrees(second.answer, original.answer, &self.decoded) {
                    (second.clone(), comparison::changes(second.answer))
                } else {
                    (original.clone(), Vec::new())
                }
            }
            _ => (second.clone(), Vec::new()),
        }
    }

    fn agrees_before_aliases(&self) -> bool {
        match &self.original {
            Some(Ok(sheet)) if self.basis == Basis::Aliases => comparison::stands_before_aliases(sheet, &self.reading),
            Some(Err(_)) => self.basis != Basis::Aliases,
            _ => true,
        }
    }

    /// Whether the room is that of the sheet that is right: its records by the bytes, its types by the records, and, where the original
    /// settles the answer, the lengths and types of the original's sheet, also of one whose text no area holds. The texts by lists add up to
    /// the text, and are those of the sheet's refs where these can tell them.
    fn room_fits(&self) -> bool {
        let room = self.room();
        if room.answer.number != 0 {
            return room == Room { answer: Answer::refused(room.answer.number, room.answer.detail), ..Room::default() };
        }
        let on_sheet = records_on(&self.reading.whole.sheet);
        let of_original = match &self.original {
            Some(Ok(sheet)) if self.basis == Basis::Original => {
                let sheet = comparison::in_form(sheet, &self.reading);
                (sheet.bytes.len() as u64, sheet.text.len() as u64, sheet.types)
            }
            _ => (room.answer.sheet, room.answer.text, room.answer.types),
        };
        on_sheet == Some(room.records)
            && room.texts.iter().sum::<u64>() == room.answer.text
            && (room.answer.text > TEXT || texts_on(&self.reading.whole.sheet) == room.texts)
            && room.records[TYPE_KIND] == room.answer.types
            && of_original == (room.answer.sheet, room.answer.text, room.answer.types)
    }
}

/// The place of types among the records of each kind.
const TYPE_KIND: usize = 5;

/// The original's own answer with the program's areas, as it stands; none where it can't be run. Of the old form it takes other bytes: whether
/// it can be run on them is seen by the same bytes after a marker.
pub fn original_answer(input: &Input) -> Option<Whole> {
    let mut reading = second::read(input);
    if reading.old_form {
        let d1 = forms::marked(&second::unshifted(&input.d1));
        reading = second::read(&Input { d1, ..input.clone() });
    }
    match comparison::basis(&reading) {
        Basis::Limits | Basis::Types => Some(reading.whole),
        Basis::Ranges | Basis::Memory | Basis::OldForm => None,
        Basis::Original | Basis::DescriptorOperation | Basis::Aliases | Basis::Forbidden | Basis::Stars | Basis::Nameless => {
            Some(original_sheet(input).map_or_else(|refused| refused, |sheet| accepted(sheet, Areas::PROGRAM)))
        }
    }
}

/// Areas that are just long enough, one byte short in either or in both, one byte longer, of a head alone, and empty.
pub fn around(judge: &Judge) -> Vec<Areas> {
    let answer = judge.expected(Areas { sheet: LARGEST, text: LARGEST }).whole.answer;
    if answer.number != 0 {
        return vec![Areas { sheet: 0, text: 0 }];
    }
    let (sheet, text) = (answer.sheet as usize, answer.text as usize);
    let lengths = [
        (sheet, text),
        (sheet - 1, text),
        (sheet, text.saturating_sub(1)),
        (sheet - 1, text.saturating_sub(1)),
        (sheet + 1, text + 1),
        (20, text),
        (sheet, 0),
        (0, 0),
    ];
    lengths.map(|(sheet, text)| Areas { sheet, text }).to_vec()
}

/// Areas of the lengths that a room tells, and of a byte less in either that isn't 0 or in both, each with the number that reading must give
/// there: 11 goes before 12, and a text above the limit fits no area. Of a refused input no area and long ones give its refusal.
pub fn fitting(room: &Room) -> Vec<(Areas, u64)> {
    let Answer { number, sheet, text, .. } = room.answer;
    if number != 0 {
        return vec![(Areas { sheet: 0, text: 0 }, number), (Areas { sheet: LARGEST, text: LARGEST }, number)];
    }
    let lent = |sheet: u64, text: u64| Areas { sheet: sheet as usize, text: (text as usize).min(LARGEST) };
    let or_11 = |number| if text > TEXT { 11 } else { number };
    let mut all = vec![(lent(sheet, text), or_11(0)), (lent(sheet - 1, text), or_11(12))];
    if text > 0 {
        all.extend([(lent(sheet, text - 1), 11), (lent(sheet - 1, text - 1), 11)]);
    }
    all
}

/// The original as it is run: the caller has seen that it can be.
fn original_sheet(input: &Input) -> Result<Sheet, Whole> {
    let class = Class::new(input.k, input.mv, &input.d1, input.strings());
    match class.decode() {
        Ok(metadata) => Ok(Sheet::of(&metadata)),
        Err(refusal) => Err(Whole::refused(refusal.number, refusal.detail)),
    }
}

/// The answer of a sheet of the original in these areas.
fn accepted(sheet: Sheet, areas: Areas) -> Whole {
    if sheet.types > limits::TYPES {
        return Whole::refused(10, 0);
    }
    let (length, text) = (sheet.bytes.len() as u64, sheet.text.len() as u64);
    if let Some(number) = limits::after_reading(length, text, areas) {
        return Whole::refused(number, 0);
    }
    Whole {
        answer: Answer { number: 0, detail: 0, sheet: length, text, types: sheet.types },
        sheet: sheet.bytes,
        text: sheet.text,
    }
}

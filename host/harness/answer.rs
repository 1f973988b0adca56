//! Answers, what is told of the room before reading and of the strings that a reading falls to, and the line that the program prints of an answer.

use crate::input::hex;

/// 0 and the numbers of refusals, those of the conversions among them.
pub const NUMBERS: usize = 18;

/// Number, detail, both lengths and the number of types, in the order of the array that the reader fills.
#[derive(Debug, Clone, Copy, PartialEq, Eq, Default)]
pub struct Answer {
    pub number: u64,
    pub detail: u64,
    pub sheet: u64,
    pub text: u64,
    pub types: u64,
}

impl Answer {
    pub fn refused(number: u64, detail: u64) -> Self {
        Self { number, detail, ..Self::default() }
    }

    pub fn from_array(array: [u64; 5]) -> Self {
        let [number, detail, sheet, text, types] = array;
        Self { number, detail, sheet, text, types }
    }

    pub fn to_array(self) -> [u64; 5] {
        [self.number, self.detail, self.sheet, self.text, self.types]
    }
}

/// Kinds of records on a sheet.
pub const KINDS: usize = 9;

/// How many bytes a record of each kind has, from kind 1 on.
pub const LENGTHS: [usize; KINDS] = [20, 19, 24, 40, 6, 10, 5, 13, 3];

/// Where the refs stand in a record of each kind.
const REFS: [&[usize]; KINDS] = [&[2], &[9, 13], &[1, 13, 17], &[1, 16, 20, 24, 28, 32, 36], &[1], &[3], &[1], &[1], &[]];

/// The lists by which text is counted: properties, functions, constructors, aliases, and the head.
pub const LISTS: usize = 5;

/// The kind of the members of each list.
const MEMBERS: [usize; LISTS] = [4, 3, 2, 8, 1];

/// How many numbers are told of the room: the five of an answer, the records of each kind, and the bytes of text of each list.
pub const ROOM: usize = 5 + KINDS + LISTS;

/// Words for these numbers.
pub const ROOM_WORDS: [&str; ROOM] = [
    "number",
    "detail",
    "sheet length",
    "text length",
    "types",
    "heads",
    "constructors",
    "functions",
    "properties",
    "parameters",
    "type records",
    "default descriptors",
    "aliases",
    "counts of aliases",
    "text of properties",
    "text of functions",
    "text of constructors",
    "text of aliases",
    "text of the head",
];

/// What is told of an input before it is read: its answer if the areas were long enough for anything, with the text at its true length, how many
/// records of each kind the sheet has, and the bytes of text of each list. Refusals 11 and 12 aren't among its numbers.
#[derive(Debug, Clone, Copy, PartialEq, Eq, Default)]
pub struct Room {
    pub answer: Answer,
    pub records: [u64; KINDS],
    pub texts: [u64; LISTS],
}

impl Room {
    pub fn to_array(self) -> [u64; ROOM] {
        let mut array = [0; ROOM];
        array[..5].copy_from_slice(&self.answer.to_array());
        array[5..5 + KINDS].copy_from_slice(&self.records);
        array[5 + KINDS..].copy_from_slice(&self.texts);
        array
    }
}

/// The records of a sheet by its bytes alone, if these are whole records of such lengths.
pub fn records_of<'a>(sheet: &'a [u8], lengths: &[usize; KINDS]) -> Option<Vec<&'a [u8]>> {
    let mut records = Vec::new();
    let mut rest = sheet;
    while let Some(kind) = rest.first() {
        let length = *lengths.get(usize::from(*kind).checked_sub(1)?)?;
        records.push(rest.get(..length)?);
        rest = &rest[length..];
    }
    Some(records)
}

/// How many records of each kind stand on a sheet; none if its bytes aren't whole records.
pub fn records_on(sheet: &[u8]) -> Option<[u64; KINDS]> {
    let mut counts = [0; KINDS];
    for record in records_of(sheet, &LENGTHS)? {
        counts[usize::from(record[0]) - 1] += 1;
    }
    Some(counts)
}

/// The bytes of text of each list by the sheet's bytes alone, which are whole records: a member's refs and those of the parameters, types and default
/// descriptors after it.
pub fn texts_on(sheet: &[u8]) -> [u64; LISTS] {
    let mut texts = [0; LISTS];
    let (mut at, mut list) = (0, None);
    while at < sheet.len() {
        let kind = usize::from(sheet[at]);
        if !(5..=7).contains(&kind) {
            list = MEMBERS.iter().position(|member| *member == kind);
        }
        for place in REFS[kind - 1] {
            let text = &sheet[at + place..at + place + 4];
            if text != [0xff; 4] {
                texts[list.expect("a member before its texts")] += u64::from(u16::from_le_bytes([text[2], text[3]]));
            }
        }
        at += LENGTHS[kind - 1];
    }
    texts
}

/// How many numbers are told of the strings that a reading falls to: number, detail, and how many they are.
pub const USED: usize = 3;

/// What is told of the strings that a reading falls to: the three numbers, and a byte for each string of d2, 1 or 0. A refusal tells no bytes.
#[derive(Debug, Clone, PartialEq, Eq, Default)]
pub struct Used {
    pub answer: [u64; USED],
    pub bytes: Vec<u8>,
}

impl Used {
    pub fn refused(number: u64, detail: u64) -> Self {
        Self { answer: [number, detail, 0], bytes: Vec::new() }
    }

    pub fn of(fallen: &[bool]) -> Self {
        let count = fallen.iter().filter(|fallen| **fallen).count() as u64;
        Self { answer: [0, 0, count], bytes: fallen.iter().map(|fallen| u8::from(*fallen)).collect() }
    }
}

/// An answer with the bytes of sheet and text, which are empty on a refusal.
#[derive(Debug, Clone, PartialEq, Eq, Default)]
pub struct Whole {
    pub answer: Answer,
    pub sheet: Vec<u8>,
    pub text: Vec<u8>,
}

impl Whole {
    pub fn refused(number: u64, detail: u64) -> Self {
        Self { answer: Answer::refused(number, detail), ..Self::default() }
    }

    pub fn line(&self) -> String {
        let shown = |bytes: &[u8]| if bytes.is_empty() { "-".to_string() } else { hex(bytes) };
        let Answer { number, detail, .. } = self.answer;
        format!("{number} {detail} {} {}", shown(&self.sheet), shown(&self.text))
    }
}

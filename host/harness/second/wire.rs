//! Fields of a message, by the Protocol Buffers encoding guide and the specification's departures.

use super::mistakes::{planted, Mistake};
use std::cell::Cell;

/// Why a payload is refused. A place is an offset among the decoded bytes, of the first byte of the varint or fixed value that is read.
#[derive(Debug, Clone, Copy, PartialEq, Eq)]
pub enum Refused {
    /// A varint is cut short by its message's end.
    Truncated(usize),
    /// Of the tag.
    WireType(usize),
    Oversized(usize),
    Types,
    /// Of the length, or of the fixed value itself.
    PastMessage(usize),
    /// Of the tag.
    FieldTooLarge(usize),
    /// Of the tag, whose field number the encoding guide doesn't allow.
    ForbiddenField(usize),
}

impl Refused {
    pub fn number(self) -> (u64, u64) {
        match self {
            Self::Truncated(place) => (7, place as u64),
            Self::WireType(place) => (8, place as u64),
            Self::Oversized(place) => (9, place as u64),
            Self::Types => (10, 0),
            Self::PastMessage(place) => (13, place as u64),
            Self::FieldTooLarge(place) => (14, place as u64),
            Self::ForbiddenField(place) => (17, place as u64),
        }
    }
}

/// Some of the decoded bytes, and the place of the first of them.
#[derive(Debug, Clone, Copy)]
pub struct Part<'a> {
    pub bytes: &'a [u8],
    pub start: usize,
}

impl<'a> Part<'a> {
    pub fn whole(bytes: &'a [u8]) -> Self {
        Self { bytes, start: 0 }
    }

    /// What stands from an offset in this part on.
    pub fn from(self, at: usize) -> Self {
        Self { bytes: &self.bytes[at..], start: self.start + at }
    }

    fn place(self, at: usize) -> usize {
        self.start + at
    }
}

#[derive(Debug, Clone, Copy)]
pub enum Value<'a> {
    Varint(u64),
    Fixed,
    Bytes(Part<'a>),
}

/// A message cut into its fields, in order.
#[derive(Debug, Clone)]
pub struct Message<'a>(Vec<(u32, Value<'a>)>);

/// A varint's groups of 7 bits; of the tenth only the lowest bit counts.
pub fn varint(part: Part<'_>, at: &mut usize) -> Result<u64, Refused> {
    let rest = &part.bytes[*at..];
    let place = part.place(*at);
    let length = rest.iter().take(10).take_while(|byte| **byte >= 0x80).count() + 1;
    if planted(Mistake::EleventhMissing) && length == 11 {
        return Err(Refused::Oversized(place));
    }
    if rest.len() < length {
        let missing = if planted(Mistake::MissingBytePlace) { rest.len() } else { 0 };
        return Err(Refused::Truncated(place + missing));
    }
    if length == 11 || (planted(Mistake::TenthByteWhole) && length == 10 && rest[9] > 1) {
        return Err(Refused::Oversized(place));
    }
    *at += length;
    let groups = rest[..length].iter().enumerate();
    Ok(groups.fold(0, |number, (place, byte)| number | u64::from(byte & 0x7f) << (7 * place)))
}

/// So many bytes; `of` is the place to tell where they run past the end.
fn taken<'a>(part: Part<'a>, at: &mut usize, length: u64, of: usize) -> Result<Part<'a>, Refused> {
    let rest = part.from(*at);
    if length > rest.bytes.len() as u64 {
        return Err(Refused::PastMessage(of));
    }
    *at += length as usize;
    Ok(Part { bytes: &rest.bytes[..length as usize], start: rest.start })
}

fn fixed(part: Part<'_>, at: &mut usize, length: u64, tag: usize) -> Result<(), Refused> {
    let of = if planted(Mistake::FixedTagPlace) { tag } else { part.place(*at) };
    taken(part, at, length, of).map(|_| ())
}

pub fn delimited<'a>(part: Part<'a>, at: &mut usize) -> Result<Part<'a>, Refused> {
    let place = part.place(*at);
    let length = varint(part, at)?;
    let of = if planted(Mistake::BodyPlace) { part.place(*at) } else { place };
    taken(part, at, length, of)
}

/// The encoding guide's field numbers.
const LARGEST_FIELD: u32 = (1 << 29) - 1;

thread_local! {
    static MET_FORBIDDEN: Cell<bool> = const { Cell::new(false) };
}

/// Whether a message that was cut since the last question has a forbidden field, also where that is forgiven.
pub fn met_forbidden() -> bool {
    MET_FORBIDDEN.take()
}

fn is_allowed(field: u32) -> bool {
    let smallest = if planted(Mistake::FieldZero) { 0 } else { 1 };
    let largest = match () {
        () if planted(Mistake::LargeFields) => u32::MAX,
        () if planted(Mistake::LargestField) => LARGEST_FIELD - 1,
        () => LARGEST_FIELD,
    };
    (smallest..=largest).contains(&field)
}

pub fn cut(part: Part<'_>) -> Result<Message<'_>, Refused> {
    let part = if planted(Mistake::PlaceInMessage) { Part::whole(part.bytes) } else { part };
    let mut fields = Vec::new();
    let mut at = 0;
    while at < part.bytes.len() {
        let place = part.place(at);
        let tag = varint(part, &mut at)?;
        let wire_type = (tag % 8) as u8;
        let wrong_type = if planted(Mistake::WireTypeTold) { usize::from(wire_type) } else { place };
        if planted(Mistake::FieldAfterType) && ![0, 1, 2, 5].contains(&wire_type) {
            return Err(Refused::WireType(wrong_type));
        }
        let Ok(field) = u32::try_from(tag / 8) else {
            return Err(if planted(Mistake::FieldTruncated) {
                Refused::Truncated(place)
            } else {
                Refused::FieldTooLarge(place)
            });
        };
        let after_type = planted(Mistake::ForbiddenAfterType) && ![0, 1, 2, 5].contains(&wire_type);
        if !is_allowed(field) && !after_type {
            MET_FORBIDDEN.set(true);
            return Err(Refused::ForbiddenField(place));
        }
        let value = match wire_type {
            0 => Value::Varint(varint(part, &mut at)?),
            1 => fixed(part, &mut at, 8, place).map(|()| Value::Fixed)?,
            2 => Value::Bytes(delimited(part, &mut at)?),
            5 => fixed(part, &mut at, 4, place).map(|()| Value::Fixed)?,
            _ => return Err(Refused::WireType(wrong_type)),
        };
        fields.push((field, value));
    }
    Ok(Message(fields))
}

impl<'a> Message<'a> {
    fn all(&self, field: u32) -> impl Iterator<Item = Value<'a>> + '_ {
        let of_field = move |(number, value): &(u32, Value<'a>)| (*number == field).then_some(*value);
        self.0.iter().filter_map(of_field)
    }

    pub fn first(&self, field: u32) -> Option<Value<'a>> {
        self.all(field).next()
    }

    pub fn number(&self, field: u32) -> Option<u64> {
        let value = if planted(Mistake::LastOccurrence) { self.all(field).last() } else { self.first(field) };
        match value {
            Some(Value::Varint(number)) => Some(number),
            _ => None,
        }
    }

    pub fn index(&self, field: u32) -> Option<u32> {
        let number = self.number(field)?;
        if planted(Mistake::IndexCut) {
            return Some(number as u32);
        }
        u32::try_from(number).ok()
    }

    fn part(&self, field: u32) -> Option<Part<'a>> {
        match self.first(field) {
            Some(Value::Bytes(part)) => Some(part),
            _ => None,
        }
    }

    pub fn bytes(&self, field: u32) -> Option<&'a [u8]> {
        self.part(field).map(|part| part.bytes)
    }

    pub fn message(&self, field: u32) -> Result<Option<Message<'a>>, Refused> {
        if planted(Mistake::MessageSkips) {
            return self.parts(field).next().map(cut).transpose();
        }
        self.part(field).map(cut).transpose()
    }

    /// Whether a length-delimited occurrence of the field is there.
    pub fn has_message(&self, field: u32) -> bool {
        self.parts(field).next().is_some()
    }

    fn parts(&self, field: u32) -> impl Iterator<Item = Part<'a>> + '_ {
        self.all(field).filter_map(|value| match value {
            Value::Bytes(part) => Some(part),
            _ => None,
        })
    }

    pub fn messages(&self, field: u32) -> Result<Vec<Message<'a>>, Refused> {
        self.parts(field).map(cut).collect()
    }

    pub fn numbers(&self, field: u32) -> Result<Vec<u64>, Refused> {
        let mut numbers = Vec::new();
        for value in self.all(field) {
            match value {
                Value::Varint(number) if !planted(Mistake::PackedOnly) => numbers.push(number),
                Value::Bytes(run) => {
                    let run = if planted(Mistake::PlaceInRun) { Part::whole(run.bytes) } else { run };
                    let mut at = 0;
                    while at < run.bytes.len() {
                        numbers.push(varint(run, &mut at)?);
                    }
                }
                _ => {}
            }
        }
        Ok(numbers)
    }
}

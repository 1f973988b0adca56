//! Names by index: records of the name table first, then the strings of d2.

use super::mistakes::{planted, Mistake};
use super::wire::{cut, Message, Part, Refused};
use super::Reading;
use std::cell::RefCell;

/// A record of the name table that serves the indices from `first` on, up to the next record's.
struct Record<'a> {
    first: u64,
    predefined: Option<u32>,
    string: Option<&'a [u8]>,
    operation: u64,
    substring: Step,
    replace: Step,
}

/// The two numbers of a record's step, none, or (a mistake's) an error.
#[derive(Clone, Copy, PartialEq)]
enum Step {
    None,
    Of(u32, u32),
    Error,
}

pub struct Names<'a> {
    records: Vec<Record<'a>>,
    served: u64,
    strings: &'a [&'a [u16]],
    /// The strings of d2 that were looked up so far.
    fallen: RefCell<Vec<bool>>,
}

impl<'a> Names<'a> {
    pub fn of(table: Part<'a>, strings: &'a [&'a [u16]], reading: &mut Reading) -> Result<Self, Refused> {
        let table = cut(table)?;
        if planted(Mistake::LocalFirst) {
            table.numbers(5)?;
        }
        let mut records = Vec::new();
        let mut served = 0u64;
        for message in table.messages(1)? {
            let record = Record::of(&message, served);
            reading.descriptor_operation |= record.decides() && record.operation == 2;
            records.push(record);
            let range = range_of(&message);
            let length = message.bytes(6).map_or(0, <[u8]>::len) as u64;
            reading.record_bytes += range * (length + 100);
            served += range;
        }
        reading.ranges = served;
        // Which names are local isn't told, but the list has to be there whole.
        table.numbers(5)?;
        let fallen = RefCell::new(vec![false; strings.len()]);
        Ok(Self { records, served, strings, fallen })
    }

    pub fn string(&self, index: u32) -> Option<String> {
        if let Some(record) = self.record(index) {
            if record.decides() {
                let text = record.text();
                if text.is_some() || !planted(Mistake::FallsToStrings) {
                    return text;
                }
            }
        }
        let units = self.strings.get(index as usize)?;
        if planted(Mistake::SurrogateAcross) {
            let next = self.strings.get(index as usize + 1).and_then(|next| next.first());
            let joined: Vec<u16> = units.iter().chain(next).copied().collect();
            let text = from_utf16(&joined);
            return Some(if next.is_some() && joined.len() > 1 && (0xdc00..0xe000).contains(next?) {
                text
            } else {
                from_utf16(units)
            });
        }
        Some(from_utf16(units))
    }

    /// Looks a name up where the reading order has it, and notes the string of d2 that this falls to. Whether there is a name.
    pub fn look_up(&self, index: u32) -> bool {
        let decided = self.record(index).is_some_and(Record::decides) && !planted(Mistake::UsedDecided);
        if let (false, Some(fallen)) = (decided, self.fallen.borrow_mut().get_mut(index as usize)) {
            *fallen = true;
        }
        self.string(index).is_some()
    }

    /// Which strings of d2 were looked up.
    pub fn fallen(&self) -> Vec<bool> {
        self.fallen.borrow().clone()
    }

    fn record(&self, index: u32) -> Option<&Record<'a>> {
        let index = u64::from(index);
        if index >= self.served {
            return None;
        }
        let after = self.records.partition_point(|record| record.first <= index);
        self.records.get(after.checked_sub(1)?)
    }

    /// A class name with dots.
    pub fn qualified(&self, index: u32) -> Option<String> {
        let name = self.string(index)?;
        let wrapped = name.len() >= 2 && name.starts_with('L') && name.ends_with(';');
        let inner = if planted(Mistake::StripsEither) {
            name.trim_start_matches('L').trim_end_matches(';')
        } else if wrapped {
            &name[1..name.len() - 1]
        } else {
            &name
        };
        Some(inner.chars().map(|c| if c == '/' || c == '$' { '.' } else { c }).collect())
    }
}

fn range_of(message: &Message<'_>) -> u64 {
    match message.index(1) {
        Some(0) if planted(Mistake::RangeNone) => 0,
        Some(0) | None => 1,
        Some(range) => u64::from(range),
    }
}

impl<'a> Record<'a> {
    fn of(message: &Message<'a>, first: u64) -> Self {
        let step = |field| match message.numbers(field) {
            Ok(numbers) if numbers.len() >= 2 => Step::Of(numbers[0] as u32, numbers[1] as u32),
            Err(_) if planted(Mistake::SubstringError) => Step::Error,
            _ => Step::None,
        };
        Self {
            first,
            predefined: message.index(2),
            string: message.bytes(6),
            operation: message.number(3).unwrap_or(0),
            substring: step(4),
            replace: step(5),
        }
    }

    fn decides(&self) -> bool {
        self.string.is_some() || self.predefined.is_some()
    }

    fn text(&self) -> Option<String> {
        let predefined = || Some(PREDEFINED.split('\n').nth(self.predefined? as usize)?.to_string());
        let raw = self.string.filter(|_| self.predefined.is_none() || !planted(Mistake::PredefinedFirst));
        let mut text = match (raw, self.substring) {
            (Some(bytes), Step::Of(start, end)) if planted(Mistake::SubstringBeforeUtf8) => {
                from_utf8(bytes.get(start as usize..end as usize)?)
            }
            (Some(bytes), _) => from_utf8(bytes),
            (None, _) => predefined()?,
        };
        match self.substring {
            Step::Of(start, end) if !(planted(Mistake::SubstringBeforeUtf8) && raw.is_some()) => {
                text = text.get(start as usize..end as usize)?.to_string();
            }
            Step::Error => return None,
            _ => {}
        }
        match self.replace {
            Step::Of(old, new) => text = replaced(&text, old, new)?,
            Step::Error => return None,
            Step::None => {}
        }
        let operation = if planted(Mistake::OperationCut) { self.operation as u32 as u64 } else { self.operation };
        Some(match operation {
            1 if planted(Mistake::OperationKeepsSlash) => text.replace('$', "."),
            1 => text.chars().map(|c| if c == '/' || c == '$' { '.' } else { c }).collect(),
            2 => descriptor_to_class(&text),
            _ => text,
        })
    }
}

/// DESC_TO_CLASS_ID: of two characters or more the first and the last are dropped, whatever they are; then $ becomes a dot.
fn descriptor_to_class(text: &str) -> String {
    let mut characters: Vec<char> = text.chars().collect();
    if planted(Mistake::DropsUnits) {
        let units: Vec<u16> = text.encode_utf16().collect();
        let inner = if units.len() >= 2 { &units[1..units.len() - 1] } else { &units };
        characters = from_utf16(inner).chars().collect();
    } else if planted(Mistake::DropsLetters) {
        if text.len() >= 2 && text.starts_with('L') && text.ends_with(';') {
            characters = characters[1..characters.len() - 1].to_vec();
        }
    } else if characters.len() >= 2 {
        characters.pop();
        characters.remove(0);
    } else if planted(Mistake::DropsOfOne) {
        characters.clear();
    }
    let slash = planted(Mistake::DescriptorSlashes);
    characters.into_iter().map(|c| if c == '$' || (c == '/' && slash) { '.' } else { c }).collect()
}

fn replaced(text: &str, old: u32, new: u32) -> Option<String> {
    let (old, new) = (char::from_u32(old)?, char::from_u32(new)?);
    let mut done = false;
    let change = |c: char| {
        if c != old || (done && planted(Mistake::ReplaceOnce)) {
            return c;
        }
        done = true;
        new
    };
    Some(text.chars().map(change).collect())
}

/// Each surrogate that isn't half of a pair becomes U+FFFD.
fn from_utf16(units: &[u16]) -> String {
    let mut text = String::new();
    let mut at = 0;
    while at < units.len() {
        let unit = u32::from(units[at]);
        let next = units.get(at + 1).map_or(0, |next| u32::from(*next));
        at += 1;
        if (0xd800..0xdc00).contains(&unit) && (0xdc00..0xe000).contains(&next) {
            text.extend(char::from_u32(0x10000 + ((unit - 0xd800) << 10) + (next - 0xdc00)));
            at += 1;
        } else {
            text.push(char::from_u32(unit).unwrap_or('\u{fffd}'));
        }
    }
    text
}

/// The bytes that may follow a first byte, by Unicode's table 3-7: how many, and the second one's bounds.
fn after_first(first: u8) -> Option<(usize, u8, u8)> {
    Some(match first {
        0xc2..=0xdf => (1, 0x80, 0xbf),
        0xe0 => (2, 0xa0, 0xbf),
        0xed => (2, 0x80, 0x9f),
        0xe1..=0xef => (2, 0x80, 0xbf),
        0xf0 => (3, 0x90, 0xbf),
        0xf1..=0xf3 => (3, 0x80, 0xbf),
        0xf4 => (3, 0x80, 0x8f),
        _ => return None,
    })
}

/// Each longest beginning of a well-formed character, else one byte, becomes U+FFFD.
fn from_utf8(bytes: &[u8]) -> String {
    let mut text = String::new();
    let mut at = 0;
    while at < bytes.len() {
        let first = bytes[at];
        if first < 0x80 {
            text.push(first as char);
            at += 1;
            continue;
        }
        let (more, low, high) = after_first(first).unwrap_or((0, 0, 0));
        let fits = |place: usize, byte: u8| match place {
            0 => (low..=high).contains(&byte),
            _ => (0x80..=0xbf).contains(&byte),
        };
        let following = &bytes[at + 1..];
        let found = (0..more).take_while(|place| following.get(*place).is_some_and(|byte| fits(*place, *byte)));
        let found = found.count();
        if more > 0 && found == more {
            let first_bits = u32::from(first) & (0x3f >> more);
            let number = following[..more].iter().fold(first_bits, |n, byte| n << 6 | u32::from(byte & 0x3f));
            text.extend(char::from_u32(number));
        } else {
            text.push('\u{fffd}');
            if planted(Mistake::BadByteEach) {
                (0..found).for_each(|_| text.push('\u{fffd}'));
            }
        }
        at += 1 + found;
    }
    text
}

/// The list of jvm_metadata.proto's resolver, in its order.
const PREDEFINED: &str = "kotlin/Any
kotlin/Nothing
kotlin/Unit
kotlin/Throwable
kotlin/Number
kotlin/Byte
kotlin/Double
kotlin/Float
kotlin/Int
kotlin/Long
kotlin/Short
kotlin/Boolean
kotlin/Char
kotlin/CharSequence
kotlin/String
kotlin/Comparable
kotlin/Enum
kotlin/Array
kotlin/ByteArray
kotlin/DoubleArray
kotlin/FloatArray
kotlin/IntArray
kotlin/LongArray
kotlin/ShortArray
kotlin/BooleanArray
kotlin/CharArray
kotlin/Cloneable
kotlin/Annotation
kotlin/collections/Iterable
kotlin/collections/MutableIterable
kotlin/collections/Collection
kotlin/collections/MutableCollection
kotlin/collections/List
kotlin/collections/MutableList
kotlin/collections/Set
kotlin/collections/MutableSet
kotlin/collections/Map
kotlin/collections/MutableMap
kotlin/collections/Map.Entry
kotlin/collections/MutableMap.MutableEntry
kotlin/collections/Iterator
kotlin/collections/MutableIterator
kotlin/collections/ListIterator
kotlin/collections/MutableListIterator";

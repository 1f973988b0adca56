//! Which answers the original settles, and how they are brought to the form of the sheets. The original stays as it was published, while
//! sheets and refusals have gone on since. All that is left out of the comparison with it, and all that is put into its answers, stands here,
//! each with its reason; a run counts each.

use crate::answer::{records_of, Answer, KINDS, LENGTHS};
use crate::second::Reading;
use original::sheet::Sheet;

/// What settles an answer.
#[derive(Debug, Clone, Copy, PartialEq, Eq)]
pub enum Basis {
    /// The original was run; refusals 11 and 12 are taken from its lengths.
    Original,
    /// Refusals 1 to 3, from what is handed in alone.
    Limits,
    /// The second reading: d1 has the old form, of which the original takes the units without the shift by one. What is refused before its bytes
    /// are taken, and kinds whose payload isn't read, stay with the original.
    OldForm,
    /// The second reading: the original has no refusal 10, and can be kept busy for hours by types.
    Types,
    /// The second reading: the specification leaves out ranges that sum to more than 65,536.
    Ranges,
    /// The second reading: the original would take too much memory for its copies of records and its texts.
    Memory,
    /// The second reading: a record that decides its indices has operation 2. The original puts "kotlin.collections." in front there, where
    /// jvm_metadata.proto has DESC_TO_CLASS_ID. On a d2 string no step is taken, so a record that doesn't decide is compared.
    DescriptorOperation,
    /// The second reading: a message that was cut has a field with a number that the encoding guide forbids, which the original passes over.
    /// That is so for every refusal 17, and for a backing field in which it is forgiven.
    Forbidden,
    /// The second reading: a star was entered, which the original drops. It is so too where the payload is refused later; a star that nothing
    /// enters, as in a function that is skipped, is compared.
    Stars,
    /// The second reading: a parameter that was met has no name, for whatever reason. The original skips it, and with it its part in the default
    /// descriptor and what is refused inside it.
    Nameless,
    /// The second reading: the payload has type aliases, which the original doesn't read. What stands before them on an accepted sheet must
    /// still be the original's.
    Aliases,
}

impl Basis {
    pub const ALL: [Self; 11] = [
        Self::Original,
        Self::Limits,
        Self::OldForm,
        Self::Types,
        Self::Ranges,
        Self::Memory,
        Self::DescriptorOperation,
        Self::Forbidden,
        Self::Stars,
        Self::Nameless,
        Self::Aliases,
    ];

    pub fn words(self) -> &'static str {
        match self {
            Self::Original => "the Rust",
            Self::Limits => "the limits",
            Self::OldForm => "the second reading for the old form",
            Self::Types => "the second reading for 10",
            Self::Ranges => "the second reading for ranges",
            Self::Memory => "the second reading for memory",
            Self::DescriptorOperation => "the second reading for operation 2",
            Self::Forbidden => "the second reading for forbidden fields",
            Self::Stars => "the second reading for stars",
            Self::Nameless => "the second reading for nameless parameters",
            Self::Aliases => "the second reading for type aliases",
        }
    }
}

/// What is changed before an answer is compared with the original's.
#[derive(Debug, Clone, Copy, PartialEq, Eq)]
pub enum Change {
    /// The original's sheet has no count of type aliases, and gets one of 0 at its end.
    NoAliases,
    /// The original's types have no projection: each gets the second reading's. All else of a type is compared.
    Projections,
    /// 13 is taken for 7: the original has one number for all that is cut short.
    PastMessage,
    /// 14 is taken for 7, for the same reason.
    FieldTooLarge,
    /// The detail of 7, 8, 9, 13 and 14 is a place, which the original doesn't tell; of 8 it tells the wire type, which must be the one at that
    /// place. All other details are compared.
    Place,
}

impl Change {
    pub const ALL: [Self; 5] =
        [Self::NoAliases, Self::Projections, Self::PastMessage, Self::FieldTooLarge, Self::Place];

    pub fn words(self) -> &'static str {
        match self {
            Self::NoAliases => "count of no type aliases put in",
            Self::Projections => "projections put in",
            Self::PastMessage => "13 taken for 7",
            Self::FieldTooLarge => "14 taken for 7",
            Self::Place => "place in the detail skipped",
        }
    }
}

const RANGES: u64 = 65_536;
const MEMORY: u64 = 1 << 28;

/// What settles the answer of an input, by what the second reading met.
pub fn basis(reading: &Reading) -> Basis {
    match reading.whole.answer.number {
        1..=3 => Basis::Limits,
        _ if reading.old_form => Basis::OldForm,
        10 => Basis::Types,
        _ if reading.ranges > RANGES => Basis::Ranges,
        _ if reading.record_bytes + 4 * reading.text_total > MEMORY => Basis::Memory,
        _ if reading.descriptor_operation => Basis::DescriptorOperation,
        _ if reading.forbidden => Basis::Forbidden,
        _ if reading.star => Basis::Stars,
        _ if reading.nameless => Basis::Nameless,
        _ if reading.aliases => Basis::Aliases,
        _ => Basis::Original,
    }
}

/// The record of kind 9 of a sheet without type aliases: a count of 0.
const NO_ALIASES: [u8; 3] = [9, 0, 0];

/// The kind of a type's record, and where the projection stands in it: at its end.
const TYPE: u8 = 6;
const PROJECTION: usize = LENGTHS[TYPE as usize - 1] - 1;

/// How many bytes the original's records have: a type's has no projection.
const ORIGINAL_LENGTHS: [usize; KINDS] = {
    let mut lengths = LENGTHS;
    lengths[TYPE as usize - 1] = PROJECTION;
    lengths
};

/// The original's sheet of a payload without type aliases and stars, in the form of the sheets: each type gets the projection of the second
/// reading's type in its place, and the count of no aliases is put at the end.
pub fn in_form(sheet: &Sheet, reading: &Reading) -> Sheet {
    let mut projections = projections(&reading.whole.sheet).into_iter();
    let mut bytes = Vec::new();
    for record in records_of(&sheet.bytes, &ORIGINAL_LENGTHS).expect("the original's records") {
        bytes.extend(record);
        if record[0] == TYPE {
            bytes.extend(projections.next());
        }
    }
    bytes.extend(NO_ALIASES);
    Sheet { bytes, ..sheet.clone() }
}

/// The projections of the types on a sheet, in order.
fn projections(sheet: &[u8]) -> Vec<u8> {
    let types = records_of(sheet, &LENGTHS).into_iter().flatten().filter(|record| record[0] == TYPE);
    types.map(|record| record[PROJECTION]).collect()
}

/// A sheet without the projections of its types, as the original's is.
fn without_projections(sheet: &[u8]) -> Vec<u8> {
    let shown = |record: &[u8]| record[..ORIGINAL_LENGTHS[usize::from(record[0]) - 1]].to_vec();
    records_of(sheet, &LENGTHS).into_iter().flatten().flat_map(shown).collect()
}

/// Whether the original's sheet is what stands before the aliases of a sheet that was accepted: the records of kinds 8 and 9 and the aliases'
/// types, and the texts of these, stand after all else. Types are compared without their projections.
pub fn stands_before_aliases(sheet: &Sheet, reading: &Reading) -> bool {
    let whole = &reading.whole;
    let comparable = without_projections(&whole.sheet);
    let rest = comparable.strip_prefix(sheet.bytes.as_slice());
    let begins = rest.is_some_and(|rest| rest.first() == Some(&NO_ALIASES[0]));
    begins
        && whole.text.starts_with(&sheet.text[..sheet.text.len().min(whole.text.len())])
        && sheet.types <= whole.answer.types
}

/// What has to be changed in a refusal to compare it with the original's.
pub fn changes(refused: Answer) -> Vec<Change> {
    match refused.number {
        7..=9 => vec![Change::Place],
        13 => vec![Change::PastMessage, Change::Place],
        14 => vec![Change::FieldTooLarge, Change::Place],
        _ => Vec::new(),
    }
}

/// Whether a refusal is the original's after these changes. `bytes` are the decoded ones.
pub fn agrees(refused: Answer, original: Answer, bytes: &[u8]) -> bool {
    let number = if [13, 14].contains(&refused.number) { 7 } else { refused.number };
    let detail = match number {
        7 | 9 => 0,
        8 => bytes.get(refused.detail as usize).map_or(u64::MAX, |tag| u64::from(tag & 7)),
        _ => refused.detail,
    };
    Answer { number, detail, ..refused } == original
}

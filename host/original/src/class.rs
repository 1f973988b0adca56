//! One class as the original takes it, and its answer.

use crate::frontend::kotlin_metadata::{KotlinMetadata, MetadataError};
use crate::frontend::metadata::{AnnotationElement, AnnotationNode, AnnotationVisibility, DexValue};
use crate::ir::{ArgType, Utf16String};

/// The annotation of one class.
pub struct Class(Vec<AnnotationNode>);

/// What the original refuses, with the specification's numbers.
#[derive(Debug, Clone, Copy, PartialEq, Eq)]
pub struct Refusal {
    pub number: u64,
    pub detail: u64,
}

impl Class {
    pub fn new<'a>(k: i32, mv: [i32; 3], d1: &[u16], d2: impl Iterator<Item = &'a [u16]>) -> Self {
        let text = |units: &[u16]| DexValue::String(Utf16String::from_utf16(units.to_vec()));
        let element = |name: &str, value: DexValue| AnnotationElement { name: name.to_string(), value };
        Self(vec![AnnotationNode {
            visibility: AnnotationVisibility::Runtime,
            annotation_type: ArgType::object("kotlin/Metadata"),
            elements: vec![
                element("k", DexValue::Int(k)),
                element("mv", DexValue::Array(mv.map(DexValue::Int).to_vec())),
                element("d1", DexValue::Array(vec![text(d1)])),
                element("d2", DexValue::Array(d2.map(text).collect())),
            ],
        }])
    }

    /// `KotlinMetadata::decode`, reached by the one public way to it.
    pub fn decode(&self) -> Result<KotlinMetadata, Refusal> {
        KotlinMetadata::of(&self.0).expect("the annotation is there").map_err(|error| refusal(&error))
    }
}

/// The errors' own types are private to the original, so the cause is told by how it prints for debugging.
fn refusal(error: &MetadataError) -> Refusal {
    if let MetadataError::UnsupportedVersion(_) = error {
        return Refusal { number: 4, detail: 0 };
    }
    let shown = format!("{error:?}");
    let detail =
        shown.chars().filter(char::is_ascii_digit).fold(0, |number, digit| number * 10 + u64::from(digit as u8 - b'0'));
    let number = match shown.trim_end_matches(|c: char| c == ')' || c == '(' || c.is_ascii_digit()) {
        "Encoding(Empty" => 5,
        "Encoding(NonByteCharacter" => 6,
        "Wire(Truncated" => 7,
        "Wire(UnknownWireType" => 8,
        "Wire(OversizedVarint" => 9,
        _ => panic!("unknown error of the original: {shown}"),
    };
    Refusal { number, detail }
}

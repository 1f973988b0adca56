//! What `frontend/metadata.rs` names of files that aren't published with it. Nothing here is run.

use std::str::FromStr;

#[derive(Debug, Clone, PartialEq)]
pub struct FieldReference;

#[derive(Debug, Clone, PartialEq)]
pub struct MethodReference;

#[derive(Debug, Clone, PartialEq)]
pub struct ReferenceParseError;

impl std::fmt::Display for ReferenceParseError {
    fn fmt(&self, formatter: &mut std::fmt::Formatter<'_>) -> std::fmt::Result {
        formatter.write_str("no reference")
    }
}

impl std::error::Error for ReferenceParseError {}

impl FromStr for FieldReference {
    type Err = ReferenceParseError;

    fn from_str(_: &str) -> Result<Self, Self::Err> {
        Err(ReferenceParseError)
    }
}

impl FromStr for MethodReference {
    type Err = ReferenceParseError;

    fn from_str(_: &str) -> Result<Self, Self::Err> {
        Err(ReferenceParseError)
    }
}

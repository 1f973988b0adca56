//! Files of inputs: each a 4-byte length and then a program's input; beside it one line for each.

use crate::input::Input;

/// The inputs of a file, as bytes. A length that the file doesn't hold ends the list with what is there.
pub fn split(file: &[u8]) -> Vec<&[u8]> {
    let mut inputs = Vec::new();
    let mut rest = file;
    while let Some((length, after)) = rest.split_first_chunk::<4>() {
        let length = (u32::from_le_bytes(*length) as usize).min(after.len());
        inputs.push(&after[..length]);
        rest = &after[length..];
    }
    inputs
}

pub fn join(inputs: &[Input]) -> Vec<u8> {
    let mut file = Vec::new();
    for input in inputs {
        let bytes = input.to_bytes();
        file.extend((bytes.len() as u32).to_le_bytes());
        file.extend(bytes);
    }
    file
}

/// Where the real classes are: `SHEET_CORPUS`, else beside the original's source.
pub fn folder() -> std::path::PathBuf {
    match std::env::var_os("SHEET_CORPUS") {
        Some(path) => path.into(),
        None => concat!(env!("CARGO_MANIFEST_DIR"), "/../../shared/corpus").into(),
    }
}

/// The real classes, or none where they aren't there.
pub fn classes() -> Vec<Input> {
    let Ok(file) = std::fs::read(folder().join("classes.bin")) else {
        return Vec::new();
    };
    split(&file).into_iter().filter_map(Input::parse).collect()
}

//! Where the static library is. It is linked only with the feature `library`.

use std::path::PathBuf;

fn main() {
    println!("cargo:rerun-if-env-changed=SHEET_READER_LIB");
    if std::env::var_os("CARGO_FEATURE_LIBRARY").is_none() {
        return;
    }
    let root = PathBuf::from(std::env::var_os("CARGO_MANIFEST_DIR").unwrap());
    let archive = match std::env::var_os("SHEET_READER_LIB") {
        Some(path) => PathBuf::from(path),
        None => root.join("../target/staticlib/libsheet_calls.a"),
    };
    let archive = archive
        .canonicalize()
        .unwrap_or_else(|_| panic!("no static library at {}: run ./sheet build", archive.display()));
    println!("cargo:rerun-if-changed={}", archive.display());
    println!("cargo:rustc-link-arg={}", archive.display());
}

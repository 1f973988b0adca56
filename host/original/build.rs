//! Names the files of the original Rust by their places, so that they are built as they stand.

use std::path::PathBuf;

fn main() {
    println!("cargo:rerun-if-env-changed=SHEET_RUST_SRC");
    let manifest = PathBuf::from(std::env::var_os("CARGO_MANIFEST_DIR").unwrap());
    let source = match std::env::var_os("SHEET_RUST_SRC") {
        Some(path) => PathBuf::from(path),
        None => manifest.join("../../../shared/docs/src"),
    };
    let source = source
        .canonicalize()
        .unwrap_or_else(|_| panic!("no Rust source at {} (SHEET_RUST_SRC)", source.display()))
        .join("dexdec/src");
    println!("cargo:rerun-if-changed={}", source.display());
    let file = |name: &str| format!("{:?}", source.join(name));
    let modules = format!(
        "pub mod ir {{
    #[path = {ty}]
    pub mod ty;
    #[path = {utf16}]
    pub mod utf16;
    pub use crate::references::{{FieldReference, MethodReference, ReferenceParseError}};
    pub use ty::{{ArgType, DescriptorParseError, MethodDescriptor}};
    pub use utf16::Utf16String;
}}
pub mod frontend {{
    #[path = {metadata}]
    pub mod metadata;
    #[path = {kotlin}]
    pub mod kotlin_metadata;
}}
",
        ty = file("ir/ty.rs"),
        utf16 = file("ir/utf16.rs"),
        metadata = file("frontend/metadata.rs"),
        kotlin = file("frontend/kotlin_metadata/mod.rs"),
    );
    let out = PathBuf::from(std::env::var_os("OUT_DIR").unwrap()).join("source.rs");
    std::fs::write(out, modules).unwrap();
}

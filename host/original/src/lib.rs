//! The original Rust, built unchanged, and its declarations as a sheet.
//!
//! `ir` and `frontend` are the published files; build.rs names their places. `references` stands for files
//! that the published part leans on and doesn't hold. `sheet` is inside this crate because
//! `default_jvm_signature` is.
#![allow(dead_code, private_interfaces, unused_imports)]

include!(concat!(env!("OUT_DIR"), "/source.rs"));

pub mod class;
mod references;
pub mod sheet;

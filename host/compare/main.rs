//! Holds the reader to the original Rust, in one process, over many inputs. See host/README.md.

mod convert;
mod once;
mod options;
mod run;
mod self_test;
mod strings;

use options::{Options, Task};

fn main() {
    let options = match Options::from(std::env::args().skip(1)) {
        Ok(options) => options,
        Err(words) => {
            eprintln!("compare: {words}\n{}", options::USAGE);
            std::process::exit(2);
        }
    };
    assert!(original::sheet::flags_read_rightly(), "the original's flags aren't read as they are");
    let fine = match &options.task {
        Task::Modes(modes) => run::modes(modes, &options),
        Task::One(bytes) => once::one(bytes, &options),
        Task::Lines(file) => once::lines(file),
        Task::OriginalLines(file) => once::original_lines(file),
        Task::SelfTest => self_test::run(&options),
    };
    std::process::exit(if fine { 0 } else { 1 });
}

//! usage: read_class [STACK]
//!
//! Reads the input of one class from standard input (docs/MANUAL.md, "The program"), calls the reader, and prints the line: number, detail,
//! sheet and text. With STACK the call is made on a thread that has that many bytes of stack.

use std::io::{self, Read, Write};

mod reader {
    //! The static library's function that reads. A slice goes as a pointer and a count of its elements; a Rust slice's own pointer is never null and
    //! always aligned, and `&mut` keeps the areas apart, so that nothing is left for a caller to mind.

    extern "C" {
        fn sheet_read(
            k: i32,
            major: i32,
            minor: i32,
            patch: i32,
            d1: *const u16,
            d1_count: usize,
            d2: *const u16,
            d2_count: usize,
            ends: *const u32,
            ends_count: usize,
            sheet: *mut u8,
            sheet_size: usize,
            text: *mut u8,
            text_size: usize,
            answer: *mut [u64; 5],
        );
    }

    pub struct Answer {
        pub number: u64,
        pub detail: u64,
        pub sheet: usize,
        pub text: usize,
    }

    pub struct Class {
        pub k: i32,
        pub version: [i32; 3],
        pub d1: Vec<u16>,
        pub d2: Vec<u16>,
        pub ends: Vec<u32>,
    }

    pub fn read(class: &Class, sheet: &mut [u8], text: &mut [u8]) -> Answer {
        let [major, minor, patch] = class.version;
        let mut answer = [0; 5];
        // SAFETY: each pointer and count come from one slice, and the borrows last over the call.
        unsafe {
            sheet_read(
                class.k,
                major,
                minor,
                patch,
                class.d1.as_ptr(),
                class.d1.len(),
                class.d2.as_ptr(),
                class.d2.len(),
                class.ends.as_ptr(),
                class.ends.len(),
                sheet.as_mut_ptr(),
                sheet.len(),
                text.as_mut_ptr(),
                text.len(),
                &mut answer,
            );
        }
        let [number, detail, sheet, text, _types] = answer;
        Answer { number, detail, sheet: sheet as usize, text: text as usize }
    }
}

use reader::Class;

/// The next `size` bytes, if they are there.
fn take<'a>(bytes: &mut &'a [u8], size: usize) -> Option<&'a [u8]> {
    let (part, rest) = bytes.split_at_checked(size)?;
    *bytes = rest;
    Some(part)
}

fn number(bytes: &mut &[u8]) -> Option<u32> {
    Some(u32::from_le_bytes(take(bytes, 4)?.try_into().ok()?))
}

/// A count, and as many elements of `width` bytes.
fn counted<'a>(bytes: &mut &'a [u8], width: usize) -> Option<std::slice::ChunksExact<'a, u8>> {
    let count = number(bytes)? as usize;
    Some(take(bytes, count.checked_mul(width)?)?.chunks_exact(width))
}

fn units(bytes: &mut &[u8]) -> Option<Vec<u16>> {
    Some(counted(bytes, 2)?.map(|unit| u16::from_le_bytes([unit[0], unit[1]])).collect())
}

fn class(mut bytes: &[u8]) -> Option<Class> {
    let bytes = &mut bytes;
    let k = number(bytes)? as i32;
    let version = [number(bytes)? as i32, number(bytes)? as i32, number(bytes)? as i32];
    let (d1, d2) = (units(bytes)?, units(bytes)?);
    let ends = counted(bytes, 4)?.map(|end| u32::from_le_bytes([end[0], end[1], end[2], end[3]])).collect();
    Some(Class { k, version, d1, d2, ends })
}

fn hex(bytes: &[u8]) -> String {
    if bytes.is_empty() {
        return "-".to_string();
    }
    bytes.iter().map(|byte| format!("{byte:02x}")).collect()
}

fn line(class: &Class, stack: Option<usize>) -> String {
    let (mut sheet, mut text) = (vec![0; 65536], vec![0; 65536]);
    let answer = match stack {
        None => reader::read(class, &mut sheet, &mut text),
        Some(size) => std::thread::scope(|scope| {
            let call = || reader::read(class, &mut sheet, &mut text);
            let thread = std::thread::Builder::new().stack_size(size).spawn_scoped(scope, call);
            thread.expect("no thread").join().expect("the thread ended early")
        }),
    };
    format!("{} {} {} {}", answer.number, answer.detail, hex(&sheet[..answer.sheet]), hex(&text[..answer.text]))
}

fn main() -> io::Result<()> {
    let stack = std::env::args().nth(1).map(|size| size.parse().expect("STACK is a number of bytes"));
    let mut bytes = Vec::new();
    io::stdin().read_to_end(&mut bytes)?;
    let said = class(&bytes).map_or("input".to_string(), |class| line(&class, stack));
    writeln!(io::stdout(), "{said}")
}

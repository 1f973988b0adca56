//! Medians of repeated rounds.

use harness::answer::{ROOM, USED};
use harness::expected::expected;
use harness::input::Input;
use harness::limits::{Areas, AREA, STRINGS};
use harness::reader::Reader;
use original::class::Class;
use original::sheet::Sheet;
use std::hint::black_box;

pub struct Timing {
    pub reader: Reader,
    clear: bool,
    sheet: Vec<u8>,
    text: Vec<u8>,
    used: Vec<u8>,
    number: u64,
    worst: (f64, String),
    worst_room: (f64, String),
    worst_strings: (f64, String),
}

/// A round takes about this long, and the median is of so many rounds.
const ROUND: f64 = 0.02;
const ROUNDS: usize = 11;

impl Timing {
    pub fn new(reader: Reader, clear: bool) -> Self {
        Self {
            reader,
            clear,
            sheet: vec![0; AREA],
            text: vec![0; AREA],
            used: vec![0; STRINGS],
            number: 0,
            worst: (0.0, String::new()),
            worst_room: (0.0, String::new()),
            worst_strings: (0.0, String::new()),
        }
    }

    /// Lends a sheet area of another length: one that no sheet outgrows lets more inputs be accepted, and accepted ones are walked twice.
    pub fn lend(&mut self, sheet: usize) {
        self.sheet = vec![0; sheet];
    }

    pub fn clearing(&self) -> &'static str {
        if self.clear {
            "cleared before each call"
        } else {
            "not cleared"
        }
    }

    pub fn reader(&mut self, input: &Input, count: u64) {
        for _ in 0..count {
            if self.clear {
                self.sheet.fill(0);
                self.text.fill(0);
            }
            let mut answer = [0; 5];
            self.reader.call(black_box(input), &mut self.sheet, &mut self.text, &mut answer);
            self.number = black_box(answer[0]);
        }
    }

    /// One call that tells the strings that the reading of an input falls to.
    pub fn strings(&mut self, input: &Input) {
        let mut answer = [0; USED];
        self.reader.strings(black_box(input), &mut self.used, &mut answer);
        black_box(answer);
    }

    pub fn originals(&self, inputs: &[Input], count: u64) {
        let prepared = prepared(inputs);
        for _ in 0..count {
            prepared.iter().for_each(|class| drop(black_box(class.decode())));
        }
    }

    /// Seconds of one call of the reader and of one decode by the Rust.
    pub fn both(&mut self, input: &Input) -> [f64; 2] {
        let prepared = prepared(std::slice::from_ref(input));
        let mut reader = || self.reader(input, 1);
        let mut decode = || drop(black_box(prepared[0].decode()));
        medians(ROUND / 10.0, [&mut reader, &mut decode])
    }

    /// Times one slow input, prints a line, and keeps the slowest.
    pub fn slow(&mut self, words: &str, input: &Input) {
        let called = self.reader;
        let [strings] = medians(ROUND, [&mut || self.strings(input)]);
        let [read, room] = medians(ROUND, [&mut || self.reader(input, 1), &mut || room(called, input)]);
        println!(
            "{:8.2} ms, room {:8.2} ms, strings {:8.2} ms, answer {:2}, {words}",
            read * 1e3,
            room * 1e3,
            strings * 1e3,
            self.number
        );
        if read > self.worst.0 {
            self.worst = (read, words.to_string());
        }
        if room > self.worst_room.0 {
            self.worst_room = (room, words.to_string());
        }
        if strings > self.worst_strings.0 {
            self.worst_strings = (strings, words.to_string());
        }
    }

    pub fn tell_worst(&self) {
        println!("slowest: {:.2} ms, {}", self.worst.0 * 1e3, self.worst.1);
        println!("slowest room: {:.2} ms, {}", self.worst_room.0 * 1e3, self.worst_room.1);
        println!("slowest strings: {:.2} ms, {}", self.worst_strings.0 * 1e3, self.worst_strings.1);
    }

    /// Times a set of inputs and prints a line.
    pub fn set(&mut self, words: &str, inputs: &[Input]) {
        if inputs.is_empty() {
            return;
        }
        let bytes: usize = inputs.iter().map(|input| input.d1.len() + input.d2.len()).sum();
        let prepared = prepared(inputs);
        let called = self.reader;
        let [strings] = medians(ROUND, [&mut || inputs.iter().for_each(|input| self.strings(input))]);
        let mut reader = || inputs.iter().for_each(|input| self.reader(input, 1));
        let mut room = || inputs.iter().for_each(|input| room(called, input));
        let mut decode = || prepared.iter().for_each(|class| drop(black_box(class.decode())));
        let mut sheet = || {
            for class in &prepared {
                drop(black_box(class.decode().map(|metadata| Sheet::of(&metadata))));
            }
        };
        let [read, room, decode, sheet] = medians(ROUND, [&mut reader, &mut room, &mut decode, &mut sheet]);
        let number = self.number;
        let each = |seconds: f64| seconds * 1e9 / inputs.len() as f64;
        println!(
            "{words} ({}, {bytes} bytes{}): reader {:.0} ns a class, {:.2} ns a byte, {:.1} MB/s; Rust's decode {:.0} ns, ratio {:.2}; with its sheet {:.0} ns",
            count(inputs.len()),
            if inputs.len() == 1 { answer(&inputs[0], number) } else { String::new() },
            each(read),
            read * 1e9 / bytes as f64,
            bytes as f64 / read / 1e6,
            each(decode),
            read / decode,
            each(sheet)
        );
        println!("  room: {:.0} ns a class, {:.2} of the reader's time", each(room), room / read);
        println!("  strings: {:.0} ns a class, {:.2} of the reader's time", each(strings), strings / read);
    }
}

/// One call that tells the room of an input.
pub fn room(reader: Reader, input: &Input) {
    let mut answer = [0; ROOM];
    reader.room(black_box(input), &mut answer);
    black_box(answer);
}

fn prepared(inputs: &[Input]) -> Vec<Class> {
    inputs.iter().map(|input| Class::new(input.k, input.mv, &input.d1, input.strings())).collect()
}

fn count(count: usize) -> String {
    if count == 1 {
        "1 class".to_string()
    } else {
        format!("{count} classes")
    }
}

/// The answer that was timed, and that it was right.
fn answer(input: &Input, number: u64) -> String {
    let right = expected(input, Areas::PROGRAM).whole.answer;
    let wrong = if right.number == number { "" } else { " WRONG" };
    format!(", answer {number}{wrong}, {} types, sheet {}", right.types, right.sheet)
}

#[repr(C)]
struct Timespec {
    seconds: i64,
    nanoseconds: i64,
}

extern "C" {
    fn clock_gettime(clock: i32, time: *mut Timespec) -> i32;
}

/// Seconds that this thread has run: what waits for a core while others have it doesn't count.
fn running() -> f64 {
    const CLOCK_THREAD_CPUTIME_ID: i32 = 3;
    let mut time = Timespec { seconds: 0, nanoseconds: 0 };
    let failed = unsafe { clock_gettime(CLOCK_THREAD_CPUTIME_ID, &mut time) };
    assert_eq!(failed, 0, "no clock of this thread");
    time.seconds as f64 + time.nanoseconds as f64 / 1e9
}

/// Seconds of one run of each, as the median of some rounds of so many seconds. The rounds take turns, so that a busy machine slows all.
fn medians<const N: usize>(round: f64, mut runs: [&mut dyn FnMut(); N]) -> [f64; N] {
    let time = |run: &mut dyn FnMut(), times: usize| {
        let start = running();
        (0..times).for_each(|_| run());
        (running() - start) / times as f64
    };
    let first: Vec<f64> = runs.iter_mut().map(|run| time(run, 1)).collect();
    let rounds = if first.iter().any(|seconds| *seconds > 0.5) { 3 } else { ROUNDS };
    let mut measured = vec![Vec::new(); N];
    for _ in 0..rounds {
        for (place, run) in runs.iter_mut().enumerate() {
            let times = (round / first[place].max(1e-9)).clamp(1.0, 1e6) as usize;
            measured[place].push(time(run, times));
        }
    }
    std::array::from_fn(|place| {
        measured[place].sort_by(f64::total_cmp);
        measured[place][rounds / 2]
    })
}

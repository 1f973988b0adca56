//! The command line.

use harness::input::from_hex;
use harness::reader::Reader;

pub const USAGE: &str =
    "compare [--seed N] [--count N] [--mode exhaustive|made|tables|damaged|boundaries|room|strings|slow|convert|all] [--show N]
compare --file INPUT | --hex HEX    one program input: the line that is right, and whether the reader's is it
compare --lines FILE                the line that is right for each input of a file of inputs
compare --original-lines FILE       the Rust's own line for each, without what sheets have got since
compare --self-test                 plants mistakes in the stand-in; each must be found
        [--reader library|stand-in|MISTAKE] [--sheet LENGTH] [--text LENGTH]";

#[derive(Debug, Clone, Copy, PartialEq, Eq)]
pub enum Mode {
    Exhaustive,
    Made,
    /// Type tables of every shape.
    Tables,
    Damaged,
    Boundaries,
    Room,
    /// Inputs with other strings that nobody refers to.
    Strings,
    Slow,
    /// The conversions of d1, and not the reader alone.
    Convert,
}

impl Mode {
    pub const ALL: [Self; 9] = [
        Self::Exhaustive,
        Self::Made,
        Self::Tables,
        Self::Damaged,
        Self::Boundaries,
        Self::Room,
        Self::Strings,
        Self::Slow,
        Self::Convert,
    ];

    pub fn name(self) -> String {
        format!("{self:?}").to_lowercase()
    }
}

pub enum Task {
    Modes(Vec<Mode>),
    One(Vec<u8>),
    Lines(Vec<u8>),
    OriginalLines(Vec<u8>),
    SelfTest,
}

pub struct Options {
    pub seed: u64,
    pub count: u64,
    pub show: usize,
    pub reader: Reader,
    pub sheet: usize,
    pub text: usize,
    pub task: Task,
}

impl Options {
    pub fn from(mut words: impl Iterator<Item = String>) -> Result<Self, String> {
        let mut options = Self {
            seed: 1,
            count: 20_000,
            show: 3,
            reader: Reader::DEFAULT,
            sheet: harness::limits::AREA,
            text: harness::limits::AREA,
            task: Task::Modes(Mode::ALL.to_vec()),
        };
        while let Some(word) = words.next() {
            if word == "--self-test" {
                options.task = Task::SelfTest;
                continue;
            }
            let value = words.next().ok_or(format!("{word} wants a value"))?;
            options.set(&word, &value)?;
        }
        Ok(options)
    }

    fn set(&mut self, word: &str, value: &str) -> Result<(), String> {
        let number = || value.parse::<u64>().map_err(|_| format!("{word}: {value} is no number"));
        let file = || std::fs::read(value).map_err(|error| format!("{value}: {error}"));
        match word {
            "--seed" => self.seed = number()?,
            "--count" => self.count = number()?,
            "--show" => self.show = number()? as usize,
            "--sheet" => self.sheet = number()? as usize,
            "--text" => self.text = number()? as usize,
            "--file" => self.task = Task::One(file()?),
            "--lines" => self.task = Task::Lines(file()?),
            "--original-lines" => self.task = Task::OriginalLines(file()?),
            "--hex" => self.task = Task::One(from_hex(value).ok_or("no hex")?),
            "--reader" => self.reader = Reader::named(value).ok_or(format!("no reader {value} in this build"))?,
            "--mode" if value == "all" => self.task = Task::Modes(Mode::ALL.to_vec()),
            "--mode" => {
                let mode = Mode::ALL.into_iter().find(|mode| mode.name() == value);
                self.task = Task::Modes(vec![mode.ok_or(format!("no mode {value}"))?]);
            }
            _ => return Err(format!("unknown option {word}")),
        }
        Ok(())
    }
}

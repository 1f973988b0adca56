//! Whether the comparison finds mistakes: each is planted in the stand-in by itself.

use crate::convert;
use crate::options::{Mode, Options};
use crate::run::{Run, Source};
use crate::strings;
use harness::conversion::{self, Converter, Inputs};
use harness::reader::Reader;
use harness::second::Mistake;

pub fn run(options: &Options) -> bool {
    let source = Source::default();
    let mut missed = 0;
    for mistake in Mistake::ALL {
        let found = [Mode::Made, Mode::Damaged, Mode::Boundaries]
            .into_iter()
            .map(|mode| (mode, found_after(&source, mode, *mistake, options)));
        let found: Vec<String> =
            found.filter_map(|(mode, after)| Some(format!("{} {}", mode.name(), after?))).collect();
        let shown = if found.is_empty() { "NOT FOUND".to_string() } else { found.join(", ") };
        missed += usize::from(found.is_empty());
        println!("{mistake:?} ({}): {shown}", mistake.words());
    }
    println!("{} mistakes, {missed} not found", Mistake::ALL.len());
    let all = strings_found(&source, options) & converters(options);
    all && missed == 0
}

/// Mistakes by which strings matter that nobody refers to, in the mode that changes these alone.
fn strings_found(source: &Source, options: &Options) -> bool {
    let mut missed = 0;
    for mistake in [Mistake::SurrogateAcross, Mistake::FallsToStrings] {
        let found = strings::found_after(source, mistake, options);
        missed += usize::from(found.is_none());
        let shown = found.map_or("NOT FOUND".to_string(), |number| format!("strings {}", number + 1));
        println!("{mistake:?} ({}): {shown}", mistake.words());
    }
    missed == 0
}

/// The same of mistakes of the conversions.
fn converters(options: &Options) -> bool {
    let inputs = Inputs::default();
    let mut missed = 0;
    for mistake in conversion::Mistake::ALL {
        let found = convert::found_after(Converter::StandIn(*mistake), &inputs, options);
        missed += usize::from(found.is_none());
        let shown = found.map_or("NOT FOUND".to_string(), |number| format!("convert {}", number + 1));
        println!("{mistake:?} ({}): {shown}", mistake.words());
    }
    println!("{} mistakes of conversions, {missed} not found", conversion::Mistake::ALL.len());
    missed == 0
}

/// After how many inputs of a mode a mistake shows, if it does.
fn found_after(source: &Source, mode: Mode, mistake: Mistake, options: &Options) -> Option<u64> {
    let mut run = Run::new(Reader::StandIn(mistake), 0);
    let count = if mode == Mode::Boundaries { options.count / 20 } else { options.count };
    for number in 0..count {
        run.check(mode, &source.input(mode, options.seed, number)?);
        if run.seen.differences > 0 {
            return Some(number + 1);
        }
    }
    None
}

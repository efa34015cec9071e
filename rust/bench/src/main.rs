//! Measures `mattuliyan` beside a program that goes pixel by pixel, FreeType, AGG and an earlier library, and writes docs/BENCHMARKS.md.

mod cases;
mod cells;
mod counting;
mod folder;
mod growth;
mod inputs;
mod library;
mod machine;
mod others;
mod page;
mod pixels;
mod profile;
mod reads;
mod timing;
mod words;
mod work;

use cases::Case;
use cells::{Calls, Cells, Damage, Version, CALLS, DAMAGES};
use counting::{Counted, Counter, COUNT};
use growth::SERIES;
use inputs::{Input, KINDS, VARIANTS};
use machine::Machine;
use page::{Everything, Measured, MeasuredCells};
use profile::Profile;
use reads::{Reads, READ};
use std::path::{Path, PathBuf};
use std::process::ExitCode;
use std::{env, fs};
use timing::{Times, FEW_ROUNDS, ROUNDS};
use work::Work;

/// Where the page belongs, at the top of the repository.
const PAGE: &str = concat!(env!("CARGO_MANIFEST_DIR"), "/../../docs/BENCHMARKS.md");

const HELP: &str = "\
Measures building and drawing, beside a program that goes pixel by pixel, and
FreeType and AGG if they are installed, and counts instructions if valgrind is.
Takes some minutes; let nothing else run.

    cargo run --release -p bench              writes docs/BENCHMARKS.md

    --print         writes the page to standard output instead
    --quick         the same, after few rounds: a look, whose times nobody keeps
    --before FILE   an earlier library too, in the same rounds: FILE is the
                    libtile_c.a that rt made of it. Leave it in
                    the checkout that it was made in, whose commit the page names.
    --help          writes this
";

/// What the user wants.
#[derive(Default, PartialEq, Debug)]
struct Options {
    print: bool,
    quick: bool,
    before: Option<PathBuf>,
}

impl Options {
    fn of(words: &[&str]) -> Option<Options> {
        let mut options = Options::default();
        let mut words = words.iter();
        while let Some(&word) = words.next() {
            let new = match word {
                "--print" => !std::mem::replace(&mut options.print, true),
                "--quick" => !std::mem::replace(&mut options.quick, true),
                "--before" => options.before.replace(words.next()?.into()).is_none(),
                _ => false,
            };
            if !new {
                return None;
            }
        }
        Some(options)
    }

    fn rounds(&self) -> usize {
        if self.quick {
            FEW_ROUNDS
        } else {
            ROUNDS
        }
    }
}

fn main() -> ExitCode {
    let arguments: Vec<String> = env::args().skip(1).collect();
    let words: Vec<&str> = arguments.iter().map(String::as_str).collect();
    let done = match (&words[..], Options::of(&words)) {
        (["--help"], _) => {
            print!("{HELP}");
            Ok(())
        }
        ([COUNT, ..], _) => counting::run_counted(&arguments[1..]),
        ([READ, ..], _) => reads::run_read(&arguments[1..]),
        (_, Some(options)) => measure(&options).and_then(|page| write(&page, options.print || options.quick)),
        (_, None) => Err(format!("these arguments say nothing to it\n\n{HELP}")),
    };
    match done {
        Ok(()) => ExitCode::SUCCESS,
        Err(message) => {
            eprintln!("bench: {message}");
            ExitCode::FAILURE
        }
    }
}

fn write(page: &str, print: bool) -> Result<(), String> {
    if print {
        print!("{page}");
        return Ok(());
    }
    fs::write(PAGE, page).map_err(|error| format!("docs/BENCHMARKS.md: {error}"))
}

fn measure(options: &Options) -> Result<String, String> {
    if cfg!(debug_assertions) {
        eprintln!("This is not a release build: the times will not be those of one.");
    }
    let (before, rounds) = (options.before.as_deref(), options.rounds());
    // first, so that a file that is none is told at once
    let cells = Cells::new(before)?;
    let counter = Counter::new();
    let mut kinds = Vec::new();
    let mut versions = Vec::new();
    for input in KINDS {
        let mut work = Work::new(input, VARIANTS, before)?;
        versions = work.versions();
        eprintln!("{}: comparing", input.name());
        work.check()?;
        eprintln!("{}: timing", input.name());
        let times = Times::measure(work.cases(), work.outlines(), rounds, |case| work.run_all(case))?;
        let differences = differences(&mut work)?;
        let count = |counter| profiles(counter, input, &work.cases(), before);
        let profiles = counter.as_ref().map_err(String::clone).and_then(count);
        kinds.push(Measured { input, times, profiles, differences });
    }
    let mut growth = Vec::new();
    for series in SERIES {
        growth.push(growth::measure(series, rounds, &counter)?);
    }
    let cells = measure_cells(&cells, before, rounds, &counter)?;
    let before = before.map(machine::commit);
    Ok(page::page(&Everything { machine: Machine::here(), versions, rounds, kinds, growth, cells, before }))
}

fn measure_cells(
    cells: &Cells,
    before: Option<&Path>,
    rounds: usize,
    counter: &Result<Counter, String>,
) -> Result<MeasuredCells, String> {
    eprintln!("One cell: timing");
    let times = Times::measure(cells.all(), CALLS, rounds, |calls| cells.run(calls))?;
    let counts = counter.as_ref().map_err(String::clone).and_then(|counter| counts(counter, cells, before));
    let reads = counter.as_ref().map_err(String::clone).and_then(all_reads);
    Ok(MeasuredCells { times, counts, reads })
}

fn all_reads(counter: &Counter) -> Result<Vec<(Damage, Reads)>, String> {
    eprintln!("One cell: counting what is read");
    DAMAGES.into_iter().map(|damage| Ok((damage, counter.reads(damage)?))).collect()
}

/// The instructions of one call.
fn counts(counter: &Counter, cells: &Cells, before: Option<&Path>) -> Result<Vec<(Calls, i64)>, String> {
    let mut all = Vec::new();
    for calls in cells.all() {
        eprintln!("One cell: counting the instructions with {}", calls.damage.title());
        let archive = before.filter(|_| calls.version == Version::Before);
        let profile = counter.profile(&Counted::cells(calls.damage, archive))?;
        all.push((calls, profile.total() / CALLS as i64));
    }
    Ok(all)
}

fn differences(work: &mut Work) -> Result<Vec<(others::Library, Vec<u8>)>, String> {
    work.versions().into_iter().map(|(library, _)| Ok((library, work.differences(library)?))).collect()
}

fn profiles(
    counter: &Counter,
    input: Input,
    cases: &[Case],
    before: Option<&Path>,
) -> Result<Vec<(Case, Profile)>, String> {
    let mut all = Vec::new();
    for &case in cases {
        eprintln!("{}: counting the instructions of {}", input.name(), case.title().replace('*', ""));
        let archive = before.filter(|_| matches!(case, Case::Before(_)));
        all.push((case, counter.profile(&Counted::outline(input, case, archive))?));
    }
    Ok(all)
}

#[cfg(test)]
mod tests {
    use super::*;

    #[test]
    fn options_come_in_any_order_and_once() {
        let all = Options { print: true, quick: true, before: Some("a".into()) };
        assert_eq!(Options::of(&["--quick", "--before", "a", "--print"]), Some(all));
        assert_eq!(Options::of(&[]), Some(Options::default()));
        for refused in [&["--quick", "--quick"][..], &["--before"], &["a"], &["--before", "a", "--before", "b"]] {
            assert_eq!(Options::of(refused), None, "{refused:?}");
        }
    }
}

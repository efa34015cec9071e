//! Exact instruction counts: the program runs itself under valgrind's callgrind, with one run of a case and with two. The
//! difference is one run, whatever starting and preparing cost.

use crate::cases::{Case, CASES};
use crate::cells::{Calls, Cells, Damage, Version, DAMAGES};
use crate::folder::Folder;
use crate::growth;
use crate::inputs::Input;
use crate::profile::Profile;
use crate::reads::{self, Reads};
use crate::work::Work;
use std::path::Path;
use std::process::Command;
use std::{env, fs};

/// The argument, not for users, by which the program runs a case so many times and nothing else.
pub const COUNT: &str = "--count";

/// A case, by words that the program can be given: of an outline, or of cells.
pub struct Counted(Vec<String>);

const OUTLINE: &str = "outline";
const CELLS: &str = "cells";

impl Counted {
    /// On the first outline, with the archive of an earlier library if the case wants one.
    pub fn outline(input: Input, case: Case, archive: Option<&Path>) -> Counted {
        Counted::with(vec![OUTLINE.into(), place(&growth::inputs(), input), place(&CASES, case)], archive)
    }

    /// Of the library as it is now, or of the archive.
    pub fn cells(damage: Damage, archive: Option<&Path>) -> Counted {
        Counted::with(vec![CELLS.into(), place(&DAMAGES, damage)], archive)
    }

    fn with(mut words: Vec<String>, archive: Option<&Path>) -> Counted {
        words.extend(archive.map(|archive| archive.display().to_string()));
        Counted(words)
    }

    /// Prepares the case that the words name, and runs it so many times.
    fn run(words: &[&str], times: usize) -> Result<(), String> {
        match words {
            [OUTLINE, input, case, archive @ ..] if archive.len() <= 1 => {
                let input = at(&growth::inputs(), input).ok_or("no such input")?;
                let case = at(&CASES, case).ok_or("no such case")?;
                let mut work = Work::new(input, 1, archive.first().map(Path::new))?;
                (0..times).try_for_each(|_| work.run_all(case))
            }
            [CELLS, damage, archive @ ..] if archive.len() <= 1 => {
                let damage = at(&DAMAGES, damage).ok_or("no such damage")?;
                let before = archive.first().map(Path::new);
                let version = if before.is_some() { Version::Before } else { Version::Now };
                let cells = Cells::new(before)?;
                (0..times).try_for_each(|_| cells.run(Calls { version, damage }))
            }
            _ => Err("no such case".into()),
        }
    }
}

/// Valgrind and a folder for what it writes.
pub struct Counter {
    folder: Folder,
}

impl Counter {
    /// An error is for the page to say.
    pub fn new() -> Result<Counter, String> {
        let version = Command::new("valgrind").arg("--version").output();
        if !version.is_ok_and(|output| output.status.success()) {
            return Err("valgrind was not found. On Debian it is in `valgrind`".into());
        }
        Ok(Counter { folder: Folder::new()? })
    }

    /// What one run of a case costs, function by function.
    pub fn profile(&self, counted: &Counted) -> Result<Profile, String> {
        Ok(self.run(counted, 2)?.less(&self.run(counted, 1)?))
    }

    /// What one call for a cell loads from its table.
    pub fn reads(&self, damage: Damage) -> Result<Reads, String> {
        reads::reads(damage, &self.folder.0)
    }

    fn run(&self, counted: &Counted, times: u32) -> Result<Profile, String> {
        let file = self.folder.0.join("callgrind.out");
        let program = env::current_exe().map_err(|error| error.to_string())?;
        let output = Command::new("valgrind")
            .args(["--tool=callgrind", "--quiet"])
            .arg(format!("--callgrind-out-file={}", file.display()))
            .arg(program)
            .args([COUNT, &times.to_string()])
            .args(&counted.0)
            .output()
            .map_err(|error| error.to_string())?;
        if !output.status.success() {
            eprint!("{}", String::from_utf8_lossy(&output.stderr));
            return Err("valgrind failed".into());
        }
        let text = fs::read(&file).map_err(|error| error.to_string())?;
        Profile::parse(&String::from_utf8_lossy(&text))
    }
}

/// What the program does under valgrind: how many times, and the words of a case.
pub fn run_counted(arguments: &[String]) -> Result<(), String> {
    let words: Vec<&str> = arguments.iter().map(String::as_str).collect();
    let (times, words) = words.split_first().ok_or("no number of times")?;
    Counted::run(words, times.parse().map_err(|_| "no number of times")?)
}

fn place<T: PartialEq>(all: &[T], one: T) -> String {
    let place = all.iter().position(|each| *each == one);
    place.expect("every input, case and damage is in its list").to_string()
}

fn at<T: Copy>(all: &[T], place: &str) -> Option<T> {
    all.get(place.parse::<usize>().ok()?).copied()
}

#[cfg(test)]
mod tests {
    use super::*;

    use crate::cases::Step;
    use crate::inputs::KINDS;
    use crate::library::{with_another, ARCHIVE};

    fn run(times: &str, Counted(words): Counted) -> Result<(), String> {
        run_counted(&[vec![times.to_string()], words].concat())
    }

    #[test]
    fn places_are_read_as_they_are_written() {
        fn is_found<T: Copy + PartialEq>(all: &[T]) -> bool {
            all.iter().all(|&each| at(all, &place(all, each)) == Some(each))
        }
        assert!(is_found(&growth::inputs()) && is_found(&CASES) && is_found(&DAMAGES));
    }

    #[test]
    fn a_case_is_found_by_its_words() {
        for input in growth::inputs() {
            assert_eq!(run("2", Counted::outline(input, Case::Build, None)), Ok(()));
        }
        let before = Case::Before(Step::BuildAndDrawAll);
        assert_eq!(run("2", Counted::outline(KINDS[1], before, Some(Path::new(ARCHIVE)))), Ok(()));
        assert!(run("1", Counted::outline(KINDS[1], before, None)).is_err());
        for damage in DAMAGES {
            assert_eq!(run("2", Counted::cells(damage, None)), Ok(()));
            // a library whose answers are not those that are expected
            assert!(with_another(|object| run("1", Counted::cells(damage, Some(object)))).is_err());
        }
    }

    #[test]
    fn other_words_are_refused() {
        let (past_inputs, past_cases) = (growth::inputs().len().to_string(), CASES.len().to_string());
        let archive = ARCHIVE;
        let refused: [&[&str]; 12] = [
            &[],
            &["1"],
            &["x", OUTLINE, "0", "0"],
            &["1", OUTLINE, &past_inputs, "0"],
            &["1", OUTLINE, "0", &past_cases],
            &["1", OUTLINE, "0", "0", "no archive"],
            &["1", OUTLINE, "0", "0", archive, archive],
            &["1", OUTLINE, "0"],
            &["1", CELLS],
            &["1", CELLS, "3"],
            &["1", CELLS, "0", "no archive"],
            &["1", CELLS, "0", archive, archive],
        ];
        for words in refused {
            let arguments: Vec<String> = words.iter().map(|word| word.to_string()).collect();
            assert!(run_counted(&arguments).is_err(), "{words:?}");
        }
        assert_eq!(run("1", Counted::cells(Damage::Front, Some(Path::new(archive)))), Ok(()));
    }
}

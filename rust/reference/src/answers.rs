//! The stored answers: what the project's programs must print, made anew.
//!
//! `tests/frames` has texts for the tile program, each with its answer beside
//! it; a program of `crates/` that is run as a test has its answer in `stdout`
//! and, where it reads any, its cases in `stdin`. Each of these answers is made
//! here from the reference alone. Only the form of the cases and of what is
//! printed is the test programs' own, and is told again in the modules below.

mod edges;
mod integers;
mod lines;
mod tables;
mod tiles;

use crate::frame::tile_program;
use crate::questions::{depth, Limits};
use crate::rules::Spec;
use std::fs;
use std::io::ErrorKind;
use std::path::Path;

/// The command that makes every stored answer anew, given in `rust/`.
pub const COMMAND: &str = "cargo run --release --bin answers";

/// The depth of the largest tile.
const GREATEST_DEPTH: u32 = depth(Limits::SPEC.greatest_side);

/// A stored file, named from the project's top folder, and what it must hold.
pub struct Answer {
    /// The file's name, with `/` between folders.
    pub name: String,
    /// What it must hold, byte for byte.
    pub text: String,
}

/// A program of `crates/` that is run as a test.
enum Program {
    /// What it prints for its cases; a line that is no case is an error.
    Reads(fn(&str) -> Result<String, String>),
    /// What it prints, from numbers of its own.
    ReadsNothing(fn() -> String),
}

/// All such programs.
const PROGRAMS: [(&str, Program); 5] = [
    ("edge_vectors", Program::Reads(edges::answer)),
    ("haar_vectors", Program::Reads(|cases| Ok(tables::answer(cases)))),
    ("integer_vectors", Program::ReadsNothing(integers::answer)),
    ("tile_program", Program::Reads(|text| Ok(tile_program(&Spec, text.as_bytes())))),
    ("tile_vectors", Program::Reads(tiles::answer)),
];

/// Every stored answer of the project in this folder, in the order of the
/// names; or what is amiss, a line for each: a file that cannot be read, a case
/// that is none, an answer that nothing stands behind, a file among the frames
/// that is neither frame nor answer.
pub fn all(top: &Path) -> Result<Vec<Answer>, String> {
    let (mut answers, mut amiss) = (Vec::new(), Vec::new());
    for answer in programs(top)?.into_iter().chain(frames(top)?) {
        match answer {
            Ok(answer) => answers.push(answer),
            Err(error) => amiss.push(error),
        }
    }
    if amiss.is_empty() {
        Ok(answers)
    } else {
        Err(amiss.join("\n"))
    }
}

fn frames(top: &Path) -> Result<Vec<Result<Answer, String>>, String> {
    let folder = "tests/frames";
    let files = names(top, folder)?;
    let mut answers = Vec::new();
    for file in &files {
        if let Some(name) = file.strip_suffix(".frame") {
            let made = read(top, &format!("{folder}/{file}")).map(|text| tile_program(&Spec, &text));
            answers.push(made.map(|text| Answer { name: format!("{folder}/{name}.answer"), text }));
        } else if let Some(name) = file.strip_suffix(".answer") {
            if !files.contains(&format!("{name}.frame")) {
                answers.push(Err(format!("{folder}/{file}: it has no frame")));
            }
        } else if !file.starts_with('.') {
            // A hidden file is git's or an editor's own.
            answers.push(Err(format!("{folder}/{file}: it is neither a frame nor an answer")));
        }
    }
    Ok(answers)
}

fn programs(top: &Path) -> Result<Vec<Result<Answer, String>>, String> {
    let mut answers = Vec::new();
    for (crate_name, program) in &PROGRAMS {
        let folder = format!("crates/{crate_name}");
        let made = match program {
            Program::ReadsNothing(answer) => Ok(answer()),
            Program::Reads(answer) => cases(top, &format!("{folder}/stdin"), *answer),
        };
        answers.push(made.map(|text| Answer { name: format!("{folder}/stdout"), text }));
    }
    for crate_name in names(top, "crates")? {
        let stored = format!("crates/{crate_name}/stdout");
        if top.join(&stored).exists() && !PROGRAMS.iter().any(|(known, _)| *known == crate_name) {
            answers.push(Err(format!("{stored}: its program is not known here")));
        }
    }
    Ok(answers)
}

/// What a program prints for the cases of a file.
fn cases(top: &Path, name: &str, answer: fn(&str) -> Result<String, String>) -> Result<String, String> {
    let text = String::from_utf8(read(top, name)?).map_err(|_| format!("{name}: it is no text"))?;
    answer(&text).map_err(|error| format!("{name}, {error}"))
}

/// What a folder holds, in the order of the names.
fn names(top: &Path, folder: &str) -> Result<Vec<String>, String> {
    let amiss = |error| format!("{folder}: {error}");
    let mut names = Vec::new();
    for entry in fs::read_dir(top.join(folder)).map_err(amiss)? {
        names.push(entry.map_err(amiss)?.file_name().to_string_lossy().into_owned());
    }
    names.sort();
    Ok(names)
}

fn read(top: &Path, name: &str) -> Result<Vec<u8>, String> {
    fs::read(top.join(name)).map_err(|error| format!("{name}: {error}"))
}

impl Answer {
    /// How the stored file differs from what it must hold, by the first line
    /// that does; none where it is the same byte for byte.
    pub fn difference(&self, top: &Path) -> Result<Option<String>, String> {
        let stored = match fs::read(top.join(&self.name)) {
            Ok(stored) => stored,
            Err(error) if error.kind() == ErrorKind::NotFound => {
                return Ok(Some(format!("{}: it is not there", self.name)));
            }
            Err(error) => return Err(format!("{}: {error}", self.name)),
        };
        let (mut found, mut wanted) = (lines_of(&stored), lines_of(self.text.as_bytes()));
        for number in 1.. {
            match (found.next(), wanted.next()) {
                (None, None) => break,
                (found, wanted) if found == wanted => (),
                (found, wanted) => {
                    let [found, wanted] = [found, wanted].map(shown);
                    let name = &self.name;
                    return Ok(Some(format!("{name}, line {number}: {found} is stored, and {wanted} is right")));
                }
            }
        }
        Ok(None)
    }

    /// Writes the file.
    pub fn store(&self, top: &Path) -> Result<(), String> {
        fs::write(top.join(&self.name), &self.text).map_err(|error| format!("{}: {error}", self.name))
    }
}

/// The lines, each with the byte that closes it, so that a last line that is
/// not closed is another one.
fn lines_of(text: &[u8]) -> impl Iterator<Item = &[u8]> {
    text.split_inclusive(|&byte| byte == b'\n')
}

/// A line as an error shows it.
fn shown(line: Option<&[u8]>) -> String {
    line.map_or("no line".to_string(), |line| format!("{:?}", String::from_utf8_lossy(line)))
}

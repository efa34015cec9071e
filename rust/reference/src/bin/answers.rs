//! Makes every stored answer anew from the reference, and writes those that
//! change.

use reference::answers;
use std::path::{Path, PathBuf};
use std::process::ExitCode;

const USAGE: &str = "usage: answers [TOP]
Makes the answers of tests/frames and of the programs in crates anew, in the project whose top folder is TOP, this one if
left out, and writes and names those that change. Where a file cannot be read, a line is no case, an answer has nothing
that it answers, or a file of tests/frames is neither a frame nor an answer, it says so, writes none and ends with
status 1. The status is 1 too where a file cannot be written.";

fn main() -> ExitCode {
    let words: Vec<String> = std::env::args().skip(1).collect();
    let top = match &words[..] {
        [] => Path::new(env!("CARGO_MANIFEST_DIR")).join("../.."),
        [top] if !top.starts_with('-') => PathBuf::from(top),
        _ => {
            eprintln!("{USAGE}");
            return ExitCode::from(2);
        }
    };
    match rewrite(&top) {
        Ok(()) => ExitCode::SUCCESS,
        Err(error) => {
            eprintln!("{error}");
            ExitCode::FAILURE
        }
    }
}

fn rewrite(top: &Path) -> Result<(), String> {
    let answers = answers::all(top)?;
    // All are compared before any is written.
    let mut changed = Vec::new();
    for answer in &answers {
        if answer.difference(top)?.is_some() {
            changed.push(answer);
        }
    }
    for answer in &changed {
        answer.store(top)?;
        println!("{}", answer.name);
    }
    println!("answers: {} files, {} rewritten", answers.len(), changed.len());
    Ok(())
}

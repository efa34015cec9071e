//! The stored answers are the reference's, and the program that makes them
//! anew writes what it should.

use reference::answers::{self, Answer, COMMAND};
use std::fs;
use std::path::{Path, PathBuf};
use std::process::{Command, Output};

/// The project's top folder.
fn top() -> PathBuf {
    Path::new(env!("CARGO_MANIFEST_DIR")).join("../..")
}

fn all() -> Vec<Answer> {
    answers::all(&top()).unwrap_or_else(|amiss| panic!("{amiss}"))
}

/// How many stored answers there are, of frames and of programs. A frame that is
/// lost together with its answer is missed nowhere else, nor is a program that is
/// lost with its `stdout`. Whoever adds one counts it here.
const FRAMES: usize = 137;
const PROGRAMS: usize = 5;

#[test]
fn stored_answers_are_those_of_the_reference() {
    let answers = all();
    let of = |folder: &str| answers.iter().filter(|answer| answer.name.starts_with(folder)).count();
    assert_eq!((of("tests/frames/"), of("crates/")), (FRAMES, PROGRAMS), "frames and programs");
    let differ = answers.iter().filter_map(|answer| answer.difference(&top()).unwrap_or_else(Some));
    let differ: Vec<String> = differ.collect();
    assert!(differ.is_empty(), "{}\n`{COMMAND}`, given in rust/, makes them anew", differ.join("\n"));
}

/// The frame of a test's own project.
const FRAME: &str = "tests/frames/letter_a_level_0";

/// A project of this test's own: a frame and each program's cases, with the
/// answers that the reference makes of them.
fn project(test: &str) -> PathBuf {
    let project = Path::new(env!("CARGO_TARGET_TMPDIR")).join(test);
    if project.exists() {
        fs::remove_dir_all(&project).unwrap();
    }
    for answer in all() {
        let cases = match answer.name.strip_suffix("stdout") {
            Some(folder) => format!("{folder}stdin"),
            None if answer.name == format!("{FRAME}.answer") => format!("{FRAME}.frame"),
            None => continue,
        };
        fs::create_dir_all(project.join(&answer.name).parent().unwrap()).unwrap();
        answer.store(&project).unwrap();
        if top().join(&cases).exists() {
            fs::copy(top().join(&cases), project.join(&cases)).unwrap();
        }
    }
    project
}

fn run(project: &Path) -> Output {
    Command::new(env!("CARGO_BIN_EXE_answers")).arg(project).output().unwrap()
}

fn text(output: &[u8]) -> String {
    String::from_utf8(output.to_vec()).unwrap()
}

/// The last line that is printed of such a project, where so many of its files
/// are rewritten: there is one for each program, and one for the frame.
fn rewritten(files: usize) -> String {
    format!("answers: {} files, {files} rewritten\n", PROGRAMS + 1)
}

#[test]
fn what_changes_is_written() {
    let project = project("written");
    let (greys, frame) = (project.join("crates/haar_vectors/stdout"), project.join(FRAME));
    let right = fs::read_to_string(&greys).unwrap();
    assert_eq!(text(&run(&project).stdout), rewritten(0));
    // A digit, a line too many, a last line that is not closed, a file that is not there.
    let digit = right.replacen("greys   255", "greys   254", 1);
    for wrong in [digit, right.clone() + "\n", right.trim_end().to_string()] {
        assert_ne!(wrong, right);
        fs::write(&greys, wrong).unwrap();
        assert_eq!(text(&run(&project).stdout), format!("crates/haar_vectors/stdout\n{}", rewritten(1)));
        assert_eq!(fs::read_to_string(&greys).unwrap(), right);
    }
    fs::remove_file(frame.with_extension("answer")).unwrap();
    let output = run(&project);
    assert_eq!(text(&output.stdout), format!("{FRAME}.answer\n{}", rewritten(1)));
    assert!(output.status.success() && frame.with_extension("answer").exists());
}

/// Checks that the program writes nothing and says this, and no more.
fn refused(project: &Path, amiss: &str) {
    let output = run(project);
    assert_eq!(
        (output.status.code(), text(&output.stdout), text(&output.stderr)),
        (Some(1), String::new(), format!("{amiss}\n"))
    );
}

#[test]
fn what_is_amiss_is_told() {
    let project = project("amiss");
    let wrong = project.join("crates/edge_vectors/stdout");
    fs::write(&wrong, "").unwrap();

    let orphan = project.join("tests/frames/orphan.answer");
    fs::write(&orphan, "refused 11\n").unwrap();
    refused(&project, "tests/frames/orphan.answer: it has no frame");
    fs::remove_file(&orphan).unwrap();

    for name in ["notes.txt", "letter.frame.old", "frame"] {
        let stray = project.join("tests/frames").join(name);
        fs::write(&stray, "0100\n").unwrap();
        refused(&project, &format!("tests/frames/{name}: it is neither a frame nor an answer"));
        fs::remove_file(&stray).unwrap();
    }

    fs::create_dir(project.join("crates/other")).unwrap();
    fs::write(project.join("crates/other/stdout"), "").unwrap();
    refused(&project, "crates/other/stdout: its program is not known here");
    fs::remove_file(project.join("crates/other/stdout")).unwrap();

    // a stored answer that cannot be read, the last of the programs'
    let last = project.join("crates/tile_vectors/stdout");
    let made = fs::read(&last).unwrap();
    fs::remove_file(&last).unwrap();
    fs::create_dir(&last).unwrap();
    let output = run(&project);
    assert_eq!((output.status.code(), text(&output.stdout)), (Some(1), String::new()));
    assert!(text(&output.stderr).starts_with("crates/tile_vectors/stdout: "), "{}", text(&output.stderr));
    assert_eq!(fs::read_to_string(&wrong).unwrap(), "");
    fs::remove_dir(&last).unwrap();
    fs::write(&last, made).unwrap();

    for (name, case) in [
        ("edge_vectors", "0 0 0 0 0 0"),
        ("edge_vectors", "0 0 0 0 0 0 x"),
        ("tile_vectors", "s +1"),
        ("tile_vectors", "z"),
    ] {
        let cases = project.join(format!("crates/{name}/stdin"));
        let before = fs::read_to_string(&cases).unwrap();
        fs::write(&cases, format!("# a comment\n\n{case}\n")).unwrap();
        let what = if name == "edge_vectors" { "it is not seven numbers" } else { "it is no case" };
        refused(&project, &format!("crates/{name}/stdin, line 3: {what}"));
        fs::write(&cases, before).unwrap();
    }

    assert_eq!(fs::read_to_string(&wrong).unwrap(), "");
    assert_eq!(text(&run(&project).stdout), format!("crates/edge_vectors/stdout\n{}", rewritten(1)));
}

#[test]
fn the_first_line_that_differs_is_named() {
    let project = project("named");
    let answer = Answer { name: "crates/integer_vectors/stdout".to_string(), text: "1\n2\n3\n".to_string() };
    let difference = |stored: &str| {
        fs::write(project.join(&answer.name), stored).unwrap();
        answer.difference(&project).unwrap().map(|what| what.replace("crates/integer_vectors/stdout, ", ""))
    };
    assert_eq!(difference("1\n2\n3\n"), None);
    assert_eq!(difference("1\n4\n5\n").unwrap(), r#"line 2: "4\n" is stored, and "2\n" is right"#);
    assert_eq!(difference("1\n2\n").unwrap(), r#"line 3: no line is stored, and "3\n" is right"#);
    assert_eq!(difference("1\n2\n3").unwrap(), r#"line 3: "3" is stored, and "3\n" is right"#);
    assert_eq!(difference("1\n2\n3\n\n").unwrap(), r#"line 4: "\n" is stored, and no line is right"#);
    fs::remove_file(project.join(&answer.name)).unwrap();
    let missing = answer.difference(&project).unwrap();
    assert_eq!(missing.unwrap(), "crates/integer_vectors/stdout: it is not there");
}

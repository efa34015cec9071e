//! The programs as a person or `draw` runs them: the page of `exact`, `placed`, `levels`, `tiled`, and `soak`.
use compare::outlines::Outline;
use reference::{Placement, SheetTile, Spec};
use std::fs;
use std::io::Write;
use std::path::{Path, PathBuf};
use std::process::{Command, Output, Stdio};

/// A frame of side 4 with slanted edges and two contours that overlap, at level 2. One of its cells has an area below zero.
const FRAME: &str = "0402\n00100020038003c00040030001000020\n0100010001800100010a01a0\n";

/// The frame with every contour traced the other way round.
fn traced_back(frame: &str) -> String {
    let (header, contours) = frame.split_once('\n').unwrap();
    let mut text = format!("{header}\n");
    for contour in contours.lines() {
        text.extend((0..contour.len() / 8).rev().map(|i| &contour[8 * i..8 * i + 8]));
        text.push('\n');
    }
    text
}

/// A folder of this test's own with the frame, and what the tile program answers to it.
fn folder(test: &str, frame: &str) -> PathBuf {
    let folder = Path::new(env!("CARGO_TARGET_TMPDIR")).join(test);
    fs::create_dir_all(&folder).unwrap();
    fs::write(folder.join("frame"), frame).unwrap();
    fs::write(folder.join("answer"), reference::tile_program(&Spec, frame.as_bytes())).unwrap();
    folder
}

fn exact(folder: &Path) -> Output {
    exact_placed(folder, &[])
}

fn exact_placed(folder: &Path, words: &[&str]) -> Output {
    let mut exact = Command::new(env!("CARGO_BIN_EXE_exact"));
    exact.arg("a letter").arg(folder.join("frame")).args(words).arg(folder.join("answer")).output().unwrap()
}

/// The words of each cell's line.
fn cells(page: &str) -> Vec<Vec<&str>> {
    let lines = page.lines().skip_while(|line| !line.starts_with("column")).skip(1);
    lines.map(|line| line.split_whitespace().collect()).collect()
}

fn text(output: &[u8]) -> String {
    String::from_utf8(output.to_vec()).unwrap()
}

#[test]
fn page_of_a_letter() {
    let folder = folder("page", FRAME);
    let output = exact(&folder);
    let page = text(&output.stdout);
    assert!(output.status.success(), "{page}{}", text(&output.stderr));
    assert!(page.starts_with("a letter: "));
    assert!(page.contains("Every miss is within its bound"));
    // Every cell of the frame's own level, with the program's grey of it.
    let rows = cells(&page);
    assert_eq!(rows.len(), 16);
    let greys: Vec<u8> = rows.iter().map(|row| row[6].parse().unwrap()).collect();
    let answered = fs::read_to_string(folder.join("answer")).unwrap();
    let printed: String =
        greys.chunks(4).map(|row| row.iter().map(|g| format!("{g:02x}")).collect::<String>() + "\n").collect();
    assert_eq!(printed, answered.split_once('\n').unwrap().1);
    assert!(greys.iter().any(|&grey| 0 < grey && grey < 255));
    // A drawn area is the figure over 4^2: its fraction is some sixteenths.
    assert!(rows.iter().any(|row| !row[2].ends_with(".000")), "no drawn area with a fraction:\n{page}");
}

/// What the head of a page says of an outline, before the blank line.
fn head(page: &str) -> Vec<&str> {
    page.lines().take_while(|line| !line.is_empty()).collect()
}

#[test]
fn page_of_a_letter_traced_anticlockwise() {
    let page = |test: &str, frame: &str| {
        let output = exact(&folder(test, frame));
        assert!(output.status.success(), "{}{}", text(&output.stdout), text(&output.stderr));
        text(&output.stdout)
    };
    let (clockwise, anticlockwise) = (page("clockwise", FRAME), page("anticlockwise", &traced_back(FRAME)));
    assert!(!clockwise.contains("anticlockwise"), "{clockwise}");
    assert!(anticlockwise.contains("a signed area of -"), "{anticlockwise}");
    let line = "That is below zero, so on the whole the outline is traced anticlockwise; it is drawn all the same, by magnitude.";
    assert_eq!(head(&anticlockwise)[2..], [line]);
    // An outline of area 0 has no hand: here the second contour goes back over the first.
    let both_ways = "0402\n000000000400000000000400\n000000000000040004000000\n";
    assert!(!page("neither", both_ways).contains("anticlockwise"));

    // Each area is the opposite, drawn or exact, and each grey the same.
    let (rows, opposite) = (cells(&clockwise), cells(&anticlockwise));
    assert_eq!((rows.len(), opposite.len()), (16, 16));
    assert!(rows.iter().any(|row| row[3].starts_with('-')) && opposite.iter().any(|row| !row[3].starts_with('-')));
    let number = |word: &str| word.parse::<f64>().unwrap();
    for (row, opposite) in rows.iter().zip(&opposite) {
        assert_eq!([number(row[2]), number(row[3])], [-number(opposite[2]), -number(opposite[3])]);
        assert_eq!(row[6..], opposite[6..], "grey and exact grey of column {}, row {}", row[0], row[1]);
    }
}

#[test]
fn wrong_answers_are_told() {
    let folder = folder("wrong", &FRAME.replacen("0402", "0401", 1));
    let answer = folder.join("answer");
    let right = fs::read_to_string(&answer).unwrap();
    let (first, rows) = right.split_once('\n').unwrap();
    let grey = u8::from_str_radix(&rows[..2], 16).unwrap();
    // another grey than the library's, though one apart is within what is promised; towards 0, so that it stays a grey
    for moved in [1, 2] {
        fs::write(&answer, format!("{first}\n{:02x}{}", grey - moved, &rows[2..])).unwrap();
        let output = exact(&folder);
        let page = text(&output.stdout);
        assert_eq!(output.status.code(), Some(3), "moved by {moved}:\n{page}");
        assert!(page.contains("NOT AS PROMISED"));
    }
    let other_edges = right.replacen("00", "01", 1);
    for wrong in [&other_edges, "refused 06\n", first, ""] {
        fs::write(&answer, wrong).unwrap();
        let output = exact(&folder);
        assert_eq!((output.status.code(), text(&output.stdout).as_str()), (Some(2), ""), "{wrong:?}");
        assert_eq!(text(&output.stderr).lines().count(), 1);
    }
    // no answer, and one more than there is to be
    for words in [&[][..], &["answer", "answer"]] {
        let mut exact = Command::new(env!("CARGO_BIN_EXE_exact"));
        let output = exact.arg("a letter").arg(folder.join("frame")).args(words).output().unwrap();
        assert_eq!(output.status.code(), Some(2));
    }
}

/// A placement that keeps the frame's outline on its tile, smaller, askew and with fractions to round, and its words.
const TURN: Placement = Placement::Turn([0.875, 0.0625, 32.5, -0.0625, 0.875, 64.0]);
const TURN_WORDS: [&str; 7] = ["--turn", "0.875", ".0625", "32.5", "-0.0625", "+0.875", "64"];

/// Runs a program that reads a frame.
fn reads(program: &str, words: &[&str], frame: &str) -> Output {
    let mut program = Command::new(program);
    let mut running =
        program.args(words).stdin(Stdio::piped()).stdout(Stdio::piped()).stderr(Stdio::piped()).spawn().unwrap();
    // where its words are wrong it does not read, and the pipe may be closed already
    let _ = running.stdin.take().unwrap().write_all(frame.as_bytes());
    running.wait_with_output().unwrap()
}

fn placed(words: &[&str], frame: &str) -> Output {
    reads(env!("CARGO_BIN_EXE_placed"), words, frame)
}

/// What the tile program prints for the frame, at this level, of the outline as placed.
fn expected(placement: Placement, level: u32) -> String {
    let frame = reference::frame(FRAME.as_bytes()).unwrap();
    let points = reference::placed(&Spec, placement, &frame.points);
    let outline = Outline { side: frame.side, points, counts: frame.counts };
    reference::tile_program(&Spec, outline.frame(level).as_bytes())
}

#[test]
fn placed_frames() {
    let printed = |words: &[&str], frame: &str| {
        let output = placed(words, frame);
        assert!(output.status.success() && output.stderr.is_empty(), "{words:?}: {}", text(&output.stderr));
        text(&output.stdout)
    };
    assert_eq!(printed(&[], FRAME), reference::tile_program(&Spec, FRAME.as_bytes()));
    assert_eq!(printed(&["--shift", "7.5", "-8"], FRAME), expected(Placement::Shift(7.5, -8.0), 2));
    assert_eq!(printed(&["--scale", "+.75"], FRAME), expected(Placement::Scale(0.75), 2));
    assert_eq!(printed(&TURN_WORDS, FRAME), expected(TURN, 2));
    for (words, frame, refused) in [
        (["--scale", "1"], "0203\n", "refused 07\n"),
        (["--scale", "1"], "ff00\n", "refused 01\n"),
        (["--scale", "1"], "0201", "refused 11\n"),
        (["--scale", "1.3"], "0201\n", "refused 12\n"),
        (["--scale", "-1"], FRAME, "refused 06\n"),
    ] {
        assert_eq!(printed(&words, frame), refused, "{words:?}, {frame:?}");
    }
    for words in
        [&["--scale"][..], &["--scale", "x"], &["--scale", "1", "1"], &["--shift", "1"], &TURN_WORDS[..6], &["--else"]]
    {
        let output = placed(words, FRAME);
        assert_eq!((output.status.code(), text(&output.stdout).as_str()), (Some(2), ""), "{words:?}");
    }
}

/// What is printed of the frame's outline as placed at every level, by the reference: a first line, and the rows of all answers.
fn expected_at_every_level(placement: Placement) -> String {
    let answers: Vec<String> = (0..3).map(|level| expected(placement, level)).collect();
    let (first, _) = answers[0].split_once('\n').unwrap();
    let rows: String = answers.iter().map(|answer| answer.split_once('\n').unwrap().1).collect();
    format!("{first}\n{rows}")
}

#[test]
fn frames_at_every_level() {
    let levels = |words: &[&str], frame: &str| reads(env!("CARGO_BIN_EXE_levels"), words, frame);
    let printed = |words: &[&str], frame: &str| {
        let output = levels(words, frame);
        assert!(output.status.success() && output.stderr.is_empty(), "{words:?}: {}", text(&output.stderr));
        text(&output.stdout)
    };
    assert_eq!(printed(&[], FRAME), expected_at_every_level(Placement::None));
    assert_eq!(printed(&["--shift", "7.5", "-8"], FRAME), expected_at_every_level(Placement::Shift(7.5, -8.0)));
    assert_eq!(printed(&TURN_WORDS, FRAME), expected_at_every_level(TURN));
    // the frame's own level makes no difference, even where the tile has none such
    for level in ["00", "01", "03", "ff"] {
        let frame = FRAME.replacen("0402", &format!("04{level}"), 1);
        assert_eq!(printed(&[], &frame), expected_at_every_level(Placement::None));
    }
    for (words, frame, refused) in [
        (&[][..], "ff00\n", "refused 01\n"),
        (&[], "0201", "refused 11\n"),
        (&["--scale", "1.3"], "0201\n", "refused 12\n"),
        (&["--scale", "-1"], FRAME, "refused 06\n"),
    ] {
        assert_eq!(printed(words, frame), refused, "{words:?}, {frame:?}");
    }
    for words in [&["--scale"][..], &["--scale", "1", "1"], &["--else"], &["1"]] {
        let output = levels(words, FRAME);
        assert_eq!((output.status.code(), text(&output.stdout).as_str()), (Some(2), ""), "{words:?}");
    }
}

/// What is printed of the frame's outline as placed, on a sheet of its side, by the reference: its tiles are drawn and put together.
fn expected_in_tiles(side: u32, placement: Placement) -> String {
    let reference::Frame { side: sheet, points, counts, .. } = reference::frame(FRAME.as_bytes()).unwrap();
    let (mut roots, mut rows) = (0, vec![String::new(); sheet as usize]);
    for place in SheetTile::all(sheet, side) {
        let entries = (side * side) as usize;
        let (_, table) =
            reference::build_on_sheet(&Spec, place, &points, &counts, placement, &vec![0; entries]).unwrap();
        roots += table[0];
        let greys = reference::greys(&Spec, side, side.trailing_zeros(), &table, entries).unwrap();
        for (row, greys) in rows[(place.row * side) as usize..].iter_mut().zip(greys.chunks(side as usize)) {
            row.extend(greys.iter().map(|grey| format!("{grey:02x}")));
        }
    }
    format!("{:04x}{roots:016x}\n{}\n", counts.iter().sum::<u32>(), rows.join("\n"))
}

#[test]
fn frames_in_tiles() {
    let tiled = |words: &[&str], frame: &str| reads(env!("CARGO_BIN_EXE_tiled"), words, frame);
    let printed = |words: &[&str], frame: &str| {
        let output = tiled(words, frame);
        assert!(output.status.success() && output.stderr.is_empty(), "{words:?}: {}", text(&output.stderr));
        text(&output.stdout)
    };
    for side in [1, 2, 4] {
        let word = side.to_string();
        assert_eq!(printed(&[&word], FRAME), expected_in_tiles(side, Placement::None));
        assert_eq!(printed(&[&[&word[..]], &TURN_WORDS[..]].concat(), FRAME), expected_in_tiles(side, TURN));
    }
    // one tile is the letter alone
    assert_eq!(printed(&["4"], FRAME), reference::tile_program(&Spec, FRAME.as_bytes()));
    for (words, frame, refused) in [
        (&["1"][..], "0203\n", "refused 07\n"),
        (&["1"], "0200\n", "refused 07\n"),
        (&["2"], "04ff\n", "refused 07\n"),
        (&["4"], "0201\n", "refused 14\n"),
        (&["64"], "8007\n", "refused 14\n"),
        (&["4294967295"], "8007\n", "refused 14\n"),
        (&["0"], "8007\n", "refused 14\n"),
        (&["32"], "ff00\n", "refused 14\n"),
        (&["1"], "0201", "refused 11\n"),
        (&["1", "--scale", "1.3"], "0201\n", "refused 12\n"),
        (&["1", "--scale", "-1"], FRAME, "refused 06\n"),
    ] {
        assert_eq!(printed(words, frame), refused, "{words:?}, {frame:?}");
    }
    for words in [&[][..], &["--scale", "1"], &["x"], &["-1"], &["4294967296"], &["1", "1"], &["1", "--scale"]] {
        let output = tiled(words, FRAME);
        assert_eq!((output.status.code(), text(&output.stdout).as_str()), (Some(2), ""), "{words:?}");
    }
}

#[test]
fn page_of_a_placed_letter() {
    let folder = folder("placed", FRAME);
    fs::write(folder.join("answer"), expected(TURN, 2)).unwrap();
    let page = |words: &[&str]| exact_placed(&folder, words);
    let output = page(&TURN_WORDS);
    let placed = text(&output.stdout);
    assert!(output.status.success(), "{placed}{}", text(&output.stderr));
    assert!(placed.contains("Every miss is within its bound") && placed.contains("of the outline as placed"));
    // an answer to the outline otherwise placed, and a placement without its number
    for words in [&[][..], &["--scale", "1"], &["--scale"]] {
        assert_eq!(page(words).status.code(), Some(2), "{words:?}");
    }
    // A turn keeps the hand, and a mirror changes it.
    assert!(!placed.contains("anticlockwise"));
    fs::write(folder.join("answer"), expected(Placement::Turn([-1.0, 0.0, 1024.0, 0.0, 1.0, 0.0]), 2)).unwrap();
    let output = page(&["--turn", "-1", "0", "1024", "0", "1", "0"]);
    let mirrored = text(&output.stdout);
    assert!(output.status.success(), "{mirrored}{}", text(&output.stderr));
    let line = "That is below zero, so on the whole the outline as placed goes round anticlockwise; it is drawn all the same, by magnitude.";
    assert_eq!(head(&mirrored)[2..], [line]);
}

#[test]
fn soak_of_one_case_or_series() {
    let soak = |words: &[&str]| Command::new(env!("CARGO_BIN_EXE_soak")).args(words).output().unwrap();
    let output = soak(&["--seed", "5", "--case", "13"]);
    assert!(output.status.success());
    assert!(text(&output.stdout).contains("1 outlines"), "{}", text(&output.stdout));
    assert!(!text(&output.stdout).contains("series"), "{}", text(&output.stdout));
    let output = soak(&["--seed", "5", "--series", "13"]);
    assert!(output.status.success());
    assert!(text(&output.stdout).contains("up to series 13: 1 series"), "{}", text(&output.stdout));
    assert!(!text(&output.stdout).contains("outlines"), "{}", text(&output.stdout));
    for (word, what) in [
        ("--sheet-case", "up to case 13 on a sheet: 1 outlines"),
        ("--sheet-series", "up to series 13 on a sheet: 1 series"),
    ] {
        let output = soak(&["--seed", "5", word, "13"]);
        assert!(output.status.success());
        assert!(text(&output.stdout).contains(what), "{}", text(&output.stdout));
        assert_eq!(text(&output.stdout).lines().count(), 1);
    }
    for words in [&["--case"][..], &["--case", "x"], &["--series"], &["--sheet-case"], &["--else", "1"]] {
        assert_eq!(soak(words).status.code(), Some(2));
    }
}

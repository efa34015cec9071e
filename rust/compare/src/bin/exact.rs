//! A page that sets what the tile program draws of a frame beside the exact areas, cell by cell. `draw --exact` calls it.
//!
//! The greys of the frame's own level are the tile program's answer, or that of `placed` where the outline is placed first. It prints no areas and no
//! other level: these are the library's, which is the same code, and whose greys must be the program's. The exact areas are the reference's, in
//! exact fractions, and every comparison is made with these; decimals are for the page alone.
use compare::calls::Difference;
use compare::outlines::{self, Outline};
use compare::{demand3, grouped, placements, printing};
use mattuliyan::Refusal;
use reference::{Exact, Fraction, Placement, Spec};
use std::ffi::{OsStr, OsString};
use std::fmt::Write as _;
use std::io::{ErrorKind, Write as _};
use std::process::ExitCode;

const USAGE: &str = "usage: exact NAME FRAME [--shift X Y | --scale S | --turn A B C D E F] ANSWER
NAME is what the page calls the frame; FRAME is its text; ANSWER is what the tile program answers to it, or `placed` where there is a placement";

/// Exit status where something on the page is not as promised.
const NOT_AS_PROMISED: u8 = 3;
/// Exit status of a program whose output nobody reads any more, as of one that ends by the signal.
const BROKEN_PIPE: u8 = 128 + 13;

/// Decimal places of areas and misses on the page.
const PLACES: u32 = 3;

/// A level as drawn, beside what is exact.
struct Level {
    level: u32,
    /// 4^level times the drawn areas
    figures: Vec<i64>,
    /// of the frame's own level as the tile program printed them, of others as the library draws them
    greys: Vec<u8>,
    exact: Vec<Exact>,
}

impl Level {
    /// "A cell's drawn area is its figure over 4^L."
    fn area(&self, cell: usize) -> Exact {
        fraction(self.figures[cell].into(), 1 << (2 * self.level))
    }

    fn missed_area(&self, cell: usize) -> Exact {
        let difference = self.area(cell).minus(&self.exact[cell]);
        difference.times(-1).max(difference)
    }

    /// The bound of a missed area: (4^level − 1) × edges / 2, over 4^level.
    fn bound(&self, edges: u32) -> Exact {
        let places: i128 = 1 << (2 * self.level);
        fraction((places - 1) * i128::from(edges), 2 * places)
    }
}

fn fraction(num: i128, den: i128) -> Exact {
    Exact::from(Fraction { num, den })
}

fn main() -> ExitCode {
    let words: Vec<OsString> = std::env::args_os().skip(1).collect();
    let read = match &words[..] {
        [name, frame, rest @ ..] => placements::read(rest).map(|read| (name, frame, read)),
        _ => None,
    };
    let Some((name, frame, (placement, [answer]))) = read else {
        eprintln!("{USAGE}");
        return ExitCode::from(2);
    };
    let problem = match page(&name.to_string_lossy(), frame, placement, answer) {
        Err(problem) => problem,
        Ok((page, holds)) => match std::io::stdout().write_all(page.as_bytes()) {
            Ok(()) if holds => return ExitCode::SUCCESS,
            Ok(()) => return ExitCode::from(NOT_AS_PROMISED),
            Err(error) if error.kind() == ErrorKind::BrokenPipe => return ExitCode::from(BROKEN_PIPE),
            Err(error) => format!("the page cannot be written: {error}"),
        },
    };
    eprintln!("exact: {problem}");
    ExitCode::from(2)
}

fn page(name: &str, frame: &OsStr, placement: Placement, answer: &OsStr) -> Result<(String, bool), String> {
    let read = |path: &OsStr| std::fs::read(path).map_err(|error| format!("{}: {error}", path.display()));
    let frame = reference::frame(&read(frame)?).map_err(|number| format!("{name}: refused {number:02}"))?;
    let refused = |refusal: Refusal| format!("{name}: {refusal}");
    let mut table = vec![0; (frame.side as usize).pow(2)];
    let lent = placements::for_library(placement);
    mattuliyan::build_placed(frame.side, &frame.points, &frame.counts, lent, &mut table).map_err(refused)?;
    let points = reference::placed(&Spec, placement, &frame.points);
    let outline = Outline { side: frame.side, points, counts: frame.counts };
    let mut pictures = vec![0; outlines::all_places(frame.side)];
    mattuliyan::pyramid(frame.side, &table, &mut pictures).map_err(refused)?;
    let mut levels = Vec::new();
    for (level, greys) in outlines::each_level(&pictures) {
        let mut figures = vec![0; greys.len()];
        mattuliyan::figures(frame.side, level, &table, &mut figures).map_err(refused)?;
        let exact = reference::exact_areas(frame.side, &outline.points, &outline.counts, level);
        levels.push(Level { level, figures, greys: greys.to_vec(), exact });
    }
    let own = levels.get_mut(frame.level as usize).ok_or(format!("{name}: its tile has no level {}", frame.level))?;
    let answer = String::from_utf8(read(answer)?).map_err(|error| format!("{}: {error}", answer.display()))?;
    let printed = printed(&outline, own, table[0], &answer).map_err(|problem| format!("{name}: {problem}"))?;
    let another = printed != own.greys;
    own.greys = printed;
    let area = reference::signed_area(&outline.points, &outline.counts);
    let (summary, holds) = summary(&outline, area, &levels, another);
    let cells = cells(&outline, &levels[frame.level as usize]);
    Ok((format!("{}{summary}{cells}", heading(name, placement, &outline, area)), holds))
}

/// The greys of a level by the program's answer.
fn printed(outline: &Outline, level: &Level, root: i64, answer: &str) -> Result<Vec<u8>, String> {
    let first = printing::first_line(outline.edges(), root);
    let Some(rows) = answer.strip_prefix(&first) else {
        return Err(format!("the program's first line is not {}", first.trim_end()));
    };
    let digits: String = rows.lines().collect();
    let pairs: Result<Vec<u8>, _> =
        (0..digits.len() / 2).map(|i| u8::from_str_radix(&digits[2 * i..2 * i + 2], 16)).collect();
    let greys = pairs.map_err(|error| error.to_string())?;
    if greys.len() != level.exact.len() {
        return Err(format!("the program's answer has {} greys, not {}", greys.len(), level.exact.len()));
    }
    Ok(greys)
}

fn heading(name: &str, placement: Placement, outline: &Outline, area: i64) -> String {
    let drawn_by = match placement {
        Placement::None => String::from(
            "The greys of the frame's own level are what the tile program printed. It prints no areas and no other level; these
are from the proved library, which is the same code.
",
        ),
        _ => format!(
            "The greys and the drawn areas are from the proved library, of the outline as placed:
{placement:?}.
"
        ),
    };
    let (side, edges) = (outline.side, grouped(outline.edges().into()));
    let mut hand = String::new();
    if area < 0 {
        // a placement that mirrors turns the hand round, so of a placed outline it is not said how it was traced
        let goes = match placement {
            Placement::None => "the outline is traced",
            _ => "the outline as placed goes round",
        };
        writeln!(
            hand,
            "That is below zero, so on the whole {goes} anticlockwise; it is drawn all the same, by magnitude."
        )
        .unwrap();
    }
    let (sign, area) = (if area < 0 { "-" } else { "" }, grouped(area.unsigned_abs()));
    format!(
        "{name}: the drawn letter beside the exact ink
A tile of {side} x {side} pixels; an outline of {edges} edges; a signed area of {sign}{area} units, 131,072 a pixel.
{hand}
{drawn_by}The exact areas and greys were worked out from the outline by another program, another way, in exact fractions;
decimals are rounded for the page, what is compared is not. A miss is how far a drawn area is from the exact one. It
is proved never to pass its bound, which is just under half a unit for each edge, less at coarse levels and none at
the coarsest: ratio 1 would be the bound itself. A grey is that of an area's magnitude, and may be one from the exact
area's, never two.

"
    )
}

/// Does demand 3 hold of every level? The worst of each, on a line, and the verdict. `another`: the program printed other greys than the library draws.
fn summary(outline: &Outline, area: i64, levels: &[Level], another: bool) -> (String, bool) {
    let mut text =
        String::from("level   cells   greatest miss       bound    ratio   in column  row   greys one apart\n");
    let mut wrong = another.then(|| Difference("the program's greys are not the library's".to_string()));
    for level in levels {
        match demand3::near(outline, level.level, area, &level.figures, &level.greys) {
            Err(difference) => wrong = wrong.or(Some(difference)),
            Ok(looked) => {
                let worst = looked.worst.expect("a level has a cell");
                writeln!(
                    text,
                    "{:>5} {:>7} {:>15} {:>11} {:>8.4} {:>11} {:>4} {:>17}",
                    level.level,
                    grouped(looked.cells),
                    level.missed_area((worst.cy << level.level) + worst.cx).decimal(PLACES),
                    level.bound(outline.edges()).decimal(PLACES),
                    worst.ratio,
                    worst.cx,
                    worst.cy,
                    looked.greys_one_apart,
                )
                .unwrap();
            }
        }
    }
    match &wrong {
        Some(difference) => writeln!(text, "NOT AS PROMISED: {difference}").unwrap(),
        None => {
            text += "Every miss is within its bound, no grey is more than one apart, and the drawn areas of each level add\n";
            text += "up exactly to the signed area.\n";
        }
    }
    if wrong.is_none() && outline.is_octilinear() {
        text += "Every edge is level, upright or at 45 degrees, and every drawn area is the exact one.\n";
    }
    (text, wrong.is_none())
}

fn cells(outline: &Outline, level: &Level) -> String {
    let across = 1usize << level.level;
    let mut text = format!("\nLevel {}, cell by cell, row by row from the top left:\n", level.level);
    text += "column  row        drawn area        exact area        miss    ratio   grey   exact grey\n";
    for cell in 0..level.exact.len() {
        writeln!(
            text,
            "{:>6} {:>4} {:>17} {:>17} {:>11} {:>8.4} {:>6} {:>12}",
            cell % across,
            cell / across,
            level.area(cell).decimal(PLACES),
            level.exact[cell].decimal(PLACES),
            level.missed_area(cell).decimal(PLACES),
            level.exact[cell].miss(level.figures[cell], level.level).ratio(level.level, outline.edges()),
            level.greys[cell],
            level.exact[cell].grey(outline.side, level.level),
        )
        .unwrap();
    }
    text
}

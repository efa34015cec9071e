//! What is wanted, beside what this run measured.

use super::Measured;
use crate::cases::{Case, Size};
use crate::inputs::Shape;
use crate::others::Library;
use crate::pixels::Arithmetic;
use crate::words::{digits, line, quartiles};

/// What a ratio, theirs over ours, is of, and how great it is to be.
#[derive(Clone, Copy)]
enum Wanted {
    /// Times, taken in each round.
    Times(f64),
    /// Instructions: they are to have more.
    Instructions,
    /// Times, for comparison: no aim was set.
    Nothing,
}

struct Aim {
    /// Asked for by a customer; the others we set ourselves.
    asked: bool,
    shape: Shape,
    theirs: Case,
    wanted: Wanted,
}

/// 01's exact area, in whole numbers; and the faster program in floats, which is not exact.
const EXACT: Case = Case::Pixels(Arithmetic::WholeNumbers);
const FLOATS: Case = Case::Pixels(Arithmetic::Floats);
const FREETYPE: Case = Case::Other(Library::FreeType, Size::All);
const AGG: Case = Case::Other(Library::Agg, Size::All);

/// "no more than half its time"
const HALF: f64 = 2.0;

const AIMS: [Aim; 15] = [
    Aim { asked: true, shape: Shape::Letter, theirs: EXACT, wanted: Wanted::Times(HALF) },
    Aim { asked: true, shape: Shape::Random, theirs: EXACT, wanted: Wanted::Times(HALF) },
    Aim { asked: true, shape: Shape::Traced, theirs: EXACT, wanted: Wanted::Times(HALF) },
    Aim { asked: true, shape: Shape::Letter, theirs: FLOATS, wanted: Wanted::Times(HALF) },
    Aim { asked: true, shape: Shape::Random, theirs: FLOATS, wanted: Wanted::Times(HALF) },
    Aim { asked: true, shape: Shape::Traced, theirs: FLOATS, wanted: Wanted::Times(HALF) },
    Aim { asked: false, shape: Shape::Letter, theirs: EXACT, wanted: Wanted::Times(50.0) },
    Aim { asked: false, shape: Shape::Letter, theirs: FLOATS, wanted: Wanted::Times(50.0) },
    Aim { asked: false, shape: Shape::Random, theirs: EXACT, wanted: Wanted::Times(15.0) },
    Aim { asked: false, shape: Shape::Random, theirs: FLOATS, wanted: Wanted::Times(15.0) },
    Aim { asked: false, shape: Shape::Letter, theirs: FREETYPE, wanted: Wanted::Times(1.5) },
    Aim { asked: false, shape: Shape::Letter, theirs: FREETYPE, wanted: Wanted::Instructions },
    Aim { asked: false, shape: Shape::Random, theirs: FREETYPE, wanted: Wanted::Times(5.0) },
    Aim { asked: false, shape: Shape::Random, theirs: AGG, wanted: Wanted::Times(4.0) },
    Aim { asked: false, shape: Shape::Traced, theirs: FREETYPE, wanted: Wanted::Nothing },
];

pub fn aims(measured: &[Measured]) -> String {
    let mut text = String::from(
        "## What is wanted, and what was measured\n\n\
         How many times as long as ours in the same run the others take, or how many times as many instructions. What is asked is half the time \
         of a program that goes pixel by pixel; the rest we aim at ourselves.\n\n\
         | | Kind | Ours | Theirs | Of | Wanted | Measured | Quartiles | |\n\
         |---|---|---|---|---|--:|--:|--:|---|\n",
    );
    for aim in &AIMS {
        let Some(measured) = measured.iter().find(|each| each.input.shape == aim.shape) else { continue };
        line(&mut text, &row(aim, measured));
    }
    text
}

fn row(aim: &Aim, measured: &Measured) -> String {
    let ours = aim.theirs.ours().expect("an aim has something of ours in it");
    let (of, wanted, found) = match aim.wanted {
        Wanted::Times(least) => {
            let ratio = measured.times.ratio(aim.theirs, ours);
            (
                "time",
                format!("{least} or more"),
                ratio.map(|ratio| (ratio.median, quartiles(ratio), verdict(ratio.median >= least))),
            )
        }
        Wanted::Instructions => {
            let count = |case| Some(measured.profile(case)?.total() as f64);
            let ratio = count(aim.theirs).zip(count(ours)).map(|(theirs, ours)| theirs / ours);
            ("instructions", "over 1".into(), ratio.map(|ratio| (ratio, String::new(), verdict(ratio > 1.0))))
        }
        Wanted::Nothing => {
            let ratio = measured.times.ratio(aim.theirs, ours);
            ("time", String::new(), ratio.map(|ratio| (ratio.median, quartiles(ratio), "")))
        }
    };
    let (ratio, spread, met) = match found {
        Some((ratio, spread, met)) => (digits(ratio), spread, met),
        None => (String::new(), String::new(), "not measured"),
    };
    let asked = match (aim.asked, aim.wanted) {
        (_, Wanted::Nothing) => "no aim",
        (true, _) => "asked",
        (false, _) => "aim",
    };
    let [ours, theirs] = [ours, aim.theirs].map(|case| case.title().replace('*', ""));
    let cells = [asked, measured.input.name(), &ours, &theirs, of, &wanted, &ratio, &spread, met];
    format!("| {} |", cells.join(" | "))
}

fn verdict(met: bool) -> &'static str {
    if met {
        "met"
    } else {
        "**not met**"
    }
}

#[cfg(test)]
mod tests {
    use super::*;
    use crate::inputs::Input;
    use crate::timing::Times;

    fn letters(pixels: f64) -> Measured {
        let cases = vec![Case::BuildAndDraw(Size::Full), FLOATS];
        let times = Times::of(cases, vec![vec![1.0, pixels]]);
        Measured { input: Input::full(Shape::Letter), times, profiles: Err("no".into()), differences: Vec::new() }
    }

    #[test]
    fn an_aim_is_met_or_not_or_not_measured() {
        let row = |pixels: f64, wanted: Wanted, theirs: Case| {
            let aim = Aim { asked: true, shape: Shape::Letter, theirs, wanted };
            super::row(&aim, &letters(pixels))
        };
        let met = "| asked | Letters | building, and level 6 | pixel by pixel in floats, 64 × 64 | time | 2 or more | 2.00 | 2.00 – 2.00 | met |";
        assert_eq!(row(2.0, Wanted::Times(HALF), FLOATS), met);
        assert!(row(1.99, Wanted::Times(HALF), FLOATS).ends_with("| 1.99 | 1.99 – 1.99 | **not met** |"));
        assert!(row(2.0, Wanted::Times(1.5), FREETYPE).ends_with("| time | 1.5 or more |  |  | not measured |"));
        assert!(row(2.0, Wanted::Instructions, FLOATS).ends_with("|  |  | not measured |"));
        let shown = row(3.0, Wanted::Nothing, FLOATS);
        assert!(shown.starts_with("| no aim |") && shown.ends_with("| time |  | 3.00 | 3.00 – 3.00 |  |"));
    }

    #[test]
    fn an_aim_has_a_line_if_its_kind_was_measured() {
        let lines = |text: String| text.lines().filter(|line| line.starts_with("| a")).count();
        assert_eq!(lines(aims(&[letters(9.0)])), AIMS.iter().filter(|aim| aim.shape == Shape::Letter).count());
        assert_eq!(lines(aims(&[])), 0);
    }
}

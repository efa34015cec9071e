//! How the cost grows: with the edges of an outline, with the side of its tile, and with the length of an edge.

use crate::cases::{Case, Size};
use crate::counting::{Counted, Counter};
use crate::inputs::{Input, Shape, EDGES, KINDS, SIDE, STEPS_PER_PIXEL, VARIANTS};
use crate::others::Library;
use crate::timing::Times;
use crate::words::{digits, line, not_counted, seconds, thousands};
use crate::work::Work;

/// The numbers of edges, the sides, and the lengths in steps: from a quarter of a pixel to half the tile.
const EDGE_COUNTS: [u32; 5] = [64, 128, 256, 512, 1024];
const SIDES: [u32; 4] = [8, 16, 32, 64];
const LENGTHS: [u32; 8] = [64, 128, 256, 512, 1024, 2048, 4096, 8192];

/// What is measured of each row.
const CASES: [Case; 4] = [Case::Build, Case::Pyramid, BOTH, FREETYPE];
const BOTH: Case = Case::BuildAndDraw(Size::All);
const FREETYPE: Case = Case::Other(Library::FreeType, Size::All);

/// What grows from row to row.
#[derive(Clone, Copy, PartialEq, Debug)]
pub enum Series {
    Edges,
    Side,
    Length,
}

pub const SERIES: [Series; 3] = [Series::Edges, Series::Side, Series::Length];

impl Series {
    fn rows(self) -> Vec<Input> {
        let both = [Shape::Letter, Shape::Random].map(Input::full);
        match self {
            Series::Edges => both.iter().flat_map(|&input| EDGE_COUNTS.map(|edges| Input { edges, ..input })).collect(),
            Series::Side => both.iter().flat_map(|&input| SIDES.map(|side| Input { side, ..input })).collect(),
            Series::Length => LENGTHS.map(|length| Input::full(Shape::Walk(length))).to_vec(),
        }
    }

    fn title(self) -> &'static str {
        match self {
            Series::Edges => "With the edges",
            Series::Side => "With the side",
            Series::Length => "With an edge's length",
        }
    }

    fn about(self) -> String {
        match self {
            Series::Edges => format!(
                "On a tile of side {SIDE}. A letter goes round the same way in fewer edges, so that each is the longer; random \
                 edges stay as long as they are."
            ),
            Series::Side => format!(
                "Outlines of {} edges, on a smaller tile, which has fewer levels. Letters are scaled to it, so that an edge of half a \
                 pixel on side {SIDE} is 1/{} of that on side {}; random edges go all over it.",
                thousands(EDGES.into()),
                SIDE / SIDES[0],
                SIDES[0]
            ),
            Series::Length => format!(
                "On a tile of side {SIDE}, one contour of {} edges. It begins in the middle, and each edge goes in a direction by \
                 chance that does not leave the tile; all but the last, which closes it, have one length.",
                thousands(EDGES.into())
            ),
        }
    }

    fn label(self, input: Input) -> String {
        match (self, input.shape) {
            (Series::Edges, Shape::Letter) => format!("Letters of {} edges", thousands(input.edges.into())),
            (Series::Edges, _) => format!("{} {}", thousands(input.edges.into()), input.name().to_lowercase()),
            (Series::Side, _) => format!("{}, side {}", input.name(), input.side),
            (Series::Length, Shape::Walk(length)) if length < STEPS_PER_PIXEL => {
                format!("1/{} pixel", STEPS_PER_PIXEL / length)
            }
            (Series::Length, Shape::Walk(STEPS_PER_PIXEL)) => "1 pixel".into(),
            (Series::Length, Shape::Walk(length)) => format!("{} pixels", length / STEPS_PER_PIXEL),
            (Series::Length, _) => unreachable!("walks have a length"),
        }
    }
}

/// All inputs of the page.
pub fn inputs() -> Vec<Input> {
    KINDS.into_iter().chain(SERIES.into_iter().flat_map(Series::rows)).collect()
}

/// All that was measured of a series.
pub struct Grown {
    series: Series,
    times: Times<(Input, Case)>,
    /// Instructions of building, by row; or why there are none.
    counts: Result<Vec<(Input, i64)>, String>,
}

pub fn measure(series: Series, rounds: usize, counter: &Result<Counter, String>) -> Result<Grown, String> {
    eprintln!("{}: timing", series.title());
    let rows = series.rows();
    let mut works = Vec::new();
    for &input in &rows {
        let mut work = Work::new(input, VARIANTS, None)?;
        work.check()?;
        works.push((input, work));
    }
    let all = Case::all(false);
    let there: Vec<Case> = CASES.into_iter().filter(|case| all.contains(case)).collect();
    let cases = rows.iter().flat_map(|&input| there.iter().map(move |&case| (input, case))).collect();
    let times = Times::measure(cases, VARIANTS, rounds, |(input, case)| {
        let found = works.iter_mut().find(|(each, _)| *each == input);
        found.map(|(_, work)| work.run_all(case)).unwrap_or(Err("no such row".into()))
    })?;
    eprintln!("{}: counting the instructions", series.title());
    let count = |counter: &Counter| {
        rows.iter()
            .map(|&input| Ok((input, counter.profile(&Counted::outline(input, Case::Build, None))?.total())))
            .collect()
    };
    let counts = counter.as_ref().map_err(String::clone).and_then(count);
    Ok(Grown { series, times, counts })
}

/// The part of the page.
pub fn growth(all: &[Grown]) -> String {
    let mut text = format!(
        "## How the cost grows\n\n\
         Medians for one outline, of {VARIANTS} drawn in turn; each of the three tables has rounds of its own. **Of an edge** is the time of building, \
         or its instructions, over the number of edges. **All levels** are drawn from the table by one call. FreeType draws as many sizes, and its \
         ratio is its time over that of building and all levels together. Below 1, it is faster.\n"
    );
    for grown in all {
        text += &table(grown);
    }
    text
}

fn table(Grown { series, times, counts }: &Grown) -> String {
    const COLUMNS: [&str; 6] =
        ["Building", "Of an edge", "Instructions of an edge", "All levels", "FreeType, all sizes", "Its ratio"];
    // the last two are FreeType's
    let columns = &COLUMNS[..if Library::FreeType.is_there() { COLUMNS.len() } else { COLUMNS.len() - 2 }];
    let mut text = format!("\n### {}\n\n{}\n\n", series.title(), series.about());
    line(&mut text, &format!("| | {} |", columns.join(" | ")));
    line(&mut text, &format!("|---|{}", "--:|".repeat(columns.len())));
    for input in series.rows() {
        let edges = f64::from(input.edges);
        let median = |case: Case| Some(times.spread((input, case))?.median);
        let counted = counts.as_ref().ok().and_then(|counts| counts.iter().find(|(each, _)| *each == input));
        let count = counted.map(|(_, count)| thousands((*count as f64 / edges).round() as i64));
        let ratio = times.ratio((input, FREETYPE), (input, BOTH)).map(|ratio| digits(ratio.median));
        let cells = [
            median(Case::Build).map(seconds),
            median(Case::Build).map(|time| seconds(time / edges)),
            count,
            median(Case::Pyramid).map(seconds),
            median(FREETYPE).map(seconds),
            ratio,
        ];
        let cells: Vec<String> = cells.into_iter().take(columns.len()).map(Option::unwrap_or_default).collect();
        line(&mut text, &format!("| {} | {} |", series.label(input), cells.join(" | ")));
    }
    not_counted(&mut text, counts);
    text
}

#[cfg(test)]
mod tests {
    use super::*;

    #[test]
    fn rows_have_labels_of_their_own() {
        for series in SERIES {
            let labels: Vec<String> = series.rows().into_iter().map(|input| series.label(input)).collect();
            assert!((1..labels.len()).all(|k| !labels[..k].contains(&labels[k])), "{labels:?}");
        }
        let label = |length| Series::Length.label(Input::full(Shape::Walk(length)));
        assert_eq!([64, 128, 256, 8192].map(label), ["1/4 pixel", "1/2 pixel", "1 pixel", "32 pixels"]);
    }

    #[test]
    fn a_table_has_a_line_for_each_row() {
        let rows = Series::Edges.rows();
        let cases: Vec<_> = CASES.into_iter().flat_map(|case| rows.iter().map(move |&input| (input, case))).collect();
        let seconds = |&(input, case): &(Input, Case)| match case {
            Case::Build => 1e-6 * f64::from(input.edges),
            Case::Pyramid => 2e-6,
            _ => 3e-3 * if case == FREETYPE { 4.0 } else { 1.0 },
        };
        let round: Vec<f64> = cases.iter().map(seconds).collect();
        let counts = Ok(rows.iter().map(|&input| (input, 7 * i64::from(input.edges))).collect());
        let grown = Grown { series: Series::Edges, times: Times::of(cases, vec![round]), counts };
        let text = growth(&[grown]);
        let expected = "| Letters of 1,024 edges | 1.02 ms | 1.00 µs | 7 | 2.00 µs | 12.0 ms | 4.00 |\n";
        assert!(text.contains(expected) || !Library::FreeType.is_there(), "{text}");
        assert_eq!(text.lines().filter(|line| line.starts_with("| ")).count(), 1 + rows.len());
    }
}

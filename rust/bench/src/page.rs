//! The page, from what was measured.

mod aims;
mod before;
mod functions;
mod one_cell;

pub use one_cell::MeasuredCells;

use crate::cases::{Case, CASES};
use crate::growth::{growth, Grown};
use crate::inputs::{Input, DEPTH, EDGES, KINDS, SIDE, VARIANTS};
use crate::machine::Machine;
use crate::others::{Library, LIBRARIES};
use crate::pixels::{GREATEST_ERROR, UNITS_PER_GREY};
use crate::profile::Profile;
use crate::timing::{Times, SAMPLE};
use crate::words::{digits, line, not_counted, quartiles, range, seconds, thousands};

/// The prose after the tables of functions, which no measurement can write.
const NOTES: &str = include_str!("../notes.md");

/// All that was measured of one input.
pub struct Measured {
    pub input: Input,
    pub times: Times<Case>,
    /// By case; or why there are none.
    pub profiles: Result<Vec<(Case, Profile)>, String>,
    /// The greatest difference of greys, by library, for each level.
    pub differences: Vec<(Library, Vec<u8>)>,
}

impl Measured {
    fn profile(&self, case: Case) -> Option<&Profile> {
        Some(&self.profiles.as_ref().ok()?.iter().find(|(each, _)| *each == case)?.1)
    }
}

/// All that was measured.
pub struct Everything {
    pub machine: Machine,
    pub versions: Vec<(Library, String)>,
    pub rounds: usize,
    pub kinds: Vec<Measured>,
    pub growth: Vec<Grown>,
    pub cells: MeasuredCells,
    /// The commit of the earlier library, where there is one.
    pub before: Option<String>,
}

pub fn page(all: &Everything) -> String {
    let mut parts = vec![introduction(), aims::aims(&all.kinds)];
    parts.push(where_measured(&all.machine, &all.versions));
    parts.push(how_measured(all.rounds));
    parts.extend(all.kinds.iter().map(results));
    parts.extend(before::before(all.before.as_deref(), &all.kinds));
    parts.push(growth(&all.growth));
    parts.push(one_cell::one_cell(&all.cells, all.before.as_deref()));
    if !all.versions.is_empty() {
        parts.push(differences(&all.kinds));
    }
    parts.push("## Where the time goes, and what would make it less\n".into());
    parts.extend(functions::functions(&all.kinds));
    parts.push(NOTES.into());
    parts.join("\n")
}

fn introduction() -> String {
    "# Benchmarks\n\n\
     How long building and drawing take, beside a program that goes pixel by pixel, FreeType and AGG. `cargo run --release -p bench`, in the folder \
     `rust`, measures everything anew and writes this page; with `-- --before FILE`, an earlier library too.\n"
        .into()
}

fn where_measured(machine: &Machine, versions: &[(Library, String)]) -> String {
    let mut text = String::from("## Measured on\n\n");
    let processors = match machine.processors {
        1 => "1 processor".into(),
        n => format!("{n} processors"),
    };
    line(&mut text, &format!("- {}; {processors}", machine.processor));
    let mut compilers = machine.compilers.clone();
    compilers.dedup();
    line(&mut text, &format!("- {}", compilers.join("; ")));
    for library in LIBRARIES {
        let version = versions.iter().find(|(each, _)| *each == library);
        line(
            &mut text,
            &match version {
                Some((_, version)) => format!("- {} {version}", library.name()),
                None => format!(
                    "- {} was not found, and its rows are left out. On Debian it is in `{}`.",
                    library.name(),
                    library.debian_package()
                ),
            },
        );
    }
    text
}

fn how_measured(rounds: usize) -> String {
    let kinds = KINDS.map(|input| input.name().to_lowercase()).join("; ");
    format!(
        "## How it is measured\n\n\
         {VARIANTS} outlines of each kind ({kinds}), on a tile of side {SIDE}, each with {edges} edges, the most that are accepted. All start from the \
         same points in 1/256 pixel.\n\n\
         - **Times** are for one outline: the median of {rounds} rounds, with the quartiles. A round runs every case in turn, on \
         all {VARIANTS} outlines and so often that it takes {sample} ms or more, on one thread. One outline alone, \
         drawn over and over, could be learnt by heart by the processor's branch prediction, as an archive's letters cannot \
         be.\n\
         - **The ratio** is a case's time over that of ours in bold above it, taken in each round and then the median of \
         these, so that a processor that changes its speed changes both. Below 1, the other is faster.\n\
         - **Instructions** are those for the first of the outlines, counted by callgrind: a program that runs the case twice \
         less one that runs it once. A few in a thousand depend on the addresses that memory gets.\n\
         - **Buffers are cleared first**, and that is in all times. Building clears its table itself, within the call. Our calls that draw write every \
         place of a picture, and so does pixel by pixel; it is all the same cleared before each of these drawings. FreeType and AGG draw onto what is there, \
         and each of their pictures is cleared too.\n\
         - **Building** asks all its questions, and **drawing** looks at the whole table, all in range here, in each call: both are in the times. The \
         **placement** is a quarter turn, which leaves as many edges in as many cells: what it takes longer is the placing of the points. Of a \
         **speck** taken out and put back, most of the time goes into looking at the whole table, which each of the two calls does before and after.\n\
         - **Pixel by pixel** is a Rust program without a table, `rust/bench/src/pixels.rs`, in the same optimised build. It works the exact area of each of \
         the {pixels} pixels over every edge in turn: as y runs along the edge, how far x lies past the pixel's left side, held between 0 and the pixel's \
         width, summed over the y in the pixel's rows, with the sign of the run; doubled. **In floats** of 64 bits, what depends on the edge \
         alone, such as its slope, is worked out once for each drawing, and no division is left for the pixels. On these outlines no area is off by {error} \
         of a unit, where a grey is {grey} units; a test holds it to that. An edge that is not in the pixel's rows, or is wholly to its left, is passed over \
         by comparisons, and one that is wholly to its right counts width times height. Edges are not sorted by row: every pixel asks every edge. **Exact**, it \
         does the same in whole numbers of 64 bits, over |dx| × |dy|: two divisions where comparisons do not decide, and Rust's checks for overflow. \
         Both draw our pictures of level {DEPTH}, in all outlines, but for one grey at most: otherwise nothing is measured.\n\
         - **FreeType and AGG** have no table. Each size is a drawing of its own, from the outline scaled to it; scaling is in the times; opening the \
         library, or making the rasteriser and its memory, is not.\n\
         - **FreeType** takes points in 1/64 pixel, to which ours are rounded; AGG takes 1/256, as ours are. Both are \
         set to fill where the winding is not 0.\n",
        edges = thousands(EDGES.into()),
        sample = SAMPLE.as_millis(),
        pixels = thousands((SIDE * SIDE).into()),
        error = GREATEST_ERROR,
        grey = UNITS_PER_GREY,
    )
}

fn results(measured: &Measured) -> String {
    let mut text = format!("## {}\n\n{}\n\n", measured.input.name(), measured.input.about());
    line(&mut text, "| | Median | Quartiles | Ratio | Quartiles | Instructions |");
    line(&mut text, "|---|--:|--:|--:|--:|--:|");
    for case in CASES {
        // an earlier library has tables of its own
        let (false, Some(time)) = (matches!(case, Case::Before(_)), measured.times.spread(case)) else { continue };
        let ratio = case.ours().and_then(|ours| measured.times.ratio(case, ours));
        let (ratio, spread) = match (ratio, case) {
            (Some(ratio), _) => (digits(ratio.median), quartiles(ratio)),
            (None, Case::BuildAndDraw(_)) => ("1".into(), String::new()),
            (None, _) => Default::default(),
        };
        let count = measured.profile(case).map(|profile| thousands(profile.total()));
        let cells = [case.title(), seconds(time.median), range(time), ratio, spread, count.unwrap_or_default()];
        line(&mut text, &format!("| {} |", cells.join(" | ")));
    }
    not_counted(&mut text, &measured.profiles);
    text
}

fn differences(measured: &[Measured]) -> String {
    let mut text = String::from(
        "## The same pictures\n\n\
         By how many of 255 greys the others' pictures differ from ours, at most, in all outlines, for each size in pixels \
         across. They round the scaled points to their own steps, which are coarser for a small size, and with random edges a \
         thousand such errors add up. Every pixel is compared: like ours, the others draw the magnitude of a pixel's signed \
         area, held at full ink, also where contours overlap or go anticlockwise.\n\n",
    );
    let sizes: Vec<String> = (0..=DEPTH).map(|level| (1 << level).to_string()).collect();
    line(&mut text, &format!("| | {} |", sizes.join(" | ")));
    line(&mut text, &format!("|---|{}", "--:|".repeat(sizes.len())));
    for each in measured {
        for (library, greys) in &each.differences {
            let greys: Vec<String> = greys.iter().map(u8::to_string).collect();
            line(&mut text, &format!("| {}, {} | {} |", each.input.name(), library.name(), greys.join(" | ")));
        }
    }
    text
}

#[cfg(test)]
mod tests {
    use super::*;
    use crate::timing::FEW_ROUNDS;

    fn everything(kinds: Vec<Measured>, before: Option<String>) -> Everything {
        Everything {
            machine: Machine { processor: "P".into(), processors: 1, compilers: vec!["c".into(), "c".into()] },
            versions: vec![(Library::Agg, "1.2".into())],
            rounds: FEW_ROUNDS,
            kinds,
            growth: Vec::new(),
            cells: one_cell::tests::cells(before.is_some()),
            before,
        }
    }

    #[test]
    fn a_library_that_is_missing_is_named_with_its_package() {
        let text = page(&everything(Vec::new(), None));
        assert!(text.contains("- P; 1 processor\n- c\n- FreeType was not found"));
        assert!(text.contains("`libfreetype-dev`") && !text.contains("libagg-dev"));
        assert!(text.contains("- AGG 1.2\n"));
    }

    #[test]
    fn a_kind_has_a_line_for_each_case_and_its_ratio() {
        let kinds = KINDS.map(|input| {
            let seconds = |case: &Case| if case.ours().is_some() { 4e-3 } else { 2e-3 };
            let times = Times::of(CASES.to_vec(), vec![CASES.iter().map(seconds).collect()]);
            Measured { input, times, profiles: Err("no valgrind".into()), differences: Vec::new() }
        });
        let of_before = CASES.iter().filter(|case| matches!(case, Case::Before(_))).count();
        let lines = results(&kinds[2]).lines().filter(|line| line.starts_with("| ")).count();
        assert_eq!(lines, 1 + CASES.len() - of_before);
        let text = page(&everything(kinds.into(), Some("commit abc".into())));
        let line = "| pixel by pixel in floats, 64 × 64 | 4.00 ms | 4.00 – 4.00 | 2.00 | 2.00 – 2.00 |  |\n";
        assert_eq!(text.matches(line).count(), KINDS.len());
        assert!(text.contains("## Level and upright edges\n") && text.contains("## Before and after\n"));
        assert!(text.contains("Instructions were not counted: no valgrind."));
    }
}

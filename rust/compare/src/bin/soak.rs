//! Compares library and reference for as long as one likes, and looks for outlines whose figures miss the exact area by the most.
use compare::random::Random;
use compare::{curves, from_outline_to_pictures, run, series, sheets, tried, Seen, Tally};
use reference::{Spec, STEPS};
use std::ops::Range;
use std::process::ExitCode;
use std::time::Instant;

const USAGE: &str = "usage: soak [--seed N] [--case N] [--series N] [--sheet-case N] [--sheet-series N] [--curve-case N] [--curve-series N]
            [--seconds N]

Runs case after case of a seed, 1 if left out, and series after series of corrections, on tiles alone and on tiles of
sheets, and with curves on both, and says every few seconds how far it is and what was the worst miss of a figure so far, as
a ratio of its bound. Each time, the worst of the latest outlines on a tile alone is changed a little, over and over, in
search of a worse one. It ends at the first difference between library and reference, with status 1, or after the round in
which the seconds have passed; else it goes on until it is stopped. With the number of a case or of a series, only that one
is tried.";

/// Cases and series between two lines of progress: some seconds' worth. Those on sheets are whole rounds of all pairs of sides.
const ROUND: u64 = 4_000;
const ROUND_OF_SERIES: u64 = 1_000;
const ROUND_ON_SHEETS: u64 = 8 * sheets::PAIRS.len() as u64;
/// Those with curves are whole rounds of all sides and pairs of sides.
const ROUND_OF_CURVES: u64 = 8 * curves::GROUNDS;
/// Changed outlines that are tried after each round.
const CHANGES: u64 = 4_000;

struct Options {
    seed: u64,
    case: Option<u64>,
    series: Option<u64>,
    sheet_case: Option<u64>,
    sheet_series: Option<u64>,
    curve_case: Option<u64>,
    curve_series: Option<u64>,
    seconds: u64,
}

fn options() -> Option<Options> {
    let mut options = Options {
        seed: 1,
        case: None,
        series: None,
        sheet_case: None,
        sheet_series: None,
        curve_case: None,
        curve_series: None,
        seconds: u64::MAX,
    };
    let mut words = std::env::args().skip(1);
    while let Some(word) = words.next() {
        let number = words.next()?.parse().ok()?;
        match &word[..] {
            "--seed" => options.seed = number,
            "--case" => options.case = Some(number),
            "--series" => options.series = Some(number),
            "--sheet-case" => options.sheet_case = Some(number),
            "--sheet-series" => options.sheet_series = Some(number),
            "--curve-case" => options.curve_case = Some(number),
            "--curve-series" => options.curve_series = Some(number),
            "--seconds" => options.seconds = number,
            _ => return None,
        }
    }
    Some(options)
}

fn main() -> ExitCode {
    if std::env::args().skip(1).eq(["--help"]) {
        println!("{USAGE}");
        return ExitCode::SUCCESS;
    }
    let Some(options) = options() else {
        eprintln!("{USAGE}");
        return ExitCode::from(2);
    };
    match soak(&options) {
        Ok(()) => ExitCode::SUCCESS,
        Err(difference) => {
            println!("{difference}");
            ExitCode::FAILURE
        }
    }
}

/// Round after round, until the seconds have passed or something is different; or what is asked for alone.
fn soak(options: &Options) -> Result<(), String> {
    let begun = Instant::now();
    let (mut seen, mut seen_series) = (Seen::default(), series::Seen::default());
    let (mut seen_on_sheets, mut seen_series_on_sheets) = (sheets::Seen::default(), series::Seen::default());
    let (mut seen_of_curves, mut seen_series_with_curves) = (curves::Seen::default(), series::Seen::default());
    let asked = [
        options.case,
        options.series,
        options.sheet_case,
        options.sheet_series,
        options.curve_case,
        options.curve_series,
    ];
    let alone = asked.iter().any(Option::is_some);
    let failed = |what: &str, number: u64, difference| format!("seed {}, {what} {number}: {difference}", options.seed);
    for round in 0.. {
        let numbers = |asked: Option<u64>, length: u64| match asked {
            Some(number) => number..number + 1,
            None if alone => 0..0,
            None => round * length..(round + 1) * length,
        };
        let (cases, series) = (numbers(options.case, ROUND), numbers(options.series, ROUND_OF_SERIES));
        if !cases.is_empty() {
            let before = seen.worst.as_ref().map(|worst| worst.ratio);
            seen.add(round_of_cases(options.seed, cases.clone(), alone)?);
            println!("{} s, up to case {}: {seen}", begun.elapsed().as_secs(), cases.end - 1);
            if let Some(worst) = seen.worst.as_ref().filter(|worst| Some(worst.ratio) != before) {
                // so that it can be looked at with `draw --exact`
                print!("{}", worst.outline.frame(worst.level));
            }
        }
        if !series.is_empty() {
            let more = series::run(options.seed, series.clone());
            seen_series.add(more.map_err(|(number, what)| failed("series", number, what))?);
            println!("{} s, up to series {}: {seen_series}", begun.elapsed().as_secs(), series.end - 1);
        }
        let (cases, series) =
            (numbers(options.sheet_case, ROUND_ON_SHEETS), numbers(options.sheet_series, ROUND_ON_SHEETS));
        if !cases.is_empty() {
            let more = sheets::run(options.seed, cases.clone());
            seen_on_sheets.add(more.map_err(|(number, what)| failed("case on a sheet", number, what))?);
            println!("{} s, up to case {} on a sheet: {seen_on_sheets}", begun.elapsed().as_secs(), cases.end - 1);
        }
        if !series.is_empty() {
            let more = series::run_on_sheets(options.seed, series.clone());
            seen_series_on_sheets.add(more.map_err(|(number, what)| failed("series on a sheet", number, what))?);
            let seconds = begun.elapsed().as_secs();
            println!("{seconds} s, up to series {} on a sheet: {seen_series_on_sheets}", series.end - 1);
        }
        let (cases, series) =
            (numbers(options.curve_case, ROUND_OF_CURVES), numbers(options.curve_series, ROUND_OF_CURVES));
        if !cases.is_empty() {
            let more = curves::run(options.seed, cases.clone());
            seen_of_curves.add(more.map_err(|(number, what)| failed("case of curves", number, what))?);
            println!("{} s, up to case {} of curves: {seen_of_curves}", begun.elapsed().as_secs(), cases.end - 1);
        }
        if !series.is_empty() {
            let more = series::run_with_curves(options.seed, series.clone());
            seen_series_with_curves.add(more.map_err(|(number, what)| failed("series with curves", number, what))?);
            let seconds = begun.elapsed().as_secs();
            println!("{seconds} s, up to series {} with curves: {seen_series_with_curves}", series.end - 1);
        }
        if alone || begun.elapsed().as_secs() >= options.seconds {
            break;
        }
    }
    Ok(())
}

/// Some cases, and then the worst of their outlines changed, if they are not tried alone: what was seen, or what is different.
fn round_of_cases(seed: u64, cases: Range<u64>, alone: bool) -> Result<Seen, String> {
    let first = cases.start;
    let mut seen =
        run(seed, cases).map_err(|(number, difference)| format!("seed {seed}, case {number}: {difference}"))?;
    if !alone {
        look_for_worse(&mut Random::of_case(!seed, first), &mut seen)?;
    }
    Ok(seen)
}

/// Changes the outline with the worst miss a little, again and again, and goes on from each that is worse still.
fn look_for_worse(random: &mut Random, seen: &mut Seen) -> Result<(), String> {
    for _ in 0..CHANGES {
        let Some(worst) = seen.worst.as_ref().filter(|worst| worst.ratio > 0.0) else { return Ok(()) };
        let mut outline = worst.outline.clone();
        let limit = STEPS * outline.side as i64;
        for _ in 0..random.within(1, 4) {
            let at = random.index(outline.points.len());
            let reach = random.pick(&[1, 2, 8, 64, limit]);
            outline.points[at] = (outline.points[at] + random.within(-reach, reach)).clamp(0, limit);
        }
        tried(|| from_outline_to_pictures(&Spec, random, &outline, seen))
            .map_err(|difference| format!("{difference}\n{}", outline.frame(outline.depth())))?;
    }
    Ok(())
}

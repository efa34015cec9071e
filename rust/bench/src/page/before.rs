//! Building and drawing, beside an earlier library.

use super::Measured;
use crate::cases::{Case, STEPS};
use crate::words::{digits, line, quartiles, range, seconds, thousands};

/// The commit is that of the earlier library; without one there is nothing to say.
pub fn before(commit: Option<&str>, measured: &[Measured]) -> Option<String> {
    let commit = commit?;
    let mut text = format!(
        "## Before and after\n\n\
         **Before** is the library that lies in a checkout of {commit}, handed over with `--before` and called in the same rounds: its ratio is its \
         time over ours. Above 1, it was slower. It is opened while the program runs, and so calls the C library by a detour, which takes a few instructions \
         each time and is no work of its own. Nothing is measured unless its tables are equal to ours, entry by entry, and its greys too, in all \
         outlines.\n"
    );
    const COLUMNS: [&str; 8] =
        ["Before", "Quartiles", "Now", "Quartiles", "Ratio", "Quartiles", "Before, instructions", "Now, instructions"];
    for each in measured {
        line(&mut text, &format!("\n| {} | {} |", each.input.name(), COLUMNS.join(" | ")));
        line(&mut text, &format!("|---|{}", "--:|".repeat(COLUMNS.len())));
        for step in STEPS {
            let (earlier, now) = (Case::Before(step), step.now());
            let times = (each.times.spread(earlier), each.times.spread(now), each.times.ratio(earlier, now));
            let (Some(then), Some(today), Some(ratio)) = times else { continue };
            let count = |case| each.profile(case).map(|profile| thousands(profile.total())).unwrap_or_default();
            let cells = [
                step.title().into(),
                seconds(then.median),
                range(then),
                seconds(today.median),
                range(today),
                digits(ratio.median),
                quartiles(ratio),
                count(earlier),
                count(now),
            ];
            line(&mut text, &format!("| {} |", cells.join(" | ")));
        }
    }
    Some(text)
}

#[cfg(test)]
mod tests {
    use super::*;
    use crate::cases::CASES;
    use crate::inputs::KINDS;
    use crate::timing::Times;

    #[test]
    fn every_kind_has_a_line_for_each_step() {
        let measured = KINDS.map(|input| {
            let seconds = |case: &Case| if matches!(case, Case::Before(_)) { 3e-3 } else { 2e-3 };
            let times = Times::of(CASES.to_vec(), vec![CASES.iter().map(seconds).collect()]);
            Measured { input, times, profiles: Err("no".into()), differences: Vec::new() }
        });
        let text = before(Some("commit abc"), &measured).unwrap();
        assert!(text.contains("the library that lies in a checkout of commit abc"));
        let line =
            "| building the table | 3.00 ms | 3.00 – 3.00 | 2.00 ms | 2.00 – 2.00 | 1.50 | 1.50 – 1.50 |  |  |\n";
        assert_eq!(text.matches(line).count(), KINDS.len(), "{text}");
        assert_eq!(text.lines().filter(|line| line.starts_with("| ")).count(), KINDS.len() * (1 + STEPS.len()));
        assert!(before(None, &measured).is_none());
    }
}

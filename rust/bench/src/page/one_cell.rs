//! One cell, from whole and damaged tables.

use crate::cells::{Calls, Damage, Version, CALLS, DAMAGES};
use crate::inputs::{DEPTH, SIDE};
use crate::reads::Reads;
use crate::timing::Times;
use crate::words::{digits, line, not_counted, quartiles, range, seconds, thousands};

/// All that was measured of single cells.
pub struct MeasuredCells {
    pub times: Times<Calls>,
    /// Instructions of one call; or why there are none.
    pub counts: Result<Vec<(Calls, i64)>, String>,
    /// What one call reads of its table; or why it is not known.
    pub reads: Result<Vec<(Damage, Reads)>, String>,
}

impl MeasuredCells {
    fn count(&self, calls: Calls) -> String {
        let found = self.counts.as_ref().ok().and_then(|counts| counts.iter().find(|(each, _)| *each == calls));
        found.map(|(_, count)| thousands(*count)).unwrap_or_default()
    }

    fn read(&self, damage: Damage, number: impl Fn(&Reads) -> usize) -> String {
        let found = self.reads.as_ref().ok().and_then(|reads| reads.iter().find(|(each, _)| *each == damage));
        found.map(|(_, reads)| thousands(number(reads) as i64)).unwrap_or_default()
    }
}

pub fn one_cell(measured: &MeasuredCells, before: Option<&str>) -> String {
    let mut text = format!(
        "## One cell\n\n\
         The same cell of level {DEPTH}, {} calls one after the other, from a letter's table of {} entries, whole or damaged: the \
         time and the instructions of one call, with the loop around it. It has rounds of its own, with one table over and \
         over, as a reading room has it: what the processor learns of it by heart is in these times. The search behind \
         question 9 ends at the first entry out of range. **Loads** are those of one call from the table, each of one entry \
         or more, counted by valgrind's lackey; **reach** is how many entries, from the first on, have all that was loaded \
         among them. Where nothing is refused, the cell's figure takes a few loads more.\n",
        thousands(CALLS as i64),
        thousands(i64::from(SIDE * SIDE))
    );
    if before.is_some() {
        line(
            &mut text,
            "\n**Before** is the earlier library: its ratio is its time over ours. Both are opened and called alike.",
        );
    }
    const COLUMNS: [&str; 9] = [
        "Answer",
        "Loads",
        "Reach",
        "Median",
        "Quartiles",
        "Instructions",
        "Before, ratio",
        "Quartiles",
        "Before, instructions",
    ];
    // the last three are of the library before
    let columns = &COLUMNS[..if before.is_some() { COLUMNS.len() } else { COLUMNS.len() - 3 }];
    line(&mut text, &format!("\n| The table | {} |", columns.join(" | ")));
    line(&mut text, &format!("|---|{}", "--:|".repeat(columns.len())));
    for damage in DAMAGES {
        let [now, before] = [Version::Now, Version::Before].map(|version| Calls { version, damage });
        let Some(time) = measured.times.spread(now) else { continue };
        let mut cells = vec![
            damage.title().into(),
            damage.number().to_string(),
            measured.read(damage, |reads| reads.loads),
            measured.read(damage, |reads| reads.reach),
            seconds(time.median),
            range(time),
            measured.count(now),
        ];
        if let Some(ratio) = measured.times.ratio(before, now) {
            cells.extend([digits(ratio.median), quartiles(ratio), measured.count(before)]);
        }
        line(&mut text, &format!("| {} |", cells.join(" | ")));
    }
    not_counted(&mut text, &measured.counts);
    if let (Ok(_), Err(reason)) = (&measured.counts, &measured.reads) {
        line(&mut text, &format!("\nLoads were not counted: {reason}."));
    }
    text
}

#[cfg(test)]
pub mod tests {
    use super::*;

    /// Two rounds. A call takes one, two or three milliseconds, by the damage, and of the library before twice as long; so do its instructions.
    pub fn cells(before: bool) -> MeasuredCells {
        let versions = if before { &[Version::Now, Version::Before][..] } else { &[Version::Now] };
        let cases: Vec<Calls> = DAMAGES
            .into_iter()
            .flat_map(|damage| versions.iter().map(move |&version| Calls { version, damage }))
            .collect();
        let seconds = |calls: &Calls| 1e-3 * (calls.damage as usize + 1) as f64 * (calls.version as usize + 1) as f64;
        let round: Vec<f64> = cases.iter().map(seconds).collect();
        let count = |&calls: &Calls| (calls, 1000 * (calls.damage as i64 + 1) * (calls.version as i64 + 1));
        let counts = Ok(cases.iter().map(count).collect());
        let read = |damage: Damage| (damage, Reads { loads: 7 * (damage as usize + 1), reach: 5 });
        MeasuredCells {
            times: Times::of(cases, vec![round.clone(), round]),
            counts,
            reads: Ok(DAMAGES.map(read).to_vec()),
        }
    }

    #[test]
    fn one_cell_has_a_line_for_each_damage() {
        let alone = one_cell(&cells(false), None);
        assert!(alone.contains("4,096 entries") && !alone.contains("Before"));
        assert!(
            alone.contains("| the first entry out of range | 9 | 14 | 5 | 2.00 ms | 2.00 – 2.00 | 2,000 |\n"),
            "{alone}"
        );
        assert_eq!(alone.lines().filter(|line| line.starts_with("| ")).count(), 1 + DAMAGES.len());
        let beside = one_cell(&cells(true), Some("commit abc"));
        assert!(
            beside.contains(
                "| every entry in range | 0 | 7 | 5 | 1.00 ms | 1.00 – 1.00 | 1,000 | 2.00 | 2.00 – 2.00 | 2,000 |\n"
            ),
            "{beside}"
        );
    }
}

//! Which functions the instructions go to.

use super::Measured;
use crate::cases::Case;
use crate::profile::Profile;
use crate::words::{line, percent, thousands};

/// A function gets a line if it has at least this share of the instructions, in thousandths. The others are summed up.
const LEAST_SHARE: i64 = 1;

/// Building, for each kind; and drawing, which takes the same steps for every table, for the first.
pub fn functions(measured: &[Measured]) -> Vec<String> {
    let kind = |each: &Measured| each.input.name().to_lowercase();
    let building = measured
        .iter()
        .filter_map(|each| Some(table(&format!("Building the table, {}", kind(each)), each.profile(Case::Build)?)));
    let drawing = measured
        .iter()
        .take(1)
        .filter_map(|each| Some(table("All seven levels from the table, one call", each.profile(Case::Pyramid)?)));
    building.chain(drawing).collect()
}

fn table(title: &str, profile: &Profile) -> String {
    let total = profile.total();
    let functions = profile.functions().into_iter();
    let (most, others): (Vec<_>, Vec<_>) = functions.partition(|(_, cost)| cost.own * 1000 >= total * LEAST_SHARE);
    let mut text = format!("{title}: instructions by function.\n\n");
    line(&mut text, "| Function | Calls | Its own | Of each call | Share | With what it calls |");
    line(&mut text, "|---|--:|--:|--:|--:|--:|");
    for (name, cost) in most {
        let cells = [
            format!("`{name}`"),
            thousands(cost.calls),
            thousands(cost.own),
            thousands(cost.own / cost.calls.max(1)),
            percent(cost.own, total),
            percent(cost.with_callees, total),
        ];
        line(&mut text, &format!("| {} |", cells.join(" | ")));
    }
    let rest: i64 = others.iter().map(|(_, cost)| cost.own).sum();
    if rest > 0 {
        line(&mut text, &format!("| all others | | {} | | {} | |", thousands(rest), percent(rest, total)));
    }
    text
}

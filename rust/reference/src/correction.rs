//! Correcting a tile: a contour put in, or taken out.
//!
//! "A tile is now a table with a record of its edge count." The contour's own
//! table is worked out as building works it out, and added to the tile's or
//! subtracted from it in 128 bits, where no sum of 64-bit numbers overflows.
//! The questions are asked of these sums; only then is anything written.

use crate::curve::{placed_chords, Curves};
use crate::edge::{edges, Edge};
use crate::placement::{placed, Placement};
use crate::questions::{Given, Question};
use crate::rules::Rules;
use crate::sheet::{worked_on_sheet, SheetTile};
use crate::table::worked;

/// What is done with a contour.
#[derive(Clone, Copy, Debug, PartialEq, Eq)]
pub enum Correction {
    /// "Putting in adds a contour's rounded values to the table."
    PutIn,
    /// "Taking out is its inverse."
    TakeOut,
}

/// Puts the contour of `count` points, as placed, into the tile of `table` and
/// `record`, its edge count; or answers the refusal's number and changes
/// neither.
pub fn put(
    rules: &dyn Rules,
    side: u32,
    points: &[i64],
    count: u32,
    placement: Placement,
    record: &mut u32,
    table: &mut [i64],
) -> Result<(), u8> {
    let contour = Given { side, points, counts: &[count], placement, ..Given::default() };
    correct(rules, Correction::PutIn, contour, record, table)
}

/// Takes the contour of `count` points, as placed, out of the tile of `table`
/// and `record`, its edge count; or answers the refusal's number and changes
/// neither. Whether it was ever put in is not asked, and cannot be told.
pub fn take(
    rules: &dyn Rules,
    side: u32,
    points: &[i64],
    count: u32,
    placement: Placement,
    record: &mut u32,
    table: &mut [i64],
) -> Result<(), u8> {
    let contour = Given { side, points, counts: &[count], placement, ..Given::default() };
    correct(rules, Correction::TakeOut, contour, record, table)
}

/// Puts the contour into a tile of a sheet: as [`put`], of a contour on the
/// sheet. "A tile being corrected keeps one sheet side and one place": that is
/// not asked, and cannot be told.
pub fn put_on_sheet(
    rules: &dyn Rules,
    place: SheetTile,
    points: &[i64],
    count: u32,
    placement: Placement,
    record: &mut u32,
    table: &mut [i64],
) -> Result<(), u8> {
    let contour =
        Given { side: place.side, place: Some(place), points, counts: &[count], placement, ..Given::default() };
    correct(rules, Correction::PutIn, contour, record, table)
}

/// Takes the contour out of a tile of a sheet: as [`take`], likewise.
pub fn take_on_sheet(
    rules: &dyn Rules,
    place: SheetTile,
    points: &[i64],
    count: u32,
    placement: Placement,
    record: &mut u32,
    table: &mut [i64],
) -> Result<(), u8> {
    let contour =
        Given { side: place.side, place: Some(place), points, counts: &[count], placement, ..Given::default() };
    correct(rules, Correction::TakeOut, contour, record, table)
}

pub(crate) fn correct(
    rules: &dyn Rules,
    correction: Correction,
    contour: Given,
    record: &mut u32,
    table: &mut [i64],
) -> Result<(), u8> {
    let contour = Given { table, ..contour };
    let (edges, after) = leaves(rules, correction, contour).unzip();
    let count = contour.counts[0];
    // A contour without values is refused, and its count is not kept.
    let counted = rules.recorded(correction, *record, edges.unwrap_or(count));

    let given = Given { correction: Some(correction), record: *record, leaves: after.as_deref(), ..contour };
    let order = match correction {
        Correction::PutIn => rules.putting(),
        Correction::TakeOut => rules.taking(),
    };
    let answer = given.ask(&order, rules);

    *record = match answer {
        Ok(()) => counted,
        Err(number) => rules.refused_record(number, *record, counted),
    };
    if let Some(after) = after {
        let left = match answer {
            Ok(()) => written(&after),
            Err(number) => rules.refused_table(number, table, &after),
        };
        table.copy_from_slice(&left);
    }
    answer
}

/// The questions that a contour has values by. Question 5 is among them for the
/// chords of a contour with marks, of which there may be very many: question 4 has
/// answered it for the one count.
const OF_CONTOUR: [Question; 7] = {
    use Question::*;
    [Side, TableLength, EachCount, CountSum, PointsLength, Placing, Coordinates]
};

/// How many edges a correction counts, and the table that it would leave, however
/// large its entries are. There is neither where the contour has no values: such a
/// call is refused for the contour, unless the table before it is refused first.
fn leaves(rules: &dyn Rules, correction: Correction, contour: Given) -> Option<(u32, Vec<i128>)> {
    contour.ask(&OF_CONTOUR, rules).ok()?;
    let count = contour.counts[0];
    let (counted, edges) = match contour.marks {
        Some(marks) => {
            let curves = Curves { points: contour.points, marks };
            let chords = placed_chords(rules, contour.placement, curves, contour.counts)?.concat();
            (rules.recorded_edges(count, chords.len() as u32), chords)
        }
        None => {
            let placed = placed(rules, contour.placement, contour.points);
            let points = rules.corrected_points(correction, contour.points, &placed);
            (count, edges(rules, points, contour.counts))
        }
    };
    let values = values(rules, contour, &rules.corrected_edges(correction, edges));
    let changed = |(&entry, value): (&i64, i64)| rules.changed(correction, entry.into(), value.into());
    Some((counted, contour.table.iter().zip(values).map(changed).collect()))
}

/// The contour's own table: entry 0 its signed area, or on a sheet the tile's
/// root, and "each edge's three values are rounded on their own."
fn values(rules: &dyn Rules, contour: Given, edges: &[Edge]) -> Vec<i64> {
    match contour.place {
        Some(place) => worked_on_sheet(rules, place, edges),
        None => worked(rules, contour.side, edges),
    }
}

/// The entries as 64 bits hold them. Of a table that question 9 lets pass they
/// hold every one; what a wrong variant lets pass loses its upper bits.
pub(crate) fn written(after: &[i128]) -> Vec<i64> {
    after.iter().map(|&entry| entry as i64).collect()
}

//! Tiles of a sheet, for letters that are wider than a tile.
//!
//! 02's P5 lets "an outline lie on a sheet [...] and be drawn into one tile [...]
//! at a given place in whole tiles." Here no point is moved: the cells of the
//! tile are taken where they lie on the sheet, for the details and for the exact
//! areas alike. The root is worked edge by edge as an exact area is, of the
//! tile's whole square, because the signed area is that of the whole sheet.

use crate::edge::{edges, Edge};
use crate::placement::{placed, Placement};
use crate::questions::Given;
use crate::rules::Rules;
use crate::table::with_root;

/// A tile of a sheet: the sides of both in pixels, and the tile's place "in
/// whole tiles."
#[derive(Clone, Copy, Debug, PartialEq, Eq)]
pub struct SheetTile {
    /// The sheet's side.
    pub sheet: u32,
    /// The tile's side.
    pub side: u32,
    /// How many tiles lie to its left.
    pub column: u32,
    /// How many tiles lie above it.
    pub row: u32,
}

impl SheetTile {
    /// All tiles of a sheet, row by row from the top left; the sides are such as
    /// question 14 lets pass.
    pub fn all(sheet: u32, side: u32) -> impl Iterator<Item = SheetTile> {
        let across = sheet / side;
        (0..across * across).map(move |i| SheetTile { sheet, side, column: i % across, row: i / across })
    }
}

/// Builds the table of one tile of a sheet from the outline on it, which is
/// placed first: the edge count, which is that of the whole outline, and the
/// table that building must leave, or the refusal's number. Of `table`, what the
/// caller's table holds before, only the length matters.
pub fn build_on_sheet(
    rules: &dyn Rules,
    place: SheetTile,
    points: &[i64],
    counts: &[u32],
    placement: Placement,
    table: &[i64],
) -> Result<(u32, Vec<i64>), u8> {
    let given = Given { side: place.side, place: Some(place), table, points, counts, placement, ..Given::default() };
    given.ask(&rules.building(), rules)?;

    let edges = edges(rules, &placed(rules, placement, points), counts);
    Ok((counts.iter().sum(), worked_on_sheet(rules, place, &edges)))
}

/// The table of some edges on a sheet, of the tile at this place.
pub(crate) fn worked_on_sheet(rules: &dyn Rules, place: SheetTile, edges: &[Edge]) -> Vec<i64> {
    let mut table = with_root(rules, rules.sheet_root(edges, place), rules.square(place), edges);
    // A wrong variant has asked for another length, and has no more values.
    table.resize(rules.table_side(place).pow(2) as usize, 0);
    table
}

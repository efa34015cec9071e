//! Tiles of a sheet, for letters that are wider than a tile.
use crate::{answer, by_numbers, c, Placement, Refusal};

/// A tile of a sheet: the sides of both in pixels, and the tile's place on the sheet in whole tiles, 0 and 0 being the upper left one.
///
/// A sheet's side is 1, 2, 4, 8, 16, 32, 64 or 128, and its tile's 1, 2, 4, 8, 16 or 32 and not larger than the sheet's: else a call is refused
/// (14). Column and row are below sheet / side (else 15).
#[derive(Clone, Copy, Debug, PartialEq, Eq)]
pub struct SheetTile {
    /// The sheet's side.
    pub sheet: u32,
    /// The tile's side, which the calls that draw are given.
    pub side: u32,
    /// How many tiles lie to its left.
    pub column: u32,
    /// How many tiles lie above it.
    pub row: u32,
}

/// Builds the table of one tile of a sheet from the outline that lies on the sheet: all is as with [`build_placed`](crate::build_placed), but
/// that coordinates are from the sheet's upper left corner and go up to 256 × sheet. So the outline, as placed, may lie on the tile or beyond it.
/// The answer is the number of all its edges.
///
/// The table has side × side entries and is drawn as any other, by [`figures`](crate::figures), [`greys`](crate::greys) and
/// [`cell`](crate::cell) with the tile's side.
///
/// ```
/// # fn main() -> Result<(), Box<dyn std::error::Error>> {
/// use mattuliyan::{Placement, SheetTile};
///
/// // half a sheet of 4 pixels, drawn in four tiles of 2 that are put together
/// let points = [0, 0, 1024, 0, 0, 1024];
/// let mut sheet = [[0; 4]; 4];
/// for (row, column) in [(0, 0), (0, 1), (1, 0), (1, 1)] {
///     let place = SheetTile { sheet: 4, side: 2, column, row };
///     let (mut table, mut picture) = ([0; 4], [0; 4]);
///     mattuliyan::build_on_sheet(place, &points, &[3], Placement::None, &mut table)?;
///     mattuliyan::greys(2, 1, &table, &mut picture)?;
///     for (line, greys) in sheet[2 * row as usize..].iter_mut().zip(picture.chunks(2)) {
///         line[2 * column as usize..][..2].copy_from_slice(greys);
///     }
/// }
/// assert_eq!(sheet, [[255, 255, 255, 128], [255, 255, 128, 0], [255, 128, 0, 0], [128, 0, 0, 0]]);
///
/// // there is no third column of tiles
/// let off = SheetTile { sheet: 4, side: 2, column: 2, row: 0 };
/// let refused = mattuliyan::build_on_sheet(off, &points, &[3], Placement::None, &mut [0; 4]);
/// assert_eq!(refused.map_err(|refusal| refusal.number()), Err(15));
/// # Ok(())
/// # }
/// ```
///
/// The root, entry 0, is the tile's own area and no longer the outline's: the sum over all edges of each one's exact part of it, rounded to the
/// nearest unit, halves away from zero. A figure may so miss 4^level times the exact area by 4^level × edges / 2, and by nothing where every edge
/// is level, upright or at 45 degrees; a grey is at most one from the exact area's. Of a tile, figures add up to 4^level times its root. The roots
/// of all tiles add up to the outline's signed area where every edge is level, upright or at 45 degrees, and may be some units off it elsewhere.
///
/// Where the outline lies on the tile alone, wherever that is on the sheet, its table is the one that [`build`](crate::build) leaves for the
/// outline as seen from the tile's corner.
pub fn build_on_sheet(
    place: SheetTile,
    points: &[i64],
    counts: &[u32],
    placement: Placement,
    table: &mut [i64],
) -> Result<u32, Refusal> {
    by_numbers(placement, |numbers| build_on_sheet_by_numbers(place, points, counts, numbers, table))
}

/// [`build_on_sheet`] as C has it; for tests, as [`build_by_numbers`](crate::build_by_numbers) is.
#[doc(hidden)]
pub fn build_on_sheet_by_numbers(
    place: SheetTile,
    points: &[i64],
    counts: &[u32],
    numbers: &[f64],
    table: &mut [i64],
) -> Result<u32, Refusal> {
    let mut edges = u32::MAX; // as in `build`

    // SAFETY: as in `build`.
    let number = unsafe {
        c::mattuliyan_build_on_sheet(
            place.sheet,
            place.side,
            place.column,
            place.row,
            points.as_ptr(),
            points.len(),
            counts.as_ptr(),
            counts.len(),
            numbers.as_ptr(),
            numbers.len(),
            table.as_mut_ptr(),
            table.len(),
            &mut edges,
        )
    };
    answer(number, edges)
}

/// Puts a contour that lies on a sheet into one tile of it, a table with a record of its edge count: all is as with [`put`](crate::put), and
/// coordinates are as with [`build_on_sheet`]. All its edges are counted, on the tile or not. A tile that is corrected keeps its sheet's side and
/// its place: nothing in a table tells them, and no call can ask. [`Tile`](crate::Tile) keeps them with the table.
///
/// ```
/// # fn main() -> Result<(), Box<dyn std::error::Error>> {
/// use mattuliyan::{Placement, SheetTile};
///
/// // the bar of a headline's T on a sheet of 4 pixels, in its upper right tile of 2
/// let place = SheetTile { sheet: 4, side: 2, column: 1, row: 0 };
/// let bar = [0, 0, 1024, 0, 1024, 256, 0, 256];
/// let (mut table, mut picture) = ([0; 4], [0; 4]);
/// let mut edges = mattuliyan::build_on_sheet(place, &bar, &[4], Placement::None, &mut table)?;
///
/// // its stem is put in, of which one pixel is on this tile
/// let stem = [256, 256, 768, 256, 768, 1024, 256, 1024];
/// mattuliyan::put_on_sheet(place, &stem, 4, Placement::None, &mut edges, &mut table)?;
/// mattuliyan::greys(2, 1, &table, &mut picture)?;
/// assert_eq!((edges, picture), (8, [255, 255, 255, 0]));
///
/// mattuliyan::take_on_sheet(place, &stem, 4, Placement::None, &mut edges, &mut table)?;
/// mattuliyan::greys(2, 1, &table, &mut picture)?;
/// assert_eq!((edges, picture), (4, [255, 255, 0, 0]));
/// # Ok(())
/// # }
/// ```
pub fn put_on_sheet(
    place: SheetTile,
    points: &[i64],
    count: u32,
    placement: Placement,
    edges: &mut u32,
    table: &mut [i64],
) -> Result<(), Refusal> {
    by_numbers(placement, |numbers| put_on_sheet_by_numbers(place, points, count, numbers, edges, table))
}

/// Takes a contour that lies on a sheet out of one tile of it again: as [`put_on_sheet`], with its values taken from the table and its count from
/// `edges`, the record. What [`take`](crate::take) says of contours that are not in holds here too.
pub fn take_on_sheet(
    place: SheetTile,
    points: &[i64],
    count: u32,
    placement: Placement,
    edges: &mut u32,
    table: &mut [i64],
) -> Result<(), Refusal> {
    by_numbers(placement, |numbers| take_on_sheet_by_numbers(place, points, count, numbers, edges, table))
}

/// [`put_on_sheet`] as C has it, likewise.
#[doc(hidden)]
pub fn put_on_sheet_by_numbers(
    place: SheetTile,
    points: &[i64],
    count: u32,
    numbers: &[f64],
    edges: &mut u32,
    table: &mut [i64],
) -> Result<(), Refusal> {
    // SAFETY: as in `put_by_numbers`.
    let number = unsafe {
        c::mattuliyan_put_on_sheet(
            place.sheet,
            place.side,
            place.column,
            place.row,
            points.as_ptr(),
            points.len(),
            count,
            numbers.as_ptr(),
            numbers.len(),
            edges,
            table.as_mut_ptr(),
            table.len(),
        )
    };
    answer(number, ())
}

/// [`take_on_sheet`] as C has it, likewise.
#[doc(hidden)]
pub fn take_on_sheet_by_numbers(
    place: SheetTile,
    points: &[i64],
    count: u32,
    numbers: &[f64],
    edges: &mut u32,
    table: &mut [i64],
) -> Result<(), Refusal> {
    // SAFETY: as in `put_by_numbers`.
    let number = unsafe {
        c::mattuliyan_take_on_sheet(
            place.sheet,
            place.side,
            place.column,
            place.row,
            points.as_ptr(),
            points.len(),
            count,
            numbers.as_ptr(),
            numbers.len(),
            edges,
            table.as_mut_ptr(),
            table.len(),
        )
    };
    answer(number, ())
}

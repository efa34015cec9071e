//! Outlines with curved edges.
use crate::{answer, by_numbers, c, Placement, Refusal, SheetTile};

/// What an outline with curved edges is drawn into: a tile alone, or a tile of a sheet.
#[derive(Clone, Copy, Debug, PartialEq, Eq)]
pub enum Site {
    /// A tile alone, of this side: coordinates are from 0 to 256 × side.
    Alone(u32),
    /// A tile of a sheet: coordinates are from 0 to 256 × sheet.
    OnSheet(SheetTile),
}

/// Builds the table of an outline that may have curved edges and is placed first. All else is as with [`build_placed`](crate::build_placed), or on a
/// sheet as with [`build_on_sheet`](crate::build_on_sheet).
///
/// `marks` has 0 for a straight edge and 1 for a curved one, over all contours in order, and `counts` how many edges each contour has. `points` has x
/// and y of each edge's start and, where the edge is curved, x and y of its control point right after. An edge ends where the next one of its contour
/// starts, and the last one where the first starts: so where the last edge is curved, its control point is the contour's last point.
///
/// A curve is a quadratic Bézier curve. With the ends p0 and p2 and the control point p1, as placed, it becomes 2^k chords at equal steps of its
/// parameter, where k is the least from 0 to 7 such that neither coordinate of p0 − 2 × p1 + p2 is more than 4 × 4^k in magnitude: so no chord leaves
/// its curve by more than a step in x or y. The chords' ends are then rounded to the nearest step, halves towards the larger. The answer is the number
/// of chords, a straight edge being one. What is drawn, and how near it is to the ink, goes by the chords.
///
/// ```
/// # fn main() -> Result<(), Box<dyn std::error::Error>> {
/// use mattuliyan::{Placement, SheetTile, Site};
///
/// // a round letter on a tile of 2 pixels: four curves from side to side, with their control points in the corners
/// let round = [256, 0, 512, 0, 512, 256, 512, 512, 256, 512, 0, 512, 0, 256, 0, 0];
/// let (mut table, mut picture) = ([0; 4], [0; 4]);
/// let edges = mattuliyan::build_curves(Site::Alone(2), &round, &[4], &[1; 4], Placement::None, &mut table)?;
/// mattuliyan::greys(2, 1, &table, &mut picture)?;
/// assert_eq!((edges, picture), (32, [211; 4]));
///
/// // a quarter of it and two straight edges, in the lower right pixel of the same tile, which is now one of a sheet
/// let quarter = [512, 512, 512, 256, 256, 256, 256, 512];
/// let site = Site::OnSheet(SheetTile { sheet: 4, side: 2, column: 0, row: 0 });
/// let edges = mattuliyan::build_curves(site, &quarter, &[3], &[1, 0, 0], Placement::None, &mut table)?;
/// mattuliyan::greys(2, 1, &table, &mut picture)?;
/// assert_eq!((edges, picture), (10, [0, 0, 0, 211]));
///
/// // three marks are too few for four edges
/// let refused = mattuliyan::build_curves(Site::Alone(2), &round, &[4], &[1; 3], Placement::None, &mut table);
/// assert_eq!(refused.map_err(|refusal| refusal.number()), Err(16));
/// # Ok(())
/// # }
/// ```
pub fn build_curves(
    site: Site,
    points: &[i64],
    counts: &[u32],
    marks: &[u8],
    placement: Placement,
    table: &mut [i64],
) -> Result<u32, Refusal> {
    by_numbers(placement, |numbers| build_curves_by_numbers(site, points, counts, marks, numbers, table))
}

/// [`build_curves`] as C has it; for tests, as [`build_by_numbers`](crate::build_by_numbers) is.
#[doc(hidden)]
pub fn build_curves_by_numbers(
    site: Site,
    points: &[i64],
    counts: &[u32],
    marks: &[u8],
    numbers: &[f64],
    table: &mut [i64],
) -> Result<u32, Refusal> {
    let mut edges = u32::MAX; // as in `build`

    // SAFETY: as in `build`.
    let number = unsafe {
        match site {
            Site::Alone(side) => c::mattuliyan_build_curves(
                side,
                points.as_ptr(),
                points.len(),
                counts.as_ptr(),
                counts.len(),
                marks.as_ptr(),
                marks.len(),
                numbers.as_ptr(),
                numbers.len(),
                table.as_mut_ptr(),
                table.len(),
                &mut edges,
            ),
            Site::OnSheet(place) => c::mattuliyan_build_curves_on_sheet(
                place.sheet,
                place.side,
                place.column,
                place.row,
                points.as_ptr(),
                points.len(),
                counts.as_ptr(),
                counts.len(),
                marks.as_ptr(),
                marks.len(),
                numbers.as_ptr(),
                numbers.len(),
                table.as_mut_ptr(),
                table.len(),
                &mut edges,
            ),
        }
    };
    answer(number, edges)
}

/// Puts a contour that may have curved edges into a tile, a table with a record of its edge count: all is as with [`put`](crate::put), or on a sheet as
/// with [`put_on_sheet`](crate::put_on_sheet), and points and marks are as with [`build_curves`]. `count` is the number of the contour's edges as marked.
/// What is added to `edges`, the record, is the number of its chords.
///
/// ```
/// # fn main() -> Result<(), Box<dyn std::error::Error>> {
/// use mattuliyan::{Placement, Site};
///
/// // a round letter on a tile of 2 pixels, without its hole
/// let site = Site::Alone(2);
/// let round = [256, 0, 512, 0, 512, 256, 512, 512, 256, 512, 0, 512, 0, 256, 0, 0];
/// let (mut table, mut picture) = ([0; 4], [0; 4]);
/// let mut edges = mattuliyan::build_curves(site, &round, &[4], &[1; 4], Placement::None, &mut table)?;
///
/// // the hole is put in: the letter half as large, and run the other way
/// let hole = [256, 128, 128, 128, 128, 256, 128, 384, 256, 384, 384, 384, 384, 256, 384, 128];
/// mattuliyan::put_curves(site, &hole, 4, &[1; 4], Placement::None, &mut edges, &mut table)?;
/// mattuliyan::greys(2, 1, &table, &mut picture)?;
/// assert_eq!((edges, picture), (64, [158; 4]));
///
/// // and taken out again, under another placement that leads to the same points
/// let twice_as_large = hole.map(|coordinate| 2 * coordinate);
/// mattuliyan::take_curves(site, &twice_as_large, 4, &[1; 4], Placement::Scale(0.5), &mut edges, &mut table)?;
/// mattuliyan::greys(2, 1, &table, &mut picture)?;
/// assert_eq!((edges, picture), (32, [211; 4]));
/// # Ok(())
/// # }
/// ```
pub fn put_curves(
    site: Site,
    points: &[i64],
    count: u32,
    marks: &[u8],
    placement: Placement,
    edges: &mut u32,
    table: &mut [i64],
) -> Result<(), Refusal> {
    by_numbers(placement, |numbers| put_curves_by_numbers(site, points, count, marks, numbers, edges, table))
}

/// Takes a contour that may have curved edges out of a tile again: as [`put_curves`], with its values taken from the table and the number of its chords
/// from `edges`, the record. A contour is known by its points as placed and its marks. One with no mark that is 1 may be put in or taken out by
/// [`put`](crate::put) and [`take`](crate::take) as well, so a tile may hold contours of either kind. What [`take`](crate::take) says of contours that
/// are not in holds here too.
pub fn take_curves(
    site: Site,
    points: &[i64],
    count: u32,
    marks: &[u8],
    placement: Placement,
    edges: &mut u32,
    table: &mut [i64],
) -> Result<(), Refusal> {
    by_numbers(placement, |numbers| take_curves_by_numbers(site, points, count, marks, numbers, edges, table))
}

/// [`put_curves`] as C has it, likewise.
#[doc(hidden)]
pub fn put_curves_by_numbers(
    site: Site,
    points: &[i64],
    count: u32,
    marks: &[u8],
    numbers: &[f64],
    edges: &mut u32,
    table: &mut [i64],
) -> Result<(), Refusal> {
    // SAFETY: as in `put_by_numbers`.
    let number = unsafe {
        match site {
            Site::Alone(side) => c::mattuliyan_put_curves(
                side,
                points.as_ptr(),
                points.len(),
                count,
                marks.as_ptr(),
                marks.len(),
                numbers.as_ptr(),
                numbers.len(),
                edges,
                table.as_mut_ptr(),
                table.len(),
            ),
            Site::OnSheet(place) => c::mattuliyan_put_curves_on_sheet(
                place.sheet,
                place.side,
                place.column,
                place.row,
                points.as_ptr(),
                points.len(),
                count,
                marks.as_ptr(),
                marks.len(),
                numbers.as_ptr(),
                numbers.len(),
                edges,
                table.as_mut_ptr(),
                table.len(),
            ),
        }
    };
    answer(number, ())
}

/// [`take_curves`] as C has it, likewise.
#[doc(hidden)]
pub fn take_curves_by_numbers(
    site: Site,
    points: &[i64],
    count: u32,
    marks: &[u8],
    numbers: &[f64],
    edges: &mut u32,
    table: &mut [i64],
) -> Result<(), Refusal> {
    // SAFETY: as in `put_by_numbers`.
    let number = unsafe {
        match site {
            Site::Alone(side) => c::mattuliyan_take_curves(
                side,
                points.as_ptr(),
                points.len(),
                count,
                marks.as_ptr(),
                marks.len(),
                numbers.as_ptr(),
                numbers.len(),
                edges,
                table.as_mut_ptr(),
                table.len(),
            ),
            Site::OnSheet(place) => c::mattuliyan_take_curves_on_sheet(
                place.sheet,
                place.side,
                place.column,
                place.row,
                points.as_ptr(),
                points.len(),
                count,
                marks.as_ptr(),
                marks.len(),
                numbers.as_ptr(),
                numbers.len(),
                edges,
                table.as_mut_ptr(),
                table.len(),
            ),
        }
    };
    answer(number, ())
}

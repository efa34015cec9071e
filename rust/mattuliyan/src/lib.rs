//! Grey tiles from traced outlines: safe calls of the proved library `tile_c`.
//!
//! A tile is a square of 1, 2, 4, 8, 16, 32 or 64 pixels a side, a step is 1/256 pixel, x grows to the right and y downwards. An outline is
//! closed contours of whole points, letters clockwise as seen on the page, the holes in them anticlockwise, or all of it the other way round:
//! every figure then has the opposite sign, and every grey is the same. [`build`] turns it into a table of Haar coefficients, from which
//! [`figures`], [`greys`] and [`cell`] draw any level: 2^level pixels across, from 1 to the side. [`pyramid`] draws the greys of every level at once.
//!
//! ```
//! use std::error::Error;
//!
//! fn main() -> Result<(), Box<dyn Error>> {
//!     // a square of one pixel, in the upper left of a tile of two
//!     let points = [0, 0, 256, 0, 256, 256, 0, 256];
//!     let (mut table, mut picture) = ([0; 4], [0; 4]);
//!     let edges = mattuliyan::build(2, &points, &[4], &mut table)?;
//!     mattuliyan::greys(2, 1, &table, &mut picture)?;
//!     assert_eq!((edges, picture), (4, [255, 0, 0, 0]));
//!     Ok(())
//! }
//! ```
//!
//! A letter from a sheet that lay askew is straightened by a [`Placement`], which [`build_placed`] takes with the outline.
//!
//! A [`Tile`] is a table with a record of its edge count. Contours are put into it and taken out again, to remove a speck or to put a missing
//! dot back, and it is then the tile that building the contours that remain would make. [`put`] and [`take`] are the same for a table and a
//! record of one's own.
//!
//! A letter that is wider than a tile lies on a sheet of up to 128 pixels a side, and is drawn tile by tile: [`build_on_sheet`],
//! [`put_on_sheet`] and [`take_on_sheet`] are given a [`SheetTile`], which says what tile of what sheet it is.
//!
//! An edge may be curved, a quadratic Bézier curve: [`build_curves`], [`put_curves`] and [`take_curves`] take a mark for each edge, and draw chords
//! in place of a curve, none of which leaves it by more than a step. They are given a [`Site`], a tile alone or one of a sheet.
//!
//! Every input is answered: the work is done, or the call is refused, and a [`Refusal`] says why.
#![warn(missing_docs)]

mod curves;
mod refusal;
mod sheet;
mod tile;

pub use curves::{build_curves, put_curves, take_curves, Site};
#[doc(hidden)]
pub use curves::{build_curves_by_numbers, put_curves_by_numbers, take_curves_by_numbers};
pub use refusal::Refusal;
pub use sheet::{build_on_sheet, put_on_sheet, take_on_sheet, SheetTile};
#[doc(hidden)]
pub use sheet::{build_on_sheet_by_numbers, put_on_sheet_by_numbers, take_on_sheet_by_numbers};
pub use tile::Tile;

/// `include/mattuliyan.h` of the crate `tile_c`, which says what a caller owes: what every slice of Rust gives, and floats as a program
/// starts with them.
mod c {
    unsafe extern "C" {
        pub fn mattuliyan_build(
            side: u32,
            points: *const i64,
            points_length: usize,
            counts: *const u32,
            counts_length: usize,
            table: *mut i64,
            table_length: usize,
            edges: *mut u32,
        ) -> u32;
        pub fn mattuliyan_build_placed(
            side: u32,
            points: *const i64,
            points_length: usize,
            counts: *const u32,
            counts_length: usize,
            placement: *const f64,
            placement_length: usize,
            table: *mut i64,
            table_length: usize,
            edges: *mut u32,
        ) -> u32;
        pub fn mattuliyan_put(
            side: u32,
            points: *const i64,
            points_length: usize,
            count: u32,
            placement: *const f64,
            placement_length: usize,
            edges: *mut u32,
            table: *mut i64,
            table_length: usize,
        ) -> u32;
        pub fn mattuliyan_take(
            side: u32,
            points: *const i64,
            points_length: usize,
            count: u32,
            placement: *const f64,
            placement_length: usize,
            edges: *mut u32,
            table: *mut i64,
            table_length: usize,
        ) -> u32;
        pub fn mattuliyan_build_on_sheet(
            sheet: u32,
            side: u32,
            column: u32,
            row: u32,
            points: *const i64,
            points_length: usize,
            counts: *const u32,
            counts_length: usize,
            placement: *const f64,
            placement_length: usize,
            table: *mut i64,
            table_length: usize,
            edges: *mut u32,
        ) -> u32;
        pub fn mattuliyan_put_on_sheet(
            sheet: u32,
            side: u32,
            column: u32,
            row: u32,
            points: *const i64,
            points_length: usize,
            count: u32,
            placement: *const f64,
            placement_length: usize,
            edges: *mut u32,
            table: *mut i64,
            table_length: usize,
        ) -> u32;
        pub fn mattuliyan_take_on_sheet(
            sheet: u32,
            side: u32,
            column: u32,
            row: u32,
            points: *const i64,
            points_length: usize,
            count: u32,
            placement: *const f64,
            placement_length: usize,
            edges: *mut u32,
            table: *mut i64,
            table_length: usize,
        ) -> u32;
        pub fn mattuliyan_build_curves(
            side: u32,
            points: *const i64,
            points_length: usize,
            counts: *const u32,
            counts_length: usize,
            marks: *const u8,
            marks_length: usize,
            placement: *const f64,
            placement_length: usize,
            table: *mut i64,
            table_length: usize,
            edges: *mut u32,
        ) -> u32;
        pub fn mattuliyan_put_curves(
            side: u32,
            points: *const i64,
            points_length: usize,
            count: u32,
            marks: *const u8,
            marks_length: usize,
            placement: *const f64,
            placement_length: usize,
            edges: *mut u32,
            table: *mut i64,
            table_length: usize,
        ) -> u32;
        pub fn mattuliyan_take_curves(
            side: u32,
            points: *const i64,
            points_length: usize,
            count: u32,
            marks: *const u8,
            marks_length: usize,
            placement: *const f64,
            placement_length: usize,
            edges: *mut u32,
            table: *mut i64,
            table_length: usize,
        ) -> u32;
        pub fn mattuliyan_build_curves_on_sheet(
            sheet: u32,
            side: u32,
            column: u32,
            row: u32,
            points: *const i64,
            points_length: usize,
            counts: *const u32,
            counts_length: usize,
            marks: *const u8,
            marks_length: usize,
            placement: *const f64,
            placement_length: usize,
            table: *mut i64,
            table_length: usize,
            edges: *mut u32,
        ) -> u32;
        pub fn mattuliyan_put_curves_on_sheet(
            sheet: u32,
            side: u32,
            column: u32,
            row: u32,
            points: *const i64,
            points_length: usize,
            count: u32,
            marks: *const u8,
            marks_length: usize,
            placement: *const f64,
            placement_length: usize,
            edges: *mut u32,
            table: *mut i64,
            table_length: usize,
        ) -> u32;
        pub fn mattuliyan_take_curves_on_sheet(
            sheet: u32,
            side: u32,
            column: u32,
            row: u32,
            points: *const i64,
            points_length: usize,
            count: u32,
            marks: *const u8,
            marks_length: usize,
            placement: *const f64,
            placement_length: usize,
            edges: *mut u32,
            table: *mut i64,
            table_length: usize,
        ) -> u32;
        pub fn mattuliyan_figures(
            side: u32,
            level: u32,
            table: *const i64,
            table_length: usize,
            picture: *mut i64,
            picture_length: usize,
        ) -> u32;
        pub fn mattuliyan_greys(
            side: u32,
            level: u32,
            table: *const i64,
            table_length: usize,
            picture: *mut u8,
            picture_length: usize,
        ) -> u32;
        pub fn mattuliyan_pyramid(
            side: u32,
            table: *const i64,
            table_length: usize,
            pictures: *mut u8,
            pictures_length: usize,
        ) -> u32;
        pub fn mattuliyan_cell(
            side: u32,
            level: u32,
            cx: u32,
            cy: u32,
            table: *const i64,
            table_length: usize,
            figure: *mut i64,
        ) -> u32;
    }
}

/// The answer to a call: what it wrote where it is done, or a refusal, which carries 0.
fn answer<T: Default + PartialEq>(number: u32, written: T) -> Result<T, Refusal> {
    if number == 0 {
        return Ok(written);
    }
    // Proved; a declaration above that is wrong would show here.
    assert!(written == T::default(), "a refusal carries 0");
    Err(Refusal::of(number).expect("a refusal has a question's number"))
}

/// Builds the table of an outline: `points` has x and y of each point in turn, in steps, and `counts` how many points each contour has. The
/// answer is the number of edges. What the table held before makes no difference.
pub fn build(side: u32, points: &[i64], counts: &[u32], table: &mut [i64]) -> Result<u32, Refusal> {
    // no edge count, so that a call that did not write one would show
    let mut edges = u32::MAX;

    // SAFETY: slices of Rust are aligned, of their lengths, and those that are written overlap no other.
    let number = unsafe {
        c::mattuliyan_build(
            side,
            points.as_ptr(),
            points.len(),
            counts.as_ptr(),
            counts.len(),
            table.as_mut_ptr(),
            table.len(),
            &mut edges,
        )
    };
    answer(number, edges)
}

/// What is done to the points of an outline before it is drawn. Numbers are multiples of 1/65,536: factors from −2 to 2, offsets, in steps,
/// from −16,384 to 16,384. A moved coordinate is from −32,768 to 32,767 before, and is rounded to the nearest step, halves towards the larger.
#[derive(Clone, Copy, Debug, PartialEq)]
pub enum Placement {
    /// The points stay as they are.
    None,
    /// Offsets of x and of y.
    Shift(f64, f64),
    /// One factor of x and y.
    Scale(f64),
    /// a, b, c, d, e, f: the point (x, y) goes to (a × x + b × y + c, d × x + e × y + f). The offsets are c and f, the others are factors.
    Turn([f64; 6]),
}

/// Makes a call with a placement as C takes it: how many numbers there are says what is done with them.
fn by_numbers<T>(placement: Placement, call: impl FnOnce(&[f64]) -> T) -> T {
    match placement {
        Placement::None => call(&[]),
        Placement::Shift(x, y) => call(&[x, y]),
        Placement::Scale(factor) => call(&[factor]),
        Placement::Turn(numbers) => call(&numbers),
    }
}

/// Builds the table of an outline that is placed first; all else is as with [`build`].
///
/// ```
/// # fn main() -> Result<(), Box<dyn std::error::Error>> {
/// use mattuliyan::Placement;
///
/// // a stroke of 2 × 6 pixels on a tile of 8, from a sheet that lay 5 degrees askew
/// let points = [836, 237, 1346, 281, 1212, 1811, 702, 1767];
///
/// // back by 5 degrees about the middle of the tile, in numbers that are multiples of 1/65,536
/// let (sin, cos) = 5f64.to_radians().sin_cos();
/// let (sin, cos) = ((sin * 65_536.0).round() / 65_536.0, (cos * 65_536.0).round() / 65_536.0);
/// let (x, y) = (1024.0, 1024.0);
/// let straight = Placement::Turn([cos, sin, x - cos * x - sin * y, -sin, cos, y + sin * x - cos * y]);
///
/// let (mut table, mut picture) = ([0; 64], [0; 64]);
/// mattuliyan::build_placed(8, &points, &[4], straight, &mut table)?;
/// mattuliyan::greys(8, 3, &table, &mut picture)?;
/// for row in 1..7 {
///     assert_eq!(picture[8 * row..][..8], [0, 0, 0, 255, 255, 0, 0, 0]);
/// }
///
/// // 1/3 is no multiple of 1/65,536
/// let refused = mattuliyan::build_placed(8, &points, &[4], Placement::Scale(1.0 / 3.0), &mut table);
/// assert_eq!(refused.map_err(|refusal| refusal.number()), Err(12));
/// # Ok(())
/// # }
/// ```
pub fn build_placed(
    side: u32,
    points: &[i64],
    counts: &[u32],
    placement: Placement,
    table: &mut [i64],
) -> Result<u32, Refusal> {
    by_numbers(placement, |numbers| build_by_numbers(side, points, counts, numbers, table))
}

/// [`build_placed`] as C has it, a placement being told by how many numbers it has; another length is 12. It is for tests, which lend numbers
/// that a [`Placement`] cannot hold.
#[doc(hidden)]
pub fn build_by_numbers(
    side: u32,
    points: &[i64],
    counts: &[u32],
    numbers: &[f64],
    table: &mut [i64],
) -> Result<u32, Refusal> {
    let mut edges = u32::MAX; // as in `build`

    // SAFETY: as in `build`.
    let number = unsafe {
        c::mattuliyan_build_placed(
            side,
            points.as_ptr(),
            points.len(),
            counts.as_ptr(),
            counts.len(),
            numbers.as_ptr(),
            numbers.len(),
            table.as_mut_ptr(),
            table.len(),
            &mut edges,
        )
    };
    answer(number, edges)
}

/// Puts a contour into a tile, a table with a record of its edge count: `points` has x and y of each of its `count` points in turn, in steps,
/// and the contour is these as placed. What it adds to each entry is added to the table, and its count to `edges`, the record. A tile begins with
/// a table of zeros and a record of 0, or with what [`build`] or [`build_placed`] left and answered. [`Tile`] keeps the two together.
///
/// The contour should go round as the tile's other letters do, and a hole the other way: where both directions share a pixel, they cancel.
///
/// ```
/// # fn main() -> Result<(), Box<dyn std::error::Error>> {
/// use mattuliyan::Placement;
///
/// // the stroke of an i on a tile of 4 pixels, built as a letter is
/// let stroke = [256, 512, 512, 512, 512, 1024, 256, 1024];
/// let (mut table, mut picture) = ([0; 16], [0; 16]);
/// let mut edges = mattuliyan::build(4, &stroke, &[4], &mut table)?;
///
/// // its dot is put back: a square of a pixel, shifted to its place
/// let square = [0, 0, 256, 0, 256, 256, 0, 256];
/// mattuliyan::put(4, &square, 4, Placement::Shift(256.0, 0.0), &mut edges, &mut table)?;
/// mattuliyan::greys(4, 2, &table, &mut picture)?;
/// assert_eq!(picture, [0, 255, 0, 0, 0, 0, 0, 0, 0, 255, 0, 0, 0, 255, 0, 0]);
/// assert_eq!(edges, 8);
///
/// // and taken out again, under another placement that leads to the same points
/// let dot = [256, 0, 512, 0, 512, 256, 256, 256];
/// mattuliyan::take(4, &dot, 4, Placement::None, &mut edges, &mut table)?;
/// assert_eq!(edges, 4);
///
/// // more edges than are in cannot be taken out
/// let five = [0, 0, 256, 0, 256, 256, 128, 256, 0, 256];
/// let refused = mattuliyan::take(4, &five, 5, Placement::None, &mut edges, &mut table);
/// assert_eq!(refused.map_err(|refusal| refusal.number()), Err(13));
/// # Ok(())
/// # }
/// ```
pub fn put(
    side: u32,
    points: &[i64],
    count: u32,
    placement: Placement,
    edges: &mut u32,
    table: &mut [i64],
) -> Result<(), Refusal> {
    by_numbers(placement, |numbers| put_by_numbers(side, points, count, numbers, edges, table))
}

/// Takes a contour out of a tile again: as [`put`], with its values taken from the table and its count from `edges`, the record. A contour is
/// known by its points as placed, in their order, so it may be taken out under another placement than it was put in, if that leads to the same
/// points. Its reverse is another contour: to take out the reverse of one that is in adds that one's ink once more. Only a contour that is in
/// should be taken out: the call cannot tell, and takes out any whose count the record allows.
pub fn take(
    side: u32,
    points: &[i64],
    count: u32,
    placement: Placement,
    edges: &mut u32,
    table: &mut [i64],
) -> Result<(), Refusal> {
    by_numbers(placement, |numbers| take_by_numbers(side, points, count, numbers, edges, table))
}

/// [`put`] as C has it; for tests, as [`build_by_numbers`] is.
#[doc(hidden)]
pub fn put_by_numbers(
    side: u32,
    points: &[i64],
    count: u32,
    numbers: &[f64],
    edges: &mut u32,
    table: &mut [i64],
) -> Result<(), Refusal> {
    // SAFETY: as in `build`; and the record is a place of its own, lent to be read and written.
    let number = unsafe {
        c::mattuliyan_put(
            side,
            points.as_ptr(),
            points.len(),
            count,
            numbers.as_ptr(),
            numbers.len(),
            edges,
            table.as_mut_ptr(),
            table.len(),
        )
    };
    answer(number, ())
}

/// [`take`] as C has it, likewise.
#[doc(hidden)]
pub fn take_by_numbers(
    side: u32,
    points: &[i64],
    count: u32,
    numbers: &[f64],
    edges: &mut u32,
    table: &mut [i64],
) -> Result<(), Refusal> {
    // SAFETY: as in `put_by_numbers`.
    let number = unsafe {
        c::mattuliyan_take(
            side,
            points.as_ptr(),
            points.len(),
            count,
            numbers.as_ptr(),
            numbers.len(),
            edges,
            table.as_mut_ptr(),
            table.len(),
        )
    };
    answer(number, ())
}

/// Draws the figures of a level, row by row from the top left: 4^level times each cell's area, in units of which 131,072 are a pixel.
pub fn figures(side: u32, level: u32, table: &[i64], picture: &mut [i64]) -> Result<(), Refusal> {
    // SAFETY: as in `build`.
    let number =
        unsafe { c::mattuliyan_figures(side, level, table.as_ptr(), table.len(), picture.as_mut_ptr(), picture.len()) };
    answer(number, ())
}

/// Draws the greys of a level, row by row from the top left: 0 is bare paper, 255 full ink.
///
/// A grey is 255 × |figure| / (131,072 × side × side), to the nearest whole number, halves up, and at most 255: a letter may be traced either
/// way round. Where contours of opposite directions share a pixel, they cancel.
pub fn greys(side: u32, level: u32, table: &[i64], picture: &mut [u8]) -> Result<(), Refusal> {
    // SAFETY: as in `build`.
    let number =
        unsafe { c::mattuliyan_greys(side, level, table.as_ptr(), table.len(), picture.as_mut_ptr(), picture.len()) };
    answer(number, ())
}

/// Draws the greys of every level, from 0 to the depth, one picture after the other: each is what [`greys`] draws of its level.
///
/// There are 1 + 4 + .. + 4^depth places: level 0 has the first, level 1 the next four, and so on. It takes less time than a call for each level.
pub fn pyramid(side: u32, table: &[i64], pictures: &mut [u8]) -> Result<(), Refusal> {
    // SAFETY: as in `build`.
    let number =
        unsafe { c::mattuliyan_pyramid(side, table.as_ptr(), table.len(), pictures.as_mut_ptr(), pictures.len()) };
    answer(number, ())
}

/// The figure of one cell, column `cx` and row `cy` of the level: the one that [`figures`] puts there.
pub fn cell(side: u32, level: u32, cx: u32, cy: u32, table: &[i64]) -> Result<i64, Refusal> {
    // no figure of a table that is drawn
    let mut figure = i64::MAX;

    // SAFETY: as in `build`.
    let number = unsafe { c::mattuliyan_cell(side, level, cx, cy, table.as_ptr(), table.len(), &mut figure) };
    answer(number, figure)
}

//! An independent reference for grey tiles from traced outlines.
//!
//! It states the specification ("01") and five paragraphs of the change
//! requests ("02"), P1 on placements, P3 on contours put in and taken out, P4 on
//! wrong-handed tracing, P5 on letters that cross the tile and P6 on round letters
//! from curves, a second time, in plain Rust and by another method than the
//! product, so that the two can be compared on any input. It is written to be
//! read: nothing here is tuned beyond what running it on many thousands of outlines
//! needs. (The stored answers also take a count from P2, and from P12 when an edge
//! comes inside a cell.)
//!
//! # How areas are worked out
//!
//! Everything 01 wants of an edge is an integral over y of some function f of
//! x, taken along the part of the edge that lies in the rows of a cell:
//!
//! * for the exact area, f is "how far x lies past the cell's left side, held
//!   between 0 and the cell's width";
//! * for the detail h, f is the distance from x to the cell's nearer upright
//!   side, and 0 outside the cell;
//! * d is h of the upper half's rows less h of the lower half's rows;
//! * v is minus h with x and y exchanged.
//!
//! Along an edge that is not upright, dy = (dy/dx) dx, so the integral between
//! two heights is
//!
//! ```text
//! (dy/dx) × (F(x at the end) − F(x at the start)),   F an antiderivative of f.
//! ```
//!
//! Along an upright edge it is f(x) times the difference of the two heights.
//! No stepping and no limit process is involved; the result is exact.
//!
//! Both functions f are made of straight pieces. Such a function is a sum of
//! ramps: with the slope changing by t at each of some places a,
//!
//! ```text
//! f(x) = Σ t × max(x − a, 0)      and      2 F(x) = Σ t × max(x − a, 0)².
//! ```
//!
//! The area's f has slope changes +1 at the left side and −1 at the right; the
//! detail's f has +1, −2, +1 at the left side, the middle and the right side.
//! A [`Profile`] is that list of slope changes.
//!
//! The x of an edge at a whole height is a whole number over |dy|. So 2 F is a
//! whole number over dy², and times dy/dx it is a whole number over
//! |dx| × |dy|: every edge value is a [`Fraction`] with a known denominator.
//!
//! # Exactness
//!
//! The exact area of a cell is a sum of such fractions, up to 1,024 of them
//! with different denominators. [`Exact`] holds the sum without bringing it to
//! a common denominator and still compares it exactly with whole numbers: a
//! rigorous enclosure decides nearly always, big integers decide the rest.
//!
//! # How points are placed
//!
//! 02 places points in 64-bit floats and says that nothing is lost by it. Here
//! no float is reckoned with at all: each one handed in is taken apart by its
//! bits into a whole number of 65,536ths, or into none where it is no multiple
//! of 1/65,536, and products, sums and rounding are those of whole numbers.
//! Whoever measures demand 3 for a placed outline hands the points of
//! [`placed`] to [`exact_areas`].
//!
//! # How tiles are corrected
//!
//! 02 puts a contour into a tile, a table with a record of its edge count, or
//! takes it out. Here the contour's own table is worked out as for building it
//! alone, and added to the tile's entry by entry, or subtracted from it, in 128
//! bits, so that there is an answer for any table at all. [`put`] and [`take`]
//! write where nothing is refused, and only then.
//!
//! # How greys are taken
//!
//! 02 takes a grey from the figure's magnitude, so that a letter and the same
//! letter traced the other way round look alike. Figures and tables keep their
//! signs, and a hole takes away from its letter whichever way both are traced.
//! The exact area's grey is taken the same way, without any rounding before.
//!
//! # How tiles of a sheet are drawn
//!
//! 02 lets an outline lie on a sheet that is larger than a tile, and draws one
//! tile of it. Here nothing is moved: a tile is a square of the sheet, its cells
//! are taken at their place there, and every edge of the outline is worked in
//! each of them, as above. An edge that does not come into a cell has no details
//! there. But it can have a part of the cell's area: along an edge to the right
//! of the cell, x is held at the cell's width. So the root of a tile, which is
//! no longer the signed area, is the sum over all edges of their parts of the
//! tile's area, and each part is rounded as a detail is. The calls that draw are
//! those of a tile alone, for a table does not tell where it comes from.
//!
//! # How curves are drawn
//!
//! 02 lets an edge be a quadratic Bézier curve, and draws 2^k chords for it. Here
//! a call with marks makes the outline of all chords, a straight edge being one,
//! and all else is done with that: table and root are those of the chords, and
//! whoever measures demand 3 hands the outline of [`chords`] to [`exact_areas`]. A
//! point of a curve is worked out by its definition, as an exact fraction for each
//! parameter on its own, and rounded once. The questions are asked of the edges as
//! they are marked, or of the chords, as 02 says for each.
//!
//! # The rules, and wrong rules
//!
//! What a careful person may get wrong stands in the trait [`Rules`], whose
//! default methods are the papers' rules; [`Spec`] takes them all as they are.
//! The module [`wrong`] has variants with one rule spoilt each: whoever
//! compares a product with this reference can check that the comparison would
//! notice.
//!
//! # Stored answers
//!
//! The module [`answers`] makes what the project stores of its programs'
//! answers, and the program `answers` writes it. Whoever changes a rule runs
//! that, and the difference shows what the change moves.
//!
//! # Reading order
//!
//! `rules`, `questions`, `placement`, `edge`, `table`, `correction`, `sheet`,
//! `curve`, `picture`, `area`, `frame`; then `exact` and `big`, the arithmetic below; then
//! `wrong` and `answers`.

#![forbid(unsafe_code)]
#![warn(missing_docs)]

pub mod answers;
mod area;
mod big;
mod correction;
mod curve;
mod edge;
mod exact;
mod frame;
mod picture;
mod placement;
mod questions;
mod rules;
mod sheet;
mod table;
pub mod wrong;

pub use area::{exact_areas, exact_areas_on_sheet, exact_details, exact_details_on_sheet, signed_area};
pub use correction::{put, put_on_sheet, take, take_on_sheet, Correction};
pub use curve::{build_curves, chords, put_curves, take_curves, Curve, Curves, Site};
pub use edge::{Bend, Cell, Edge, Fraction, Profile};
pub use exact::{Exact, Miss};
pub use frame::{frame, tile_program, Frame};
pub use picture::{cell, figures, greys, pyramid};
pub use placement::{placed, Placement};
pub use questions::{Limits, Question};
pub use rules::{Rules, Spec};
pub use sheet::{build_on_sheet, SheetTile};
pub use table::{build, build_placed};

/// A full pixel's area: the unit is half a square step and a pixel is 256
/// steps each way, so 2 × 256 × 256.
pub const PIXEL: i64 = 2 * STEPS * STEPS;

/// "A step is 1/256 pixel."
pub const STEPS: i64 = 256;

/// "Every float handed in must be a multiple of 1/65,536": this many such
/// parts are one.
pub const PARTS: i128 = 65_536;

/// The grey of full ink; 0 is bare paper.
pub const FULL_GREY: u8 = 255;

/// A fixed row of pseudo-random numbers, each from 0 up to below what is asked.
#[cfg(test)]
fn randoms(mut seed: u64) -> impl FnMut(i128) -> i128 {
    move |below| {
        seed = seed.wrapping_mul(6_364_136_223_846_793_005).wrapping_add(1_442_695_040_888_963_407);
        i128::from(seed >> 20) % below
    }
}

//! 01's rules and those of 02's P1, P3, P4, P5 and P6, one small method each.

use crate::correction::Correction;
use crate::curve::Curve;
use crate::edge::{Cell, Edge, Fraction, Profile};
use crate::exact::Exact;
use crate::placement::{in_parts, Placement};
use crate::questions::{is_side, Limits, Question};
use crate::sheet::SheetTile;
use crate::{FULL_GREY, PARTS, PIXEL, STEPS};

/// The rules of 01 and of 02's P1, P3, P4, P5 and P6 that are easily got wrong.
/// Each default body is the papers' rule; a wrong variant overrides one of them.
pub trait Rules {
    /// The questions for building, in order: 1, 2, 4, 5, 3, 12, 6.
    fn building(&self) -> Vec<Question> {
        use Question::*;
        vec![Side, TableLength, EachCount, CountSum, PointsLength, Placing, Coordinates]
    }

    /// The questions for pictures and greys, in order: 1, 2, 7, 8, 9.
    fn picture(&self) -> Vec<Question> {
        use Question::*;
        vec![Side, TableLength, Level, Places, Entries]
    }

    /// The questions for the greys of every level, in order: 1, 2, 8, 9.
    fn every_level(&self) -> Vec<Question> {
        use Question::*;
        vec![Side, TableLength, Places, Entries]
    }

    /// The levels of a tile of this depth, in the order of their pictures.
    fn levels(&self, depth: u32) -> Vec<u32> {
        (0..=depth).collect()
    }

    /// How many places they have.
    fn all_places(&self, depth: u32) -> u128 {
        (0..=depth).map(|level| 1 << (2 * level)).sum()
    }

    /// The questions for one cell, in order: 1, 2, 7, 10, 9.
    fn one_cell(&self) -> Vec<Question> {
        use Question::*;
        vec![Side, TableLength, Level, CellNumbers, Entries]
    }

    /// The questions for putting a contour in, in order: 1, 2, 4, 5, 3, 12, 6, 9.
    fn putting(&self) -> Vec<Question> {
        use Question::*;
        vec![Side, TableLength, EachCount, CountSum, PointsLength, Placing, Coordinates, Entries]
    }

    /// The questions for taking a contour out, in order: 1, 2, 4, 5, 3, 12, 6,
    /// 13, 9. 13 comes "after 6 and before 9."
    fn taking(&self) -> Vec<Question> {
        use Question::*;
        vec![Side, TableLength, EachCount, CountSum, PointsLength, Placing, Coordinates, EnoughRecorded, Entries]
    }

    /// The questions of a call on a sheet, from those of the same call without
    /// one: 14 comes "in place of 1", and 15 "right after it."
    fn on_sheet(&self, order: &[Question]) -> Vec<Question> {
        use Question::*;
        let replaced = |&question: &Question| match question {
            Side => vec![SheetSides, TilePlace],
            other => vec![other],
        };
        order.iter().flat_map(replaced).collect()
    }

    /// The questions of a call with marks, from those of the same call without
    /// them: 16 comes "after 4 and before 3", and 5 "comes right after 6, before
    /// 13." It is applied before [`on_sheet`](Rules::on_sheet) is.
    fn with_marks(&self, order: &[Question]) -> Vec<Question> {
        use Question::*;
        let replaced = |&question: &Question| match question {
            EachCount => vec![EachCount, Marks],
            CountSum => vec![],
            Coordinates => vec![Coordinates, CountSum],
            other => vec![other],
        };
        order.iter().flat_map(replaced).collect()
    }

    /// The limits that the questions compare with.
    fn limits(&self) -> Limits {
        Limits::SPEC
    }

    /// The point that point `i` of a contour of `count` points is joined to.
    /// "Its last point joins its first."
    fn joined_to(&self, i: usize, count: usize) -> Option<usize> {
        Some((i + 1) % count)
    }

    /// A contour's edges as building has them: those that were traced, the way
    /// they were traced. Of wrong-handed tracing too, "no table moves."
    fn traced(&self, contour: Vec<Edge>) -> Vec<Edge> {
        contour
    }

    /// "The distance from x to the cell's nearer upright side", 0 outside the
    /// cell, as a function of x. With x and y exchanged it serves v as well.
    fn distance(&self, left: i64, width: i64) -> Profile {
        Profile::nearer_side(left, width)
    }

    /// "v is minus the same with x and y exchanged."
    fn v_sign(&self) -> i128 {
        -1
    }

    /// "To the nearest whole unit, halves away from zero."
    fn round(&self, value: Fraction) -> i64 {
        let nearest = (2 * value.num.abs() + value.den) / (2 * value.den);
        (value.num.signum() * nearest) as i64
    }

    /// A table entry from its edges' exact values: "each edge's three values
    /// are rounded on their own", then summed.
    fn entry(&self, values: &[Fraction]) -> i64 {
        values.iter().map(|&value| self.round(value)).sum()
    }

    /// A quarter's figure from the figure of its parent, a cell of level `j`,
    /// and `details`, the parent's ± h ± v ± d with that quarter's signs.
    fn quarter(&self, parent: i64, j: u32, details: i64) -> i64 {
        parent + 4i64.pow(j) * details
    }

    /// A cell's figure as it is answered, in a picture or alone: as it was
    /// worked out, below zero too. 02's P4: "no figure [...] moves."
    fn answered(&self, figure: i64) -> i64 {
        figure
    }

    /// 02's P4: "from now on a grey is that of the figure's magnitude", by 01's
    /// rule, "255 × figure / (131,072 × side × side) [...] rounded to the nearest
    /// whole number, halves up, then held between 0 and 255." The magnitude
    /// comes first: half a grey below zero is 1, as half a grey above it is.
    fn grey(&self, figure: i64, side: u32) -> u8 {
        held(nearest_grey(i128::from(figure).abs(), side))
    }

    /// The grey of a cell in a tile with this root: that of its figure, whatever
    /// sign the root has.
    fn grey_of_cell(&self, figure: i64, _root: i64, side: u32) -> u8 {
        self.grey(figure, side)
    }

    /// "The grey of the exact area, taken the same way": see [`Exact::grey`].
    fn exact_grey(&self, area: &Exact, side: u32, level: u32) -> u8 {
        area.grey(side, level)
    }

    /// Whether the points are "points to be moved". Every placement but none
    /// moves them, also one that leaves them where they are.
    fn moves_points(&self, placement: Placement) -> bool {
        !matches!(placement, Placement::None)
    }

    /// Whether question 12 is about the floats. It always is: a float outside
    /// the rules is refused where there is no point as well.
    fn asks_floats(&self, _points: &[i64]) -> bool {
        true
    }

    /// A placement as a turn's a, b, c, d, e and f. A shift's two numbers are
    /// offsets, and "a scale's number is a factor on both coordinates."
    fn turn(&self, placement: Placement) -> [f64; 6] {
        match placement {
            Placement::None => [1.0, 0.0, 0.0, 0.0, 1.0, 0.0],
            Placement::Shift(c, f) => [1.0, 0.0, c, 0.0, 1.0, f],
            Placement::Scale(factor) => [factor, 0.0, 0.0, 0.0, factor, 0.0],
            Placement::Turn(turn) => turn,
        }
    }

    /// How many parts one has: "every float handed in must be a multiple of
    /// 1/65,536." The numbers of a placement are whole numbers of parts.
    fn parts(&self) -> i128 {
        PARTS
    }

    /// The number of parts that a float handed in is, if it lies from minus
    /// the limit to the limit, both ends allowed; none where it is refused. The
    /// limit is in 65,536ths.
    fn number(&self, float: f64, limit: i128) -> Option<i128> {
        let number = in_parts(float, self.parts())?;
        // |number| / parts ≤ limit / 65,536, multiplied out.
        (number.abs() * PARTS <= limit * self.parts()).then_some(number)
    }

    /// "Turned points are a × x + b × y + c and d × x + e × y + f", both of the
    /// point as it came.
    fn placed_point(&self, turn: [i128; 6], x: i128, y: i128) -> [i128; 2] {
        let [a, b, c, d, e, f] = turn;
        [self.placed_coordinate([a * x, b * y], c), self.placed_coordinate([d * x, e * y], f)]
    }

    /// A placed coordinate from its two products and its offset, all three in
    /// parts: "the result is rounded", and nothing before it.
    fn placed_coordinate(&self, products: [i128; 2], offset: i128) -> i128 {
        self.nearest_step(Fraction { num: products[0] + products[1] + offset, den: self.parts() })
    }

    /// "To the nearest step, halves towards the larger", below zero too.
    fn nearest_step(&self, value: Fraction) -> i128 {
        (2 * value.num + value.den).div_euclid(2 * value.den)
    }

    /// The points that question 6 is about, of those before they are moved and
    /// those placed: "6 is decided on the placed points."
    fn judged<'a>(&self, _before: &'a [i64], placed: &'a [i64]) -> &'a [i64] {
        placed
    }

    /// The edges that question 5 is about, of those the record counts and those
    /// of the contour: "for putting in, question 5 is whether the record's count
    /// plus the contour's is at most 1,024." For taking out it is 01's, of the
    /// contour alone.
    fn asked_edges(&self, correction: Correction, record: u32, edges: u128) -> u128 {
        match correction {
            Correction::PutIn => u128::from(record) + edges,
            Correction::TakeOut => edges,
        }
    }

    /// Question 13: "taking out more edges than the record counts gives 13", and
    /// taking out as many does not.
    fn enough_recorded(&self, record: u32, edges: u128) -> bool {
        edges <= u128::from(record)
    }

    /// The entries that question 9 is about: it "is decided on the table before
    /// the call and on the one it would leave", and on the whole of both.
    fn asked_entries(&self, _correction: Correction, before: &[i64], after: &[i128]) -> Vec<i128> {
        before.iter().map(|&entry| entry.into()).chain(after.iter().copied()).collect()
    }

    /// The points of the contour, of those that came and those placed: "the
    /// contour is the points as placed", for taking out as well.
    fn corrected_points<'a>(&self, _correction: Correction, _before: &'a [i64], placed: &'a [i64]) -> &'a [i64] {
        placed
    }

    /// The edges whose values are added or subtracted, of all the contour's, the
    /// closing one last: all of them, for taking out as well.
    fn corrected_edges(&self, _correction: Correction, edges: Vec<Edge>) -> Vec<Edge> {
        edges
    }

    /// An entry after the call, from what it was and the contour's value:
    /// "putting in adds a contour's rounded values to the table; taking out is
    /// its inverse."
    fn changed(&self, correction: Correction, entry: i128, value: i128) -> i128 {
        match correction {
            Correction::PutIn => entry + value,
            Correction::TakeOut => entry - value,
        }
    }

    /// The record after the call, from what it was and the contour's count.
    /// Questions 5 and 13 see to it that 32 bits hold it. For calls that are
    /// refused it goes round at their end, and is not kept.
    fn recorded(&self, correction: Correction, record: u32, count: u32) -> u32 {
        match correction {
            Correction::PutIn => record.wrapping_add(count),
            Correction::TakeOut => record.wrapping_sub(count),
        }
    }

    /// The record that a refused call leaves, of the one before it and the one
    /// there would be if it were done: "a refused call changes nothing."
    fn refused_record(&self, _number: u8, before: u32, _after: u32) -> u32 {
        before
    }

    /// The table that a refused call leaves, likewise.
    fn refused_table(&self, _number: u8, before: &[i64], _after: &[i128]) -> Vec<i64> {
        before.to_vec()
    }

    /// Question 14: "a sheet of side up to 128 pixels, a power of two", a tile
    /// "of side up to 32", which is a power of two as every tile's is, and not
    /// "a tile larger than the sheet."
    fn are_sheet_sides(&self, place: SheetTile) -> bool {
        let limits = self.limits();
        is_side(place.sheet, limits.greatest_sheet)
            && is_side(place.side, limits.greatest_on_sheet)
            && place.side <= place.sheet
    }

    /// Question 15: the tile's far sides are on the sheet. 64 bits hold the
    /// product of any two numbers of 32 bits, and of a number one greater.
    fn is_on_sheet(&self, place: SheetTile) -> bool {
        let far = |number: u32| (u64::from(number) + 1) * u64::from(place.side);
        far(place.column) <= place.sheet.into() && far(place.row) <= place.sheet.into()
    }

    /// The side that question 2 reads: the table is the tile's.
    fn table_side(&self, place: SheetTile) -> u32 {
        place.side
    }

    /// "Question 6 reads the sheet's side."
    fn coordinate_side(&self, place: SheetTile) -> u32 {
        place.sheet
    }

    /// The tile's square on the sheet: "at a given place in whole tiles."
    fn square(&self, place: SheetTile) -> Cell {
        let width = STEPS * i64::from(place.side);
        Cell { left: width * i64::from(place.column), top: width * i64::from(place.row), width }
    }

    /// The root of a tile of a sheet, from all edges of the outline: each one's
    /// exact part of the tile's area, and "the root is now rounded for each edge
    /// too."
    fn sheet_root(&self, edges: &[Edge], place: SheetTile) -> i64 {
        let tile = self.square(place);
        edges.iter().map(|edge| self.round(edge.area(tile))).sum()
    }

    /// Whether a number is a mark: "0 straight or 1 curved [...]. Another mark
    /// [...] gives 16."
    fn is_mark(&self, mark: u8) -> bool {
        mark <= 1
    }

    /// Whether an edge of this mark is curved.
    fn is_curved(&self, mark: u8) -> bool {
        mark == 1
    }

    /// Whether there is a mark "for each edge": "not one mark an edge gives 16."
    fn are_enough_marks(&self, marks: u128, edges: u128) -> bool {
        marks == edges
    }

    /// Which mark is a contour's first, with so many edges in the contours before
    /// it: the marks go on where those of the contour before ended.
    fn first_mark(&self, before: u128) -> u128 {
        before
    }

    /// How many numbers an edge has: "3 wants two numbers for a straight edge, its
    /// start, and four for a curved one."
    fn wanted_numbers(&self, mark: u8) -> usize {
        if self.is_curved(mark) {
            4
        } else {
            2
        }
    }

    /// A curved edge's two points in the order in which they came: "its start and
    /// then its control point."
    fn start_and_control(&self, points: [[i64; 2]; 2]) -> [[i64; 2]; 2] {
        points
    }

    /// "6 covers control points."
    fn coordinates_cover_controls(&self) -> bool {
        true
    }

    /// Control points are points to be moved as the others are, and so question 12
    /// covers them too.
    fn placing_covers_controls(&self) -> bool {
        true
    }

    /// A control point, of the one that came and the one placed: "a placement moves
    /// control points like the other points."
    fn placed_control(&self, _before: [i64; 2], placed: [i64; 2]) -> [i64; 2] {
        placed
    }

    /// Whether the chords are made first and then placed. The points are placed
    /// "before the chords are made."
    fn chords_first(&self) -> bool {
        false
    }

    /// Whether edge `i` of `count` may be curved. Every one may, the last one too,
    /// which ends at the contour's first point.
    fn bends(&self, _i: usize, _count: usize) -> bool {
        true
    }

    /// Whether "neither coordinate of p0 − 2 × p1 + p2 exceeds 4 × 4^k in
    /// magnitude."
    fn is_flat(&self, [x, y]: [i128; 2], k: u32) -> bool {
        let most = 4 * 4i128.pow(k);
        x.abs() <= most && y.abs() <= most
    }

    /// k of a curve: "the least from 0 to 7 for which" it is flat. There is one
    /// where every coordinate is from 0 to 32,768. Elsewhere, where question 6
    /// refuses, 7 is taken so that question 5 has an answer.
    fn halvings(&self, curve: Curve) -> u32 {
        let (difference, most) = (curve.second_difference(), self.limits().most_halvings);
        (0..most).find(|&k| self.is_flat(difference, k)).unwrap_or(most)
    }

    /// The point of a curve that is the end of `i` of its `n` chords: they are "at
    /// equal parameter steps."
    fn curve_point(&self, curve: Curve, i: i128, n: i128) -> [Fraction; 2] {
        curve.at(i, n)
    }

    /// "Chord ends are rounded to the nearest step, halves towards the larger."
    fn chord_end(&self, value: Fraction) -> i128 {
        (2 * value.num + value.den).div_euclid(2 * value.den)
    }

    /// The ends of a curve's 2^k chords, from its start to its end.
    fn chord_ends(&self, curve: Curve, k: u32) -> Vec<[i64; 2]> {
        let n = 1 << k;
        // A point of the curve lies between the three points that it is made of.
        let rounded = |i| self.curve_point(curve, i, n).map(|value| self.chord_end(value) as i64);
        (0..=n).map(rounded).collect()
    }

    /// The chords of a curve: from each of their ends to the next, up to the
    /// curve's end.
    fn chords_between(&self, ends: &[[i64; 2]]) -> Vec<Edge> {
        let chord = |two: &[[i64; 2]]| Edge { x0: two[0][0], y0: two[0][1], x1: two[1][0], y1: two[1][1] };
        ends.windows(2).map(chord).collect()
    }

    /// The edges that question 5 sums up, of those that are marked and the chords:
    /// "5 counts chords."
    fn summed_edges(&self, _marked: u128, chords: u128) -> u128 {
        chords
    }

    /// The edges that question 13 compares with the record, likewise: "edge counts
    /// [...] are then those of the chords."
    fn taken_edges(&self, _marked: u128, chords: u128) -> u128 {
        chords
    }

    /// The edges that a correction counts in the record, likewise.
    fn recorded_edges(&self, _marked: u32, chords: u32) -> u32 {
        chords
    }

    /// The edge count that building answers, likewise.
    fn answered_edges(&self, _marked: u32, chords: u32) -> u32 {
        chords
    }
}

/// 01, and 02's P1, P3, P4, P5 and P6, as they stand.
#[derive(Clone, Copy, Debug, Default)]
pub struct Spec;

impl Rules for Spec {}

/// 255 × figure / (131,072 × side × side) to the nearest whole number, halves
/// up, not yet held between 0 and 255.
pub(crate) fn nearest_grey(figure: i128, side: u32) -> i128 {
    nearest_of_twice(2 * i128::from(FULL_GREY) * figure, side)
}

/// The whole number nearest to x / (131,072 × side × side), halves up, from the
/// floor of 2 x: with f the full figure it is floor((2 x + f) / 2 f), which does
/// not see what 2 x has beyond its floor.
pub(crate) fn nearest_of_twice(twice: i128, side: u32) -> i128 {
    (twice + full(side)).div_euclid(2 * full(side))
}

/// The figure of a cell that is full of ink: 131,072 × side × side.
pub(crate) fn full(side: u32) -> i128 {
    i128::from(PIXEL) * i128::from(side) * i128::from(side)
}

/// "Then held between 0 and 255."
pub(crate) fn held(grey: i128) -> u8 {
    grey.clamp(0, FULL_GREY.into()) as u8
}

//! Curved edges, and the chords that stand for them.
//!
//! 02's P6 lets a contour hold quadratic Bézier curves, "two ends and a control
//! point, with a mark, 0 straight or 1 curved, for each edge." A curve is taken
//! here by its definition, de Casteljau's: at the parameter t, go the t-th part
//! of the way from the start to the control point and from there to the end, and
//! then the t-th part of the way from the one point to the other. All of it is
//! whole numbers over n × n where there are n parameter steps.
//!
//! What is drawn is the outline of the chords, which has straight edges alone:
//! "edge counts and closeness are then those of the chords." So tables, roots and
//! exact areas need nothing new. [`chords`] is that outline.

use crate::correction::{correct, Correction};
use crate::edge::{Edge, Fraction};
use crate::placement::{moved, Placement};
use crate::questions::Given;
use crate::rules::{Rules, Spec};
use crate::sheet::{worked_on_sheet, SheetTile};
use crate::table::worked;

/// What a call with marks draws into: a tile alone, of this side, or a tile of a
/// sheet.
#[derive(Clone, Copy, Debug, PartialEq, Eq)]
pub enum Site {
    /// A tile alone, with its side.
    Alone(u32),
    /// A tile of a sheet.
    OnSheet(SheetTile),
}

impl Site {
    /// The tile's side.
    pub fn side(self) -> u32 {
        match self {
            Site::Alone(side) => side,
            Site::OnSheet(place) => place.side,
        }
    }
}

/// The points of an outline, or of a contour, whose edges are marked: x and y of
/// each edge's start and, where it is curved, of its control point after that.
#[derive(Clone, Copy, Debug, PartialEq, Eq)]
pub struct Curves<'a> {
    /// The coordinates.
    pub points: &'a [i64],
    /// 0 for a straight edge and 1 for a curved one, over all contours in order.
    pub marks: &'a [u8],
}

/// A curved edge: "two ends and a control point."
#[derive(Clone, Copy, Debug, PartialEq, Eq)]
pub struct Curve {
    /// p0, where it starts.
    pub start: [i64; 2],
    /// p1, its control point.
    pub control: [i64; 2],
    /// p2, where it ends.
    pub end: [i64; 2],
}

impl Curve {
    /// "p0 − 2 × p1 + p2", of x and of y.
    pub fn second_difference(self) -> [i128; 2] {
        [0, 1].map(|c| i128::from(self.start[c]) - 2 * i128::from(self.control[c]) + i128::from(self.end[c]))
    }

    /// Its point at the parameter `i` / `n`, from 0 to 1: x and y, each a whole
    /// number over n × n.
    pub fn at(self, i: i128, n: i128) -> [Fraction; 2] {
        // The i-th of n parts of the way between two numbers, times n.
        let between = |from: i128, to: i128| (n - i) * from + i * to;
        [0, 1].map(|c| {
            let [start, control, end] = [self.start, self.control, self.end].map(|point| i128::from(point[c]));
            Fraction { num: between(between(start, control), between(control, end)), den: n * n }
        })
    }
}

/// Builds the table of an outline with curved edges, placed first, of a tile
/// alone or of a tile of a sheet: the edge count, which is that of the chords, and
/// the table that building must leave, or the refusal's number. Of `table`, what
/// the caller's table holds before, only the length matters.
pub fn build_curves(
    rules: &dyn Rules,
    site: Site,
    curves: Curves,
    counts: &[u32],
    placement: Placement,
    table: &[i64],
) -> Result<(u32, Vec<i64>), u8> {
    let given = Given { table, ..given(site, curves, counts, placement) };
    given.ask(&rules.building(), rules)?;

    let edges = placed_chords(rules, placement, curves, counts).expect("an accepted outline has chords").concat();
    let answered = rules.answered_edges(counts.iter().sum(), edges.len() as u32);
    let table = match site {
        Site::Alone(side) => worked(rules, side, &edges),
        Site::OnSheet(place) => worked_on_sheet(rules, place, &edges),
    };
    Ok((answered, table))
}

/// Puts a contour of `count` edges, straight or curved, into the tile of `table`
/// and `record`, its edge count: as [`put`](crate::put), of the contour's chords.
pub fn put_curves(
    rules: &dyn Rules,
    site: Site,
    curves: Curves,
    count: u32,
    placement: Placement,
    record: &mut u32,
    table: &mut [i64],
) -> Result<(), u8> {
    correct(rules, Correction::PutIn, given(site, curves, &[count], placement), record, table)
}

/// Takes such a contour out again: as [`take`](crate::take), likewise.
pub fn take_curves(
    rules: &dyn Rules,
    site: Site,
    curves: Curves,
    count: u32,
    placement: Placement,
    record: &mut u32,
    table: &mut [i64],
) -> Result<(), u8> {
    correct(rules, Correction::TakeOut, given(site, curves, &[count], placement), record, table)
}

fn given<'a>(site: Site, curves: Curves<'a>, counts: &'a [u32], placement: Placement) -> Given<'a> {
    let place = match site {
        Site::Alone(_) => None,
        Site::OnSheet(place) => Some(place),
    };
    let Curves { points, marks } = curves;
    Given { side: site.side(), place, points, counts, marks: Some(marks), placement, ..Given::default() }
}

/// The outline of the chords: x and y of each chord's start, and how many chords
/// each contour has. It has straight edges alone, and is the one that demand 3
/// measures. The points are as placed.
///
/// It is meant for outlines whose questions 16 and 3 are answered yes. Other
/// input may panic.
pub fn chords(rules: &dyn Rules, curves: Curves, counts: &[u32]) -> (Vec<i64>, Vec<u32>) {
    let contours = placed_chords(rules, Placement::None, curves, counts).expect("fewer numbers than question 3 wants");
    let starts = contours.iter().flatten().flat_map(|chord| [chord.x0, chord.y0]).collect();
    (starts, contours.iter().map(|contour| contour.len() as u32).collect())
}

/// An edge as marked: its start, and its control point where it is curved.
struct Marked {
    start: [i64; 2],
    control: Option<[i64; 2]>,
}

/// How many numbers question 3 wants.
pub(crate) fn wanted(rules: &dyn Rules, counts: &[u32], marks: &[u8]) -> u128 {
    let (mut before, mut sum) = (0, 0);
    for &count in counts {
        let marks = marks_from(rules, marks, before);
        let marks = &marks[..marks.len().min(count as usize)];
        // An edge without a mark is as one marked 0; question 16 refuses it.
        let left_over = u128::from(count) - marks.len() as u128;
        sum += marks.iter().map(|&mark| rules.wanted_numbers(mark) as u128).sum::<u128>();
        sum += left_over * rules.wanted_numbers(0) as u128;
        before += u128::from(count);
    }
    sum
}

/// The marks from those of a contour on, of so many edges before it.
fn marks_from<'a>(rules: &dyn Rules, marks: &'a [u8], before: u128) -> &'a [u8] {
    let first = usize::try_from(rules.first_mark(before)).unwrap_or(usize::MAX);
    marks.get(first..).unwrap_or(&[])
}

/// The edges as marked, contour by contour: none where numbers are missing.
/// Numbers that are left over are left out.
fn split(rules: &dyn Rules, points: &[i64], counts: &[u32], marks: &[u8]) -> Option<Vec<Vec<Marked>>> {
    let (mut contours, mut rest, mut before) = (Vec::new(), points, 0);
    for &count in counts {
        let marks = marks_from(rules, marks, before);
        let mut contour = Vec::new();
        for i in 0..count as usize {
            let mark = marks.get(i).copied().unwrap_or(0);
            let (numbers, after) = rest.split_at_checked(rules.wanted_numbers(mark))?;
            rest = after;
            contour.push(match *numbers {
                [a, b, c, d] if rules.is_curved(mark) => {
                    let [start, control] = rules.start_and_control([[a, b], [c, d]]);
                    Marked { start, control: Some(control) }
                }
                _ => Marked { start: [numbers[0], numbers[1]], control: None },
            });
        }
        contours.push(contour);
        before += u128::from(count);
    }
    Some(contours)
}

/// The points without the control points, or all of them where numbers are
/// missing.
pub(crate) fn without_controls(rules: &dyn Rules, points: &[i64], counts: &[u32], marks: &[u8]) -> Vec<i64> {
    match split(rules, points, counts, marks) {
        Some(contours) => contours.iter().flatten().flat_map(|edge| edge.start).collect(),
        None => points.to_vec(),
    }
}

/// The chords of an outline as placed, contour by contour, a straight edge being
/// one: none where numbers are missing, or where a float is refused that would
/// place them.
pub(crate) fn placed_chords(
    rules: &dyn Rules,
    placement: Placement,
    curves: Curves,
    counts: &[u32],
) -> Option<Vec<Vec<Edge>>> {
    let Curves { points, marks } = curves;
    let before = split(rules, points, counts, marks)?;
    if rules.chords_first() {
        let contours = before.iter().map(|contour| contour_chords(rules, contour));
        return contours.map(|contour| placed_edges(rules, placement, &contour)).collect();
    }
    let mut placed = split(rules, &moved(rules, placement, points)?, counts, marks)?;
    for (edge, before) in placed.iter_mut().flatten().zip(before.iter().flatten()) {
        let both = before.control.zip(edge.control);
        edge.control = both.map(|(before, placed)| rules.placed_control(before, placed));
    }
    Some(placed.iter().map(|contour| contour_chords(rules, contour)).collect())
}

/// The chords of a contour.
fn contour_chords(rules: &dyn Rules, contour: &[Marked]) -> Vec<Edge> {
    let mut chords = Vec::new();
    for (i, edge) in contour.iter().enumerate() {
        let Some(next) = rules.joined_to(i, contour.len()) else {
            continue;
        };
        let (start, end) = (edge.start, contour[next].start);
        match edge.control.filter(|_| rules.bends(i, contour.len())) {
            Some(control) => {
                let curve = Curve { start, control, end };
                let ends = rules.chord_ends(curve, rules.halvings(curve));
                chords.append(&mut rules.chords_between(&ends));
            }
            None => chords.append(&mut Spec.chords_between(&[start, end])),
        }
    }
    rules.traced(chords)
}

/// Edges with both their ends moved.
fn placed_edges(rules: &dyn Rules, placement: Placement, edges: &[Edge]) -> Option<Vec<Edge>> {
    let ends: Vec<i64> = edges.iter().flat_map(|edge| [edge.x0, edge.y0, edge.x1, edge.y1]).collect();
    let placed = moved(rules, placement, &ends)?;
    Some(placed.chunks(4).map(|ends| Edge { x0: ends[0], y0: ends[1], x1: ends[2], y1: ends[3] }).collect())
}

#[cfg(test)]
mod tests {
    use super::*;
    use crate::randoms;

    /// Bernstein's form of the same curve, in whole numbers over n × n.
    #[test]
    fn points_agree_with_bernsteins_form() {
        let mut random = randoms(31);
        for _ in 0..2000 {
            let mut point = || [0; 2].map(|_: i64| random(32_769) as i64);
            let curve = Curve { start: point(), control: point(), end: point() };
            let n = 1 + random(128);
            let i = random(n + 1);
            for (c, value) in curve.at(i, n).into_iter().enumerate() {
                let [p0, p1, p2] = [curve.start[c], curve.control[c], curve.end[c]].map(i128::from);
                let bernstein = (n - i).pow(2) * p0 + 2 * i * (n - i) * p1 + i.pow(2) * p2;
                assert_eq!(value, Fraction { num: bernstein, den: n * n });
            }
            assert_eq!(curve.at(0, n).map(|x| x.num), curve.start.map(|x| i128::from(x) * n * n));
            assert_eq!(curve.at(n, n).map(|x| x.num), curve.end.map(|x| i128::from(x) * n * n));
        }
    }

    #[test]
    fn edges_of_two_contours() {
        // Straight, curved, straight; and curved at its end.
        let points = [1, 2, 3, 4, 5, 6, 7, 8, 10, 20, 30, 40, 50, 60, 70, 80, 9];
        let marks = [0, 1, 0, 0, 0, 1];
        let contours = split(&Spec, &points, &[3, 3], &marks).unwrap();
        let edges: Vec<_> = contours.iter().flatten().map(|edge| (edge.start, edge.control)).collect();
        let expected = [
            ([1, 2], None),
            ([3, 4], Some([5, 6])),
            ([7, 8], None),
            ([10, 20], None),
            ([30, 40], None),
            ([50, 60], Some([70, 80])),
        ];
        assert_eq!(edges, expected);
        assert_eq!(wanted(&Spec, &[3, 3], &marks), 16);
        assert_eq!(without_controls(&Spec, &points, &[3, 3], &marks), [1, 2, 3, 4, 7, 8, 10, 20, 30, 40, 50, 60]);
        // Numbers that are missing, and none of a list that is too short by far.
        assert!(split(&Spec, &points[..15], &[3, 3], &marks).is_none());
        assert!(split(&Spec, &[], &[u32::MAX; 3], &marks).is_none());
        assert_eq!(wanted(&Spec, &[u32::MAX; 3], &marks), 3 * 2 * u128::from(u32::MAX) + 2 * 2);
    }
}

//! Edges, and their exact integrals by antiderivatives.

use crate::rules::Rules;
use crate::STEPS;

/// An exact value: a whole number over a positive denominator, not reduced.
#[derive(Clone, Copy, Debug, PartialEq, Eq)]
pub struct Fraction {
    /// The numerator; 01 bounds an edge value's by 2^57.
    pub num: i128,
    /// The denominator: of an edge value |dx| × |dy| of the edge, or 1 where
    /// either is 0; of a placed coordinate 65,536.
    pub den: i128,
}

/// A square cell of a tile, or the tile itself, in steps.
#[derive(Clone, Copy, Debug, PartialEq, Eq)]
pub struct Cell {
    /// x of its left side.
    pub left: i64,
    /// y of its upper side.
    pub top: i64,
    /// Its width, which is its height as well.
    pub width: i64,
}

impl Cell {
    /// Cell (cx, cy) of a level of a tile that lies at no place on a sheet; the
    /// level is at most the depth of the side.
    pub fn of(side: u32, level: u32, cx: u32, cy: u32) -> Cell {
        Cell { left: 0, top: 0, width: STEPS * i64::from(side) }.part(level, cx, cy)
    }

    /// Cell (cx, cy) of a level of the tile that this is.
    pub fn part(self, level: u32, cx: u32, cy: u32) -> Cell {
        let width = self.width >> level;
        Cell { left: self.left + width * i64::from(cx), top: self.top + width * i64::from(cy), width }
    }
}

/// A place where the slope of a [`Profile`] changes, and by how much.
#[derive(Clone, Copy, Debug, PartialEq, Eq)]
pub struct Bend {
    /// The place.
    pub at: i64,
    /// New slope less old slope.
    pub turn: i64,
}

/// A function of x made of straight pieces, 0 left of its first bend: the sum
/// of turn × max(x − at, 0) over its bends.
#[derive(Clone, Debug, PartialEq, Eq)]
pub struct Profile {
    bends: Vec<Bend>,
    /// Where its first and its last bend are.
    first: i64,
    last: i64,
    /// The value right of the last bend, where it is the same all the way.
    right: Option<i128>,
}

impl Profile {
    /// The function with these bends, given from left to right; at least one.
    pub fn new(bends: Vec<Bend>) -> Profile {
        assert!(!bends.is_empty() && bends.windows(2).all(|two| two[0].at <= two[1].at));
        let slope: i64 = bends.iter().map(|bend| bend.turn).sum();
        let value: i64 = bends.iter().map(|bend| -bend.turn * bend.at).sum();
        let right = (slope == 0).then_some(i128::from(value));
        Profile { first: bends[0].at, last: bends[bends.len() - 1].at, bends, right }
    }

    /// "How far x lies past the cell's left side, held between 0 and the
    /// cell's width."
    pub fn past_left(left: i64, width: i64) -> Profile {
        let bend = |at, turn| Bend { at, turn };
        Profile::new(vec![bend(left, 1), bend(left + width, -1)])
    }

    /// The distance from x to the nearer of the two sides, 0 outside them.
    pub fn nearer_side(left: i64, width: i64) -> Profile {
        let bend = |at, turn| Bend { at, turn };
        Profile::new(vec![bend(left, 1), bend(left + width / 2, -2), bend(left + width, 1)])
    }

    /// f(x) at a whole x.
    fn value(&self, x: i128) -> i128 {
        let ramp = |bend: &Bend| i128::from(bend.turn) * (x - i128::from(bend.at)).max(0);
        self.bends.iter().map(ramp).sum()
    }

    /// 2 F(x) × run², where x is `scaled` over `run`.
    fn twice_antiderivative(&self, scaled: i128, run: i128) -> i128 {
        let ramp = |bend: &Bend| {
            let past = (scaled - i128::from(bend.at) * run).max(0);
            i128::from(bend.turn) * past * past
        };
        self.bends.iter().map(ramp).sum()
    }

    /// Whether f is 0 for every x from `low` to `high`, both left of its bends
    /// or both right of them.
    fn is_zero(&self, low: i64, high: i64) -> bool {
        high <= self.first || (low >= self.last && self.right == Some(0))
    }
}

/// An edge, from its first point to its second, in steps.
#[derive(Clone, Copy, Debug, PartialEq, Eq)]
pub struct Edge {
    /// x of the first point.
    pub x0: i64,
    /// y of the first point.
    pub y0: i64,
    /// x of the second point.
    pub x1: i64,
    /// y of the second point.
    pub y1: i64,
}

impl Edge {
    /// The shoelace term x0 × y1 − x1 × y0: the edge's part of the signed area
    /// in units.
    pub fn shoelace(self) -> i64 {
        self.x0 * self.y1 - self.x1 * self.y0
    }

    /// The edge from its second point to its first.
    pub(crate) fn turned(self) -> Edge {
        Edge { x0: self.x1, y0: self.y1, x1: self.x0, y1: self.y0 }
    }

    /// The edge with x and y exchanged.
    pub fn exchanged(self) -> Edge {
        Edge { x0: self.y0, y0: self.x0, x1: self.y1, y1: self.x1 }
    }

    /// The denominator of all the edge's values.
    pub fn denominator(self) -> i128 {
        let product = i128::from(self.x1 - self.x0) * i128::from(self.y1 - self.y0);
        product.abs().max(1)
    }

    /// The stretch of the edge between two heights, none if it has no height.
    pub(crate) fn between(self, top: i64, bottom: i64) -> Option<Stretch> {
        let start_y = self.y0.clamp(top, bottom);
        let end_y = self.y1.clamp(top, bottom);
        if start_y == end_y {
            return None;
        }
        let dx = i128::from(self.x1 - self.x0);
        let dy = i128::from(self.y1 - self.y0);
        let run = dy.abs();
        // x = x0 + dx (y − y0) / dy, times |dy|.
        let scaled = |y: i64| i128::from(self.x0) * run + dx * i128::from(y - self.y0) * dy.signum();
        Some(Stretch {
            start: scaled(start_y),
            end: scaled(end_y),
            run,
            fall: i128::from(end_y - start_y),
            sign: dx.signum() * dy.signum(),
            den: self.denominator(),
        })
    }

    /// Twice the integral of f over dy along the edge between two heights,
    /// times the edge's denominator.
    fn twice_integral(self, f: &Profile, top: i64, bottom: i64) -> i128 {
        // Told from the ends of the edge alone in nearly all cells.
        if f.is_zero(self.x0.min(self.x1), self.x0.max(self.x1)) {
            return 0;
        }
        self.between(top, bottom).map_or(0, |stretch| stretch.twice_integral(f))
    }

    /// The edge's exact part of the area of a cell: "as y runs along it, take
    /// how far x lies past the cell's left side, held between 0 and the cell's
    /// width; sum that over the y that lie in the cell's rows, with the sign of
    /// the edge's run in y; [...] double it." An edge right of the cell has a
    /// part, one left of it, above it or below it has none.
    pub fn area(self, cell: Cell) -> Fraction {
        self.area_by(&Profile::past_left(cell.left, cell.width), cell)
    }

    /// As `area`, with another function for how far x lies past the left side.
    pub(crate) fn area_by(self, past_left: &Profile, cell: Cell) -> Fraction {
        let num = self.twice_integral(past_left, cell.top, cell.top + cell.width);
        Fraction { num, den: self.denominator() }
    }

    /// The exact h, v and d of the edge in a cell: "h is twice the integral,
    /// over dy inside the cell, of the distance from x to the cell's nearer
    /// upright side. v is minus the same with x and y exchanged. d is as h,
    /// with the sign turned in the lower half."
    pub fn details(self, rules: &dyn Rules, cell: Cell) -> [Fraction; 3] {
        let across = rules.distance(cell.left, cell.width);
        let down = rules.distance(cell.top, cell.width);
        self.details_by(rules.v_sign(), cell, &across, &down)
    }

    /// As `details`, with what does not depend on the edge worked beforehand.
    pub(crate) fn details_by(self, v_sign: i128, cell: Cell, across: &Profile, down: &Profile) -> [Fraction; 3] {
        let (left, top) = (cell.left, cell.top);
        let (right, bottom) = (left + cell.width, top + cell.width);
        let middle = top + cell.width / 2;
        let upper = self.twice_integral(across, top, middle);
        let lower = self.twice_integral(across, middle, bottom);
        let exchanged = self.exchanged().twice_integral(down, left, right);
        let den = self.denominator();
        [upper + lower, v_sign * exchanged, upper - lower].map(|num| Fraction { num, den })
    }

    /// Whether some part of the edge "lies strictly inside" a cell, as 02 says
    /// it. It does unless a line parts the two, along a side of the cell or
    /// along the edge: a cell without its sides and an edge are convex.
    pub fn comes_inside(self, cell: Cell) -> bool {
        let Edge { x0, y0, x1, y1 } = self;
        let (right, bottom) = (cell.left + cell.width, cell.top + cell.width);
        let beside = x0.max(x1) <= cell.left || right <= x0.min(x1);
        let off = y0.max(y1) <= cell.top || bottom <= y0.min(y1);
        if beside || off {
            return false;
        }
        // A single point has no line of its own.
        let (dx, dy) = (i128::from(x1 - x0), i128::from(y1 - y0));
        let side = |(x, y): (i64, i64)| dx * i128::from(y - y0) - dy * i128::from(x - x0);
        let corners = [(cell.left, cell.top), (right, cell.top), (cell.left, bottom), (right, bottom)].map(side);
        (dx, dy) == (0, 0) || (corners.iter().any(|&side| side < 0) && corners.iter().any(|&side| side > 0))
    }
}

/// The stretch of an edge between two heights.
pub(crate) struct Stretch {
    /// x where it starts and where it ends, times `run`.
    start: i128,
    end: i128,
    /// |dy| of the whole edge.
    run: i128,
    /// y at its end less y at its start.
    fall: i128,
    /// The sign of dy/dx, 0 for an upright edge.
    sign: i128,
    /// The edge's denominator.
    pub den: i128,
}

impl Stretch {
    /// Twice the integral of f over dy along the stretch, times `den`.
    pub fn twice_integral(&self, f: &Profile) -> i128 {
        if self.start.max(self.end) <= i128::from(f.first) * self.run {
            return 0; // f is 0 there
        }
        if let Some(constant) = f.right {
            if self.start.min(self.end) >= i128::from(f.last) * self.run {
                return 2 * constant * self.fall * self.den;
            }
        }
        if self.sign == 0 {
            // Upright: x is whole and the denominator is 1.
            return 2 * f.value(self.start / self.run) * self.fall;
        }
        // (dy/dx) × (2 F(end) − 2 F(start)): the run² below 2 F leaves
        // |dx| × |dy| once it has met dy/dx.
        let end = f.twice_antiderivative(self.end, self.run);
        let start = f.twice_antiderivative(self.start, self.run);
        self.sign * (end - start)
    }
}

/// The edges of an outline, contour by contour: "a contour is the run of
/// points that begins where the one before ended."
pub(crate) fn edges(rules: &dyn Rules, points: &[i64], counts: &[u32]) -> Vec<Edge> {
    let mut edges = Vec::new();
    let mut rest = points;
    for &count in counts {
        let (points, after) = rest.split_at(2 * count as usize);
        rest = after;
        let mut contour = Vec::new();
        for i in 0..count as usize {
            if let Some(next) = rules.joined_to(i, count as usize) {
                let (x0, y0) = (points[2 * i], points[2 * i + 1]);
                let (x1, y1) = (points[2 * next], points[2 * next + 1]);
                contour.push(Edge { x0, y0, x1, y1 });
            }
        }
        edges.append(&mut rules.traced(contour));
    }
    edges
}

#[cfg(test)]
mod tests {
    use super::*;
    use crate::randoms;
    use crate::rules::Spec;

    /// Twice the integral of f over dy along an edge between two heights by
    /// adding up slices: with |dx| × |dy| equal slices every bend and every
    /// height falls between two of them, so the value at a slice's middle is
    /// its mean. `f` is given x × scale and the scale, and gives f × scale.
    fn by_slices(edge: Edge, top: i64, bottom: i64, f: impl Fn(i64, i64) -> i64) -> Fraction {
        let (dx, dy) = (edge.x1 - edge.x0, edge.y1 - edge.y0);
        let slices = dx.abs().max(1) * dy.abs().max(1);
        let scale = 2 * slices;
        let mut sum = 0;
        for i in 0..slices {
            let x = edge.x0 * scale + dx * (2 * i + 1);
            let y = edge.y0 * scale + dy * (2 * i + 1);
            if top * scale < y && y < bottom * scale {
                sum += f(x, scale) * dy;
            }
        }
        Fraction { num: i128::from(2 * sum), den: i128::from(scale * slices) }
    }

    fn same(a: Fraction, b: Fraction) -> bool {
        a.num * b.den == b.num * a.den
    }

    #[test]
    fn integrals_agree_with_slices() {
        let mut numbers = randoms(1);
        let mut random = |below: i64| numbers(below.into()) as i64;
        let mut fractions = 0;
        for _ in 0..4000 {
            let edge = Edge { x0: random(25), y0: random(25), x1: random(25), y1: random(25) };
            let width = 2 * (1 + random(6));
            let cell = Cell { left: random(16), top: random(16), width };
            let Cell { left, top, .. } = cell;
            let (right, middle, bottom) = (left + width, top + width / 2, top + width);

            let past_left = |x: i64, s: i64| (x - left * s).clamp(0, width * s);
            let area = edge.area(cell);
            assert!(same(area, by_slices(edge, top, bottom, past_left)), "area of {edge:?} in {cell:?}");
            fractions += usize::from(area.num % area.den != 0);

            let nearer = |low: i64, high: i64| move |x: i64, s: i64| (x - low * s).min(high * s - x).max(0);
            let h = by_slices(edge, top, bottom, nearer(left, right));
            let upper = by_slices(edge, top, middle, nearer(left, right));
            let lower = by_slices(edge, middle, bottom, nearer(left, right));
            let v = by_slices(edge.exchanged(), left, right, nearer(top, bottom));
            let details = edge.details(&Spec, cell);
            assert!(same(details[0], h), "h of {edge:?} in {cell:?}");
            assert!(same(details[1], Fraction { num: -v.num, ..v }), "v of {edge:?} in {cell:?}");
            let d = Fraction { num: upper.num - lower.num, ..upper };
            assert!(same(details[2], d), "d of {edge:?} in {cell:?}");
        }
        assert!(fractions > 500, "too few edges with a true fraction: {fractions}");
    }

    /// Between two of |dx| × |dy| equal slices' ends no side of a cell is
    /// crossed, so some part lies inside where the middle of some slice does.
    #[test]
    fn parts_inside_agree_with_slices() {
        let mut numbers = randoms(2);
        let mut random = |below: i64| numbers(below.into()) as i64;
        let mut inside = 0;
        for _ in 0..4000 {
            let reach = 1 + random(25);
            let edge = Edge { x0: random(reach), y0: random(reach), x1: random(reach), y1: random(reach) };
            let cell = Cell { left: random(16), top: random(16), width: 2 * random(6) };
            let (dx, dy) = (edge.x1 - edge.x0, edge.y1 - edge.y0);
            let slices = dx.abs().max(1) * dy.abs().max(1);
            let within = |at: i64, low: i64| {
                let scale = 2 * slices;
                low * scale < at && at < (low + cell.width) * scale
            };
            let middle = |i: i64| {
                let at = |from: i64, run: i64| from * 2 * slices + run * (2 * i + 1);
                within(at(edge.x0, dx), cell.left) && within(at(edge.y0, dy), cell.top)
            };
            let expected = (0..slices).any(middle);
            assert_eq!(edge.comes_inside(cell), expected, "{edge:?} in {cell:?}");
            inside += usize::from(expected);
        }
        assert!(inside > 500 && inside < 3500, "{inside} of 4,000 edges come inside");
    }

    #[test]
    fn halves_go_away_from_zero() {
        let rounded = |num, den| Spec.round(Fraction { num, den });
        assert_eq!([rounded(1, 2), rounded(-1, 2), rounded(3, 2), rounded(-3, 2)], [1, -1, 2, -2]);
        assert_eq!([rounded(4, 10), rounded(-4, 10), rounded(6, 10), rounded(-6, 10)], [0, 0, 1, -1]);
        assert_eq!([rounded(0, 7), rounded(21, 7), rounded(-21, 7)], [0, 3, -3]);
    }

    #[test]
    fn values_that_01_names() {
        let cell = Cell::of(2, 0, 0, 0);
        // F: 298 2/3, all of it the slanted edge's.
        let f = Edge { x0: 0, y0: 0, x1: 384, y1: 1 };
        assert!(same(f.details(&Spec, cell)[0], Fraction { num: 896, den: 3 }));
        // G: the slanted edge's h is 509 1/2, rounded to 510.
        let g = Edge { x0: 255, y0: 0, x1: 259, y1: 1 };
        let h = g.details(&Spec, cell)[0];
        assert!(same(h, Fraction { num: 1019, den: 2 }));
        assert_eq!(Spec.round(h), 510);
    }
}

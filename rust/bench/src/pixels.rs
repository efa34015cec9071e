//! Pixel by pixel: the exact area of each pixel as the scope defines it, over every edge in turn, without a table. For each edge, as y runs
//! along it, how far x lies past the pixel's left side, held between 0 and the pixel's width, is summed over the y in the pixel's rows, with
//! the sign of the edge's run; the edges are added up, and the sum is doubled.
//!
//! What depends on the edge alone is worked out once. An edge that is not in the pixel's rows, or is wholly to its left or to its right,
//! is done with by comparisons. Edges are not sorted, by row or otherwise: every pixel asks every edge.

use crate::inputs::{Outline, STEPS_PER_PIXEL};

/// A pixel's width, in steps.
const WIDTH: i32 = STEPS_PER_PIXEL as i32;

/// A full pixel's area, in units of half a square step.
const FULL: i64 = 2 * (WIDTH * WIDTH) as i64;

/// Full ink.
const INK: i64 = 255;

/// How many units of area a grey has, to the nearest.
pub const UNITS_PER_GREY: i64 = (FULL + INK / 2) / INK;

/// In what numbers an edge's part of an area is worked out.
#[derive(Clone, Copy, PartialEq, Debug)]
pub enum Arithmetic {
    /// Floats of 64 bits, and no division but two for each edge.
    Floats,
    /// A whole number over |dx| × |dy|, divided to 1/2^32 of a unit, towards 0.
    WholeNumbers,
}

pub const ARITHMETICS: [Arithmetic; 2] = [Arithmetic::Floats, Arithmetic::WholeNumbers];

/// An edge that is not level, downwards. A level one has no y to sum over.
struct Edge {
    top: i32,
    bottom: i32,
    left: i32,
    right: i32,
    /// x at the top.
    x: i32,
    /// 1 if the edge runs downwards, and -1 if upwards.
    sign: f64,
    /// x per y.
    slope: f64,
    /// y per x; an upright edge has no use for it.
    inverse: f64,
}

impl Edge {
    fn new(from: [i64; 2], to: [i64; 2]) -> Option<Edge> {
        let [[x0, y0], [x1, y1]] =
            [from, to].map(|point| point.map(|c| i32::try_from(c).expect("points are on a tile")));
        if y0 == y1 {
            return None;
        }
        let (dx, dy) = (f64::from(x1 - x0), f64::from(y1 - y0));
        Some(Edge {
            top: y0.min(y1),
            bottom: y0.max(y1),
            left: x0.min(x1),
            right: x0.max(x1),
            x: if y0 < y1 { x0 } else { x1 },
            sign: dy.signum(),
            slope: dx / dy,
            inverse: dy / dx,
        })
    }
}

/// The steps that a pixel lies between.
#[derive(Clone, Copy)]
struct Pixel {
    left: i32,
    right: i32,
    top: i32,
    bottom: i32,
}

/// The part of an edge that lies in a pixel's rows, from top to bottom.
#[derive(Clone, Copy)]
struct Rows {
    top: i32,
    bottom: i32,
}

impl Pixel {
    fn at(left: i32, top: i32) -> Pixel {
        Pixel { left, right: left + WIDTH, top, bottom: top + WIDTH }
    }

    /// The area, or what an arithmetic has for it: the sum over all edges. Most have no part in it: they are not in the pixel's rows, or to its left.
    fn area<T: std::ops::AddAssign + Default>(self, edges: &[Edge], part: impl Fn(Pixel, &Edge, Rows) -> T) -> T {
        let mut sum = T::default();
        for edge in edges {
            if edge.top < self.bottom && self.top < edge.bottom && self.left < edge.right {
                let rows = Rows { top: edge.top.max(self.top), bottom: edge.bottom.min(self.bottom) };
                sum += part(self, edge, rows);
            }
        }
        sum
    }

    /// An edge's part of the area, in units.
    fn part(self, edge: &Edge, Rows { top, bottom }: Rows) -> f64 {
        const FAR: f64 = WIDTH as f64;
        let height = edge.sign * (f64::from(bottom) - f64::from(top));
        if edge.left >= self.right {
            return 2.0 * FAR * height;
        }
        // how far x lies past the left side
        let past =
            |y: i32| f64::from(edge.x) - f64::from(self.left) + (f64::from(y) - f64::from(edge.top)) * edge.slope;
        let (first, last) = (past(top), past(bottom));
        if edge.left >= self.left && edge.right <= self.right {
            return (first + last) * height;
        }
        // twice the integral, from 0 to x, of what is held between 0 and the width
        let held = |x: f64| {
            let within = x.clamp(0.0, FAR);
            within * (2.0 * x - within)
        };
        edge.sign * (held(last) - held(first)) * edge.inverse
    }

    /// The same in parts of a unit, of which there are 2^`FINE`.
    fn whole_part(self, edge: &Edge, Rows { top, bottom }: Rows) -> i64 {
        let (sign, width) = (edge.sign as i64, i64::from(WIDTH));
        let height = sign * i64::from(bottom - top);
        if edge.left >= self.right {
            return (2 * width * height) << FINE;
        }
        let (dx, dy) = (i64::from(edge.right - edge.left), i64::from(edge.bottom - edge.top));
        let past = i64::from(edge.x) - i64::from(self.left);
        if dx == 0 {
            return (2 * past * height) << FINE;
        }
        // to the right or to the left, as y grows
        let way = if edge.x == edge.left { 1 } else { -1 };
        // all that is along x is dy times as much
        let held = |y: i32| {
            let x = past * dy + way * dx * i64::from(y - edge.top);
            let within = x.clamp(0, width * dy);
            within * (2 * x - within)
        };
        let (numerator, denominator) = (way * sign * (held(bottom) - held(top)), dx * dy);
        let (whole, rest) = (numerator / denominator, numerator % denominator);
        (whole << FINE) + (rest << FINE) / denominator
    }
}

/// The bits of a part of a unit. What is cut off of 1,024 edges is less than 1/2^22 of a unit together, and a sum of as many full pixels has
/// 59 bits.
const FINE: u32 = 32;

/// How far the areas of the two arithmetics are apart, at most, in units. A test holds them to it.
pub const GREATEST_ERROR: f64 = 1e-3;

/// Memory for the edges, which is used again.
#[derive(Default)]
pub struct PixelByPixel {
    edges: Vec<Edge>,
}

impl PixelByPixel {
    /// Draws the deepest level: clears the picture, and writes the grey of each pixel's area.
    pub fn draw(&mut self, arithmetic: Arithmetic, outline: &Outline, picture: &mut [u8]) {
        self.take_edges(outline);
        picture.fill(0);
        match arithmetic {
            Arithmetic::Floats => self.draw_by(outline.side, picture, Pixel::part, grey),
            Arithmetic::WholeNumbers => self.draw_by(outline.side, picture, Pixel::whole_part, whole_grey),
        }
    }

    fn draw_by<T: std::ops::AddAssign + Default>(
        &self,
        side: u32,
        picture: &mut [u8],
        part: impl Fn(Pixel, &Edge, Rows) -> T,
        grey: impl Fn(T) -> u8,
    ) {
        let rows = picture.chunks_mut(side as usize).zip((0..).step_by(WIDTH as usize));
        for (row, top) in rows {
            for (place, left) in row.iter_mut().zip((0..).step_by(WIDTH as usize)) {
                *place = grey(Pixel::at(left, top).area(&self.edges, &part));
            }
        }
    }

    fn take_edges(&mut self, outline: &Outline) {
        self.edges.clear();
        let mut rest = &outline.points[..];
        for &count in &outline.counts {
            let (contour, others) = rest.split_at(2 * count as usize);
            let points = || contour.chunks(2).map(|point| [point[0], point[1]]);
            let next = points().skip(1).chain(points().take(1));
            self.edges.extend(points().zip(next).filter_map(|(from, to)| Edge::new(from, to)));
            rest = others;
        }
    }
}

/// The grey of an area's magnitude: to the nearest, halves up, held at full ink.
fn grey(area: f64) -> u8 {
    let (ink, full) = (INK as f64, FULL as f64);
    (ink * area.abs() / full + 0.5).floor().min(ink) as u8
}

fn whole_grey(area: i64) -> u8 {
    const ALL: i64 = FULL << FINE;
    let held = area.abs().min(ALL);
    ((INK * held + ALL / 2) / ALL) as u8
}

#[cfg(test)]
mod tests {
    use super::*;
    use crate::inputs::{KINDS, VARIANTS};

    fn drawn(arithmetic: Arithmetic, side: u32, points: &[i64], counts: &[u32]) -> Vec<u8> {
        let mut picture = vec![77; (side * side) as usize];
        let outline = Outline { side, points: points.to_vec(), counts: counts.to_vec() };
        PixelByPixel::default().draw(arithmetic, &outline, &mut picture);
        picture
    }

    /// The scope's letters, and those of them that are traced the other way, whose greys are the same.
    #[test]
    fn letters_to_try_have_their_greys() {
        for arithmetic in ARITHMETICS {
            let drawn = |side, points| drawn(arithmetic, side, points, &[points.len() as u32 / 2]);
            assert_eq!(drawn(1, &[0, 0, 256, 0, 256, 256, 0, 256]), [255]);
            assert_eq!(drawn(1, &[0, 256, 256, 256, 256, 0, 0, 0]), [255]);
            assert_eq!(drawn(1, &[0, 0, 256, 0, 0, 256]), [128]);
            assert_eq!(drawn(2, &[0, 0, 512, 0, 0, 512]), [255, 128, 128, 0]);
            assert_eq!(drawn(2, &[0, 512, 512, 0, 0, 0]), [255, 128, 128, 0]);
            // two squares, one over the other, the other way round, and no outline
            let two = [0, 0, 256, 0, 256, 256, 0, 256].repeat(2);
            assert_eq!(super::tests::drawn(arithmetic, 2, &two, &[4, 4]), [255, 0, 0, 0]);
            assert_eq!(super::tests::drawn(arithmetic, 2, &[], &[]), [0; 4]);
        }
    }

    /// The exact areas of F and G, which are thirds and eighths of a unit.
    #[test]
    fn areas_are_exact() {
        let area = |points: &[i64], cx: i32, cy: i32| {
            let outline = Outline { side: 2, points: points.to_vec(), counts: vec![3] };
            let mut all = PixelByPixel::default();
            all.take_edges(&outline);
            areas(&all, WIDTH * cx, WIDTH * cy)
        };
        let f = [0, 0, 384, 1, 0, 1];
        let g = [255, 0, 259, 1, 255, 1];
        let exact = [(f, 0, 0, 1024.0 / 3.0), (f, 1, 0, 128.0 / 3.0), (g, 0, 0, 1.75), (g, 1, 0, 2.25), (g, 0, 1, 0.0)];
        for (points, cx, cy, exact) in exact {
            let (floats, whole) = area(&points, cx, cy);
            assert!((floats - exact).abs() < 1e-9 && (whole - exact).abs() < 1e-9, "{floats} {whole} {exact}");
        }
    }

    /// As the page says.
    #[test]
    fn floats_are_as_good_as_whole_numbers() {
        for input in KINDS {
            for outline in input.outlines(VARIANTS) {
                assert!(greatest_error(&outline) < GREATEST_ERROR, "{input:?}");
            }
        }
        // nearly upright and nearly level edges, where a quotient is greatest
        for points in [[0, 0, 1, 16384, 16384, 16383], [255, 0, 257, 16384, 16383, 16384], [16384, 0, 0, 1, 1, 16384]] {
            let outline = Outline { side: 64, points: points.to_vec(), counts: vec![3] };
            assert!(greatest_error(&outline) < GREATEST_ERROR, "{points:?}");
        }
    }

    /// In units, by each arithmetic.
    fn areas(all: &PixelByPixel, left: i32, top: i32) -> (f64, f64) {
        let pixel = Pixel::at(left, top);
        let whole = pixel.area(&all.edges, Pixel::whole_part);
        (pixel.area(&all.edges, Pixel::part), whole as f64 / (1u64 << FINE) as f64)
    }

    fn greatest_error(outline: &Outline) -> f64 {
        let mut all = PixelByPixel::default();
        all.take_edges(outline);
        let mut greatest = 0f64;
        for top in (0..WIDTH * outline.side as i32).step_by(WIDTH as usize) {
            for left in (0..WIDTH * outline.side as i32).step_by(WIDTH as usize) {
                let (floats, whole) = areas(&all, left, top);
                greatest = greatest.max((floats - whole).abs());
            }
        }
        greatest
    }
}

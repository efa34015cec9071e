//! Accepted outlines of many kinds: long edges and short, edges that touch or cross grid lines, corners and the border, hairlines, outlines
//! without area, round and round the same points, the same contour twice, letters with holes, no contour at all; clockwise, anticlockwise and mixed.
//!
//! How often each comes, and the reach of a random step, are chosen so that every kind comes by the hundred in the gate's run, and no claim
//! leans on them: `tests/differential.rs` asserts what must have come.
use crate::random::Random;
use reference::{Edge, Limits, STEPS};

/// 01's sides of a tile.
pub const SIDES: [u32; 7] = [1, 2, 4, 8, 16, 32, 64];
/// The most edges of an outline, and the fewest points of a contour.
pub const MOST_EDGES: u32 = Limits::SPEC.most_edges;
pub const FEWEST_POINTS: u32 = Limits::SPEC.least_count;

/// How many places the pictures of every level of a tile have together.
pub fn all_places(side: u32) -> usize {
    (0..=side.trailing_zeros()).map(|level| 1 << (2 * level)).sum()
}

/// The part of each level in such pictures, level 0 first.
pub fn each_level(pictures: &[u8]) -> impl Iterator<Item = (u32, &[u8])> {
    let mut rest = pictures;
    (0..).map_while(move |level| {
        let (picture, after) = rest.split_at_checked(1 << (2 * level))?;
        rest = after;
        Some((level, picture))
    })
}

#[derive(Clone, Debug, PartialEq)]
pub struct Outline {
    /// of the tile or of the sheet that it lies on
    pub side: u32,
    pub points: Vec<i64>,
    pub counts: Vec<u32>,
}

pub type Point = (i64, i64);

impl Outline {
    pub fn edges(&self) -> u32 {
        self.counts.iter().sum()
    }

    pub fn depth(&self) -> u32 {
        self.side.trailing_zeros()
    }

    /// The edges, contour by contour, from each point to the next.
    pub fn each_edge(&self) -> Vec<Edge> {
        let mut edges = Vec::with_capacity(self.points.len() / 2);
        let mut rest = &self.points[..];
        for &count in &self.counts {
            let (contour, after) = rest.split_at(2 * count as usize);
            rest = after;
            let points: Vec<&[i64]> = contour.chunks(2).collect();
            let next = points.iter().cycle().skip(1);
            edges.extend(points.iter().zip(next).map(|(a, b)| Edge { x0: a[0], y0: a[1], x1: b[0], y1: b[1] }));
        }
        edges
    }

    /// Is every edge level, upright or at 45 degrees? (A point that is repeated is all three.)
    pub fn is_octilinear(&self) -> bool {
        self.each_edge().iter().all(|edge| {
            let (dx, dy) = ((edge.x1 - edge.x0).abs(), (edge.y1 - edge.y0).abs());
            dx == 0 || dy == 0 || dx == dy
        })
    }

    /// The outline as the text that the tile program reads, so that what is found here can be drawn.
    pub fn frame(&self, level: u32) -> String {
        let mut text = format!("{:02x}{:02x}\n", self.side, level);
        let mut coordinates = self.points.iter();
        for &count in &self.counts {
            for coordinate in coordinates.by_ref().take(2 * count as usize) {
                text += &format!("{coordinate:04x}");
            }
            text += "\n";
        }
        text
    }
}

/// A random outline, of a few edges mostly, and of up to 1,024 where it is to be large.
pub fn outline(random: &mut Random, side: u32, large: bool) -> Outline {
    let most = match (large, random.index(8)) {
        (true, 0..4) => MOST_EDGES,
        (true, 4..6) => random.pick(&[127, 128, 129, 255, 256, 257, 511, 512, 513, MOST_EDGES - 1]),
        (true, _) => random.within(65, MOST_EDGES as i64) as u32,
        (false, 0) => random.within(3, 64) as u32,
        (false, _) => random.within(3, 12) as u32,
    };
    let counts = counts(random, most);
    let kind = random.index(KINDS.len() + 1);
    let limit = STEPS * side as i64;
    let mut points: Vec<Point> = Vec::new();
    for &count in &counts {
        let count = count as usize;
        // one kind for the whole outline, or for each contour its own
        let make = *KINDS.get(kind).unwrap_or(&KINDS[random.index(KINDS.len())]);
        let contour = match points.len().checked_sub(count) {
            // the latest points once more, or backwards, or backwards at half the size
            Some(from) if random.once_in(6) => {
                let latest = &points[from..];
                match random.index(4) {
                    0 => latest.to_vec(),
                    1 => latest.iter().rev().copied().collect(),
                    _ => hole(latest),
                }
            }
            _ => make(random, limit, count),
        };
        assert_eq!(contour.len(), count);
        points.extend(contour.iter().map(|&(x, y)| (x.clamp(0, limit), y.clamp(0, limit))));
    }
    Outline { side, points: points.iter().flat_map(|&(x, y)| [x, y]).collect(), counts }
}

/// A random outline of level and upright edges and those at 45 degrees alone.
pub fn octilinear_outline(random: &mut Random, side: u32) -> Outline {
    let most = random.within(3, 24) as u32;
    let counts = counts(random, most);
    let limit = STEPS * side as i64;
    let points = counts.iter().flat_map(|&count| octilinear(random, limit, count as usize)).flat_map(|(x, y)| [x, y]);
    Outline { side, points: points.collect(), counts }
}

/// A hole in a contour: its points halfway to its middle, and backwards. So it is clockwise where the contour is anticlockwise.
fn hole(contour: &[Point]) -> Vec<Point> {
    let middle = |of: fn(&Point) -> i64| {
        let (least, most) = (contour.iter().map(of).min(), contour.iter().map(of).max());
        least.zip(most).map_or(0, |(least, most)| (least + most) / 2)
    };
    let (x, y) = (middle(|point| point.0), middle(|point| point.1));
    contour.iter().rev().map(|point| ((point.0 + x) / 2, (point.1 + y) / 2)).collect()
}

/// The points of a contour alone, of any kind.
pub fn contour(random: &mut Random, side: u32, count: u32) -> Vec<i64> {
    let limit = STEPS * side as i64;
    let make = random.pick(&KINDS);
    let points = make(random, limit, count as usize);
    points.iter().flat_map(|&(x, y)| [x.clamp(0, limit), y.clamp(0, limit)]).collect()
}

/// Counts that add up to `most` edges, or once in a while none.
fn counts(random: &mut Random, most: u32) -> Vec<u32> {
    if random.once_in(200) {
        return Vec::new();
    }
    let contours = match random.index(4) {
        0 => most / FEWEST_POINTS, // as many as there can be
        1 => random.within(1, (most / FEWEST_POINTS).max(1) as i64) as u32,
        _ => 1,
    };
    let mut counts = vec![FEWEST_POINTS; contours as usize];
    let mut left = most.saturating_sub(FEWEST_POINTS * contours);
    while left > 0 {
        let more = random.within(1, left as i64) as u32;
        counts[random.index(contours as usize)] += more;
        left -= more;
    }
    counts
}

/// A maker of contours: so many points on a tile of so many steps (a point off the tile is moved onto it).
type Kind = fn(&mut Random, i64, usize) -> Vec<Point>;

const KINDS: [Kind; 12] = [
    anywhere,
    small_steps,
    on_grid_lines,
    through_grid_points,
    octilinear,
    on_the_border,
    repeated,
    round_and_round,
    hairline,
    about_a_corner,
    ring,
    back_and_forth,
];

/// Long edges: points all over the tile.
fn anywhere(random: &mut Random, limit: i64, count: usize) -> Vec<Point> {
    (0..count).map(|_| (random.within(0, limit), random.within(0, limit))).collect()
}

/// A letter's small edges: each point near the one before.
fn small_steps(random: &mut Random, limit: i64, count: usize) -> Vec<Point> {
    let reach = random.within(1, 400);
    let (mut x, mut y) = (random.within(0, limit), random.within(0, limit));
    let step = |random: &mut Random, at: i64| (at + random.within(-reach, reach)).clamp(0, limit);
    (0..count)
        .map(|_| {
            (x, y) = (step(random, x), step(random, y));
            (x, y)
        })
        .collect()
}

/// Points on the sides and middles of cells of some level, or one step beside them.
fn on_grid_lines(random: &mut Random, limit: i64, count: usize) -> Vec<Point> {
    // from the tile's width, at most 2^14 steps, down to one step; on the largest sheet, from 2^15 to two
    let spacing = (limit >> random.index(15)).max(1);
    let on_line = |random: &mut Random| {
        let beside = if random.once_in(4) { random.within(-1, 1) } else { 0 };
        spacing * random.within(0, limit / spacing) + beside
    };
    (0..count).map(|_| (on_line(random), on_line(random))).collect()
}

/// How often a step can be taken from a coordinate before it leaves the tile; of no step at all, as often as the tile is wide.
fn room(limit: i64, at: i64, step: i64) -> i64 {
    match step.signum() {
        1 => (limit - at) / step,
        -1 => at / -step,
        _ => limit,
    }
}

/// Edges of any slope that go through a point where cells meet, or the middle of one.
fn through_grid_points(random: &mut Random, limit: i64, count: usize) -> Vec<Point> {
    // from the tile's corners to the middles of the smallest cells, of level 6; on the largest sheet, to the corners of its pixels
    let spacing = (limit >> random.index(8)).max(1);
    let mut points = Vec::new();
    while points.len() < count {
        let (x, y) = (spacing * random.within(0, limit / spacing), spacing * random.within(0, limit / spacing));
        let (u, v) = (random.within(-20, 20), random.within(-20, 20));
        let most = |u: i64, v: i64| room(limit, x, u).min(room(limit, y, v));
        let (there, back) = (random.within(0, most(u, v)), random.within(0, most(-u, -v)));
        points.push((x + u * there, y + v * there));
        points.push((x - u * back, y - v * back));
    }
    points.truncate(count);
    points
}

/// Level and upright edges and those at 45 degrees, where nothing is rounded.
fn octilinear(random: &mut Random, limit: i64, count: usize) -> Vec<Point> {
    let start = (random.within(0, limit), random.within(0, limit));
    let mut points = vec![start];
    while points.len() < count {
        let (x, y) = points[points.len() - 1];
        let (u, v) = (random.within(-1, 1), random.within(-1, 1));
        let far = random.within(0, room(limit, x, u).min(room(limit, y, v)));
        points.push((x + u * far, y + v * far));
    }
    // the last edge closes the contour: its point is put level with the one before it, and under the first
    let before = points[count - 2];
    points[count - 1] = (start.0, before.1);
    points
}

/// Points on the border and in the corners of the tile.
fn on_the_border(random: &mut Random, limit: i64, count: usize) -> Vec<Point> {
    (0..count)
        .map(|_| {
            let end = random.pick(&[0, limit]);
            let along = if random.once_in(3) { random.pick(&[0, limit]) } else { random.within(0, limit) };
            if random.once_in(2) {
                (end, along)
            } else {
                (along, end)
            }
        })
        .collect()
}

/// A few points over and over.
fn repeated(random: &mut Random, limit: i64, count: usize) -> Vec<Point> {
    let few: Vec<Point> =
        (0..random.within(1, 4)).map(|_| (random.within(0, limit), random.within(0, limit))).collect();
    (0..count).map(|_| random.pick(&few)).collect()
}

/// Round and round the border of the tile or of a half of it, or any few points, always one way: the largest entries that there are.
fn round_and_round(random: &mut Random, limit: i64, count: usize) -> Vec<Point> {
    let (width, height) = (random.pick(&[limit, limit / 2]), random.pick(&[limit, limit / 2]));
    let mut round = vec![(0, 0), (width, 0), (width, height), (0, height)];
    if random.once_in(2) {
        round.reverse();
    }
    if random.once_in(2) {
        round = (0..random.within(3, 5)).map(|_| (random.within(0, limit), random.within(0, limit))).collect();
    }
    (0..count).map(|i| round[i % round.len()]).collect()
}

/// There along one line and back along another, a hair's breadth beside it.
fn hairline(random: &mut Random, limit: i64, count: usize) -> Vec<Point> {
    let breadth = random.within(1, 48);
    let (x0, y0, x1, y1) =
        (random.within(0, limit), random.within(0, limit), random.within(0, limit), random.within(0, limit));
    let there = count.div_ceil(2);
    (0..count)
        .map(|i| {
            let (at, of, off) =
                if i < there { (i, there.max(2) - 1, 0) } else { (count - 1 - i, (count - there).max(2) - 1, breadth) };
            let along = |a: i64, b: i64| a + (b - a) * at as i64 / of as i64;
            (along(x0, x1) + random.within(0, 1), along(y0, y1) + off)
        })
        .collect()
}

/// Points within a few steps of a corner that many cells share, where edges are tiny and halves to be rounded frequent.
fn about_a_corner(random: &mut Random, limit: i64, count: usize) -> Vec<Point> {
    // the cells' corners and middles, and one level finer, where nothing is special
    let spacing = (limit >> random.index(9)).max(1);
    let reach = random.within(1, 8); // so that |dx| × |dy| is often 2, 4 or 8

    let (x, y) = (spacing * random.within(0, limit / spacing), spacing * random.within(0, limit / spacing));
    (0..count).map(|_| (x + random.within(-reach, reach), y + random.within(-reach, reach))).collect()
}

/// A polygon about a middle, clockwise as a letter or anticlockwise as a hole. Its points are on a circle, in whole numbers: in each quarter
/// the parameter t goes from 0 to 1, and (1 − t², 2t) / (1 + t²) is on the circle of radius 1.
pub fn ring(random: &mut Random, limit: i64, count: usize) -> Vec<Point> {
    let (x, y, radius) = (random.within(0, limit), random.within(0, limit), random.within(1, limit));
    let count = count as i64;
    let mut points: Vec<Point> = (0..count)
        .map(|i| {
            let (quarter, k) = (4 * i / count, 4 * i % count); // t is k over count
            let (near, far) = (radius * (count * count - k * k), radius * 2 * k * count);
            let (near, far) = (near / (count * count + k * k), far / (count * count + k * k));
            match quarter {
                0 => (x + near, y + far),
                1 => (x - far, y + near),
                2 => (x - near, y - far),
                _ => (x + far, y - near),
            }
        })
        .collect();
    if random.once_in(2) {
        points.reverse();
    }
    points
}

/// Along one line again and again: edges, but no area.
fn back_and_forth(random: &mut Random, limit: i64, count: usize) -> Vec<Point> {
    let (dx, dy) = (random.within(-40, 40), random.within(-40, 40));
    let (x, y) = (random.within(0, limit), random.within(0, limit));
    (0..count)
        .map(|_| {
            let far = random.within(0, 100);
            (x + dx * far, y + dy * far)
        })
        .collect()
}

#[cfg(test)]
mod tests {
    use super::*;

    #[test]
    fn rings_go_round() {
        // Twice the area of a circle is 2π times the square of its radius; a polygon in it has somewhat less.
        let mut random = Random::new(3);
        let mut turns = [0, 0];
        for _ in 0..40 {
            let points: Vec<i64> = ring(&mut random, 4096, 64).iter().flat_map(|&(x, y)| [x, y]).collect();
            let radius = (points.iter().step_by(2).max().unwrap() - points.iter().step_by(2).min().unwrap()) / 2;
            let area = reference::signed_area(&points, &[64]);
            assert!(
                (6 * radius * radius..7 * radius * radius + 8 * radius).contains(&area.abs()),
                "{area}, radius {radius}"
            );
            turns[(area < 0) as usize] += 1;
        }
        assert!(turns[0] > 5 && turns[1] > 5);
    }

    #[test]
    fn outlines_are_accepted_ones() {
        let mut random = Random::new(1);
        let (mut most, mut empty, mut exact) = (0, 0, 0);
        for number in 0..7000 {
            let made = outline(&mut random, SIDES[number % 7], number % 50 == 0);
            assert!(made.edges() <= MOST_EDGES && made.counts.iter().all(|&count| count >= FEWEST_POINTS));
            assert_eq!(made.points.len(), 2 * made.edges() as usize);
            assert!(made.points.iter().all(|&c| 0 <= c && c <= STEPS * made.side as i64));
            most += (made.edges() == MOST_EDGES) as u32;
            empty += made.counts.is_empty() as u32;
            exact += (made.is_octilinear() && !made.counts.is_empty()) as u32;
        }
        assert!(
            most > 20 && empty > 10 && exact > 100,
            "{most} with the most edges, {empty} empty, {exact} octilinear"
        );
    }

    /// The least and the greatest of some numbers.
    fn ends(numbers: impl Iterator<Item = i64> + Clone) -> (i64, i64) {
        (numbers.clone().min().unwrap(), numbers.max().unwrap())
    }

    /// Letters with a hole in their middle come clockwise with the hole anticlockwise, and the other way round.
    #[test]
    fn letters_have_holes() {
        let mut random = Random::new(4);
        let mut letters = [0, 0];
        for number in 0..7000 {
            let made = outline(&mut random, SIDES[number % 7], false);
            let mut contours = Vec::new();
            let mut rest = &made.points[..];
            for &count in &made.counts {
                let (points, after) = rest.split_at(2 * count as usize);
                rest = after;
                let (x, y) = (points.iter().step_by(2).copied(), points.iter().skip(1).step_by(2).copied());
                contours.push((reference::signed_area(points, &[count]), ends(x), ends(y)));
            }
            for two in contours.windows(2) {
                let [(letter, x, y), (hole, hole_x, hole_y)] = two else { unreachable!("windows of two") };
                let inside = |of: &(i64, i64), hole: &(i64, i64)| of.0 < hole.0 && hole.1 < of.1;
                if letter.signum() * hole.signum() == -1 && inside(x, hole_x) && inside(y, hole_y) {
                    letters[(*letter < 0) as usize] += 1;
                }
            }
        }
        // there are some 200 of each, and without `hole` from 40 to 54
        assert!(letters.iter().all(|&letters| letters > 120), "clockwise and anticlockwise with a hole: {letters:?}");
        println!("outlines: of 7,000, clockwise and anticlockwise with a hole: {letters:?}");
    }

    #[test]
    fn contours_alone_are_accepted() {
        let mut random = Random::new(5);
        for number in 0..2100 {
            let (side, count) = (SIDES[number % 7], random.within(3, 40) as u32);
            let points = contour(&mut random, side, count);
            let mut table = vec![0; (side * side) as usize];
            assert_eq!(mattuliyan::build(side, &points, &[count], &mut table), Ok(count));
        }
    }

    #[test]
    fn octilinear_contours_are() {
        let mut random = Random::new(2);
        for count in 3..200 {
            let points = octilinear(&mut random, 512, count).iter().flat_map(|&(x, y)| [x, y]).collect();
            assert!(Outline { side: 2, points, counts: vec![count as u32] }.is_octilinear());
            let outline = octilinear_outline(&mut random, 128);
            assert!(outline.is_octilinear() && outline.points.len() == 2 * outline.edges() as usize);
            assert!(outline.points.iter().all(|c| (0..=128 * STEPS).contains(c)));
        }
        let slanted = Outline { side: 2, points: vec![0, 0, 2, 1, 0, 1], counts: vec![3] };
        assert!(!slanted.is_octilinear());
    }

    #[test]
    fn frame_of_the_example() {
        let square = Outline { side: 2, points: vec![0, 0, 256, 0, 256, 256, 0, 256], counts: vec![4] };
        assert_eq!(square.frame(1), "0201\n00000000010000000100010000000100\n");
    }
}

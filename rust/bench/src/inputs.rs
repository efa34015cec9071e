//! The outlines that are measured, of a few kinds: the same at each run on one platform.

/// The side of the tile, in pixels, and the edges of each outline where nothing else is said: the most that are accepted.
pub const SIDE: u32 = 64;
pub const EDGES: u32 = 1024;

/// The levels of that tile below the root.
pub const DEPTH: u32 = SIDE.trailing_zeros();

/// How many outlines of each kind are drawn in turn. A processor that draws one alone over and over learns its branches by
/// heart, and short work then looks up to twice as fast as it is on letters that differ.
pub const VARIANTS: usize = 16;

/// Coordinates count steps of 1/256 pixel.
pub const STEPS_PER_PIXEL: u32 = 256;

/// x and y of each point in turn, and how many points each contour has, on a tile of this side.
pub struct Outline {
    pub side: u32,
    pub points: Vec<i64>,
    pub counts: Vec<u32>,
}

impl Outline {
    /// The levels of its tile below the root.
    pub fn depth(&self) -> u32 {
        self.side.trailing_zeros()
    }

    pub fn edges(&self) -> u32 {
        self.counts.iter().sum()
    }
}

#[derive(Clone, Copy, PartialEq, Debug)]
pub enum Shape {
    Letter,
    Random,
    Traced,
    /// A walk in edges of so many steps.
    Walk(u32),
}

/// Outlines of a shape, on a tile of this side, with so many edges each.
#[derive(Clone, Copy, PartialEq, Debug)]
pub struct Input {
    pub shape: Shape,
    pub side: u32,
    pub edges: u32,
}

/// The kinds that have a table of their own.
pub const KINDS: [Input; 3] = [Input::full(Shape::Letter), Input::full(Shape::Random), Input::full(Shape::Traced)];

impl Input {
    pub const fn full(shape: Shape) -> Input {
        Input { shape, side: SIDE, edges: EDGES }
    }

    pub fn name(self) -> &'static str {
        match self.shape {
            Shape::Letter => "Letters",
            Shape::Random => "Random edges",
            Shape::Traced => "Level and upright edges",
            Shape::Walk(_) => "Walks",
        }
    }

    pub fn about(self) -> String {
        match self.shape {
            Shape::Letter => {
                "Each a rough o: a wavy outer contour and its counter, in edges of about half a pixel.".into()
            }
            Shape::Random => "Each one contour through points all over the tile: long edges that cross one another, unlike \
                              any letter."
                .into(),
            Shape::Traced => format!(
                "Each the same wavy o, as a tracer writes it that follows the borders between the black and the white dots \
                 of a scan, {} dots to a pixel: a staircase of edges of a dot to about half a pixel, by turns level and \
                 upright.",
                STEPS_PER_PIXEL / STEPS_PER_DOT
            ),
            Shape::Walk(_) => "Each one contour, all of whose edges but the last have one length, in directions by chance."
                .into(),
        }
    }

    /// The outlines of this kind that are drawn in turn, or the first few of them.
    pub fn outlines(self, count: usize) -> Vec<Outline> {
        (0..count as u64).map(|variant| self.outline(Numbers::of(variant))).collect()
    }

    fn outline(self, mut numbers: Numbers) -> Outline {
        let Input { shape, side, edges } = self;
        match shape {
            Shape::Letter => o(side, OUTER * edges / PARTS, edges, |ring, points| {
                points.extend(ring.points(LETTER_ROUGHNESS, &mut numbers).into_iter().flatten())
            }),
            Shape::Traced => o(side, OUTER * edges / PARTS, edges, |ring, points| {
                points.extend(staircase(&ring.halved().points(SCAN_ROUGHNESS, &mut numbers)))
            }),
            Shape::Random => {
                let greatest = u64::from(STEPS_PER_PIXEL * side);
                let points = (0..2 * edges).map(|_| numbers.up_to(greatest) as i64).collect();
                Outline { side, points, counts: vec![edges] }
            }
            Shape::Walk(length) => {
                Outline { side, points: walk(side, edges, length, &mut numbers), counts: vec![edges] }
            }
        }
    }
}

/// An o has this share of its edges in the outer contour: as many eighths.
const OUTER: u32 = 5;
const PARTS: u32 = 8;

/// The radii of its contours and the height of their waves, of which each has five, in pixels of a tile of side 64. The contours
/// stay apart.
const OUTER_RADIUS: f64 = 26.0;
const INNER_RADIUS: f64 = 14.0;
const WAVE: f64 = 2.0;
const WAVES: f64 = 5.0;

/// How far a radius is off, either way, in such pixels: a letter's, so that its edges go in all directions; and a scan's, about
/// two dots.
const LETTER_ROUGHNESS: f64 = 0.5;
const SCAN_ROUGHNESS: f64 = 0.125;

/// The width of a dot of the scan: coordinates of a traced o are multiples of it.
const STEPS_PER_DOT: u32 = 16;

/// An o with a border that is made contour by contour. Each goes round the middle in equal angles, the outer one clockwise, so that it
/// does not cross itself: the winding is 1 in the ink and 0 elsewhere, where all ways of filling agree.
fn o(side: u32, outer: u32, edges: u32, mut contour: impl FnMut(Ring, &mut Vec<i64>)) -> Outline {
    let mut points = Vec::new();
    let counts = vec![outer, edges - outer];
    contour(Ring { side, count: counts[0], radius: OUTER_RADIUS, turn: 1.0 }, &mut points);
    contour(Ring { side, count: counts[1], radius: INNER_RADIUS, turn: -1.0 }, &mut points);
    Outline { side, points, counts }
}

/// So many places around the middle of the tile, clockwise as seen on the page if `turn` is 1, and anticlockwise if it is -1.
struct Ring {
    side: u32,
    count: u32,
    radius: f64,
    turn: f64,
}

impl Ring {
    /// Half as many places: each has two edges of a staircase.
    fn halved(self) -> Ring {
        Ring { count: self.count / 2, ..self }
    }

    fn points(&self, roughness: f64, numbers: &mut Numbers) -> Vec<[i64; 2]> {
        let middle = f64::from(self.side) / 2.0;
        let scale = f64::from(self.side) / f64::from(SIDE);
        let steps = |pixels: f64| (pixels * f64::from(STEPS_PER_PIXEL)).round() as i64;
        let place = |k: u32| {
            let angle = self.turn * std::f64::consts::TAU * f64::from(k) / f64::from(self.count);
            let r = scale * (self.radius + WAVE * (WAVES * angle).sin() + roughness * numbers.either_way());
            // y grows downwards, so that a growing angle goes clockwise
            [steps(middle + r * angle.cos()), steps(middle + r * angle.sin())]
        };
        (0..self.count).map(place).collect()
    }
}

/// Level and upright edges by turns, past all the places, rounded to dots. No edge is of length 0: where a place has the column or the row of the
/// one before, it is moved by a dot.
fn staircase(places: &[[i64; 2]]) -> Vec<i64> {
    let dot = i64::from(STEPS_PER_DOT);
    let rounded = |c: i64| (c + dot / 2).div_euclid(dot) * dot;
    let mut dots: Vec<[i64; 2]> = places.iter().map(|place| place.map(rounded)).collect();
    for k in 1..dots.len() {
        // the last one is followed by the first
        let (before, after) = (dots[k - 1], (k + 1 == dots.len()).then_some(dots[0]));
        for axis in 0..2 {
            let taken = |c: i64| c == before[axis] || after.is_some_and(|after| c == after[axis]);
            let c = dots[k][axis];
            dots[k][axis] =
                [c, c + dot, c - dot].into_iter().find(|&c| !taken(c)).expect("two cannot take three places");
        }
    }
    let next = dots.iter().cycle().skip(1);
    dots.iter().zip(next).flat_map(|(&[x, y], &[after, _])| [x, y, after, y]).collect()
}

/// Each point in a direction by chance from the one before, where the tile has one; the first is in the middle.
fn walk(side: u32, edges: u32, length: u32, numbers: &mut Numbers) -> Vec<i64> {
    let greatest = i64::from(STEPS_PER_PIXEL * side);
    let (mut x, mut y) = (greatest / 2, greatest / 2);
    let mut points = vec![x, y];
    while points.len() < 2 * edges as usize {
        let (sin, cos) = (std::f64::consts::PI * numbers.either_way()).sin_cos();
        let ahead = |c: i64, part: f64| c + (f64::from(length) * part).round() as i64;
        let (after, below) = (ahead(x, cos), ahead(y, sin));
        if [after, below].iter().all(|c| (0..=greatest).contains(c)) {
            (x, y) = (after, below);
            points.extend([x, y]);
        }
    }
    points
}

/// Marsaglia's xorshift: enough for scattering points, and the same everywhere.
struct Numbers(u64);

impl Numbers {
    /// Other numbers for each variant. The constant is odd, as is what it is multiplied by, so that the product is never 0,
    /// from which nothing but 0 would come.
    fn of(variant: u64) -> Numbers {
        const SEED: u64 = 0x9E37_79B9_7F4A_7C15;
        Numbers(SEED.wrapping_mul(2 * variant + 1))
    }

    fn next(&mut self) -> u64 {
        self.0 ^= self.0 << 13;
        self.0 ^= self.0 >> 7;
        self.0 ^= self.0 << 17;
        self.0
    }

    /// From 0 to `most`, both included. The upper half of the bits is the better one.
    fn up_to(&mut self, most: u64) -> u64 {
        (self.next() >> 32) % (most + 1)
    }

    /// From -1 to 1.
    fn either_way(&mut self) -> f64 {
        const PARTS: u64 = 1 << 20;
        self.up_to(2 * PARTS) as f64 / PARTS as f64 - 1.0
    }
}

#[cfg(test)]
mod tests {
    use super::*;

    /// The edges of each contour in turn, as dx and dy.
    fn edges(outline: &Outline) -> Vec<[i64; 2]> {
        let mut rest = &outline.points[..];
        let mut all = Vec::new();
        for &count in &outline.counts {
            let (contour, others) = rest.split_at(2 * count as usize);
            let next = contour.chunks(2).cycle().skip(1);
            all.extend(contour.chunks(2).zip(next).map(|(from, to)| [to[0] - from[0], to[1] - from[1]]));
            rest = others;
        }
        all
    }

    /// Twice the signed area: positive for ink.
    fn area(points: &[i64]) -> i64 {
        let n = points.len() / 2;
        let term = |k: usize| {
            let next = (k + 1) % n;
            points[2 * k] * points[2 * next + 1] - points[2 * next] * points[2 * k + 1]
        };
        (0..n).map(term).sum()
    }

    #[test]
    fn outlines_have_all_their_edges_and_lie_on_the_tile() {
        let small = [8, 16, 32].map(|side| Input { side, ..KINDS[0] });
        let few = [64, 128, 512].map(|edges| Input { edges, ..KINDS[2] });
        let walks = [64, 8192].map(|length| Input::full(Shape::Walk(length)));
        for input in [&KINDS[..], &small, &few, &walks].concat() {
            for outline in input.outlines(VARIANTS) {
                assert_eq!((outline.side, outline.edges()), (input.side, input.edges), "{input:?}");
                assert_eq!(outline.points.len(), 2 * input.edges as usize, "{input:?}");
                let greatest = i64::from(STEPS_PER_PIXEL * input.side);
                assert!(outline.points.iter().all(|c| (0..=greatest).contains(c)), "{input:?}");
            }
        }
    }

    #[test]
    fn letters_are_ink_and_their_counters_are_not() {
        for input in [KINDS[0], KINDS[2]] {
            for outline in input.outlines(VARIANTS) {
                let (outer, counter) = outline.points.split_at(2 * outline.counts[0] as usize);
                assert!(area(outer) > 0);
                assert!(area(counter) < 0);
                assert!(area(outer) + area(counter) > 0);
            }
        }
    }

    #[test]
    fn the_edges_of_letters_are_short() {
        const LONGEST: i64 = 2 * STEPS_PER_PIXEL as i64;
        for outline in KINDS[0].outlines(VARIANTS) {
            assert!(edges(&outline).into_iter().flatten().all(|d| d.abs() <= LONGEST));
        }
    }

    #[test]
    fn traced_edges_are_level_and_upright_by_turns_and_short() {
        const LONGEST: i64 = STEPS_PER_PIXEL as i64;
        for outline in KINDS[2].outlines(VARIANTS) {
            for two in edges(&outline).chunks(2) {
                let ([level, 0], [0, upright]) = (two[0], two[1]) else { panic!("{two:?}") };
                for length in [level, upright] {
                    assert!(length != 0 && length % i64::from(STEPS_PER_DOT) == 0 && length.abs() <= LONGEST);
                }
            }
        }
    }

    #[test]
    fn the_edges_of_a_walk_have_its_length() {
        for length in [64, 1024, 8192] {
            for outline in Input::full(Shape::Walk(length)).outlines(VARIANTS) {
                let all = edges(&outline);
                for [dx, dy] in &all[..all.len() - 1] {
                    // each coordinate is rounded by half a step at most
                    assert!((((dx * dx + dy * dy) as f64).sqrt() - f64::from(length)).abs() < 1.0);
                }
            }
        }
    }

    #[test]
    fn outlines_differ_and_are_the_same_each_time() {
        for input in [&KINDS[..], &[Input::full(Shape::Walk(256))]].concat() {
            let (once, again) = (input.outlines(VARIANTS), input.outlines(VARIANTS));
            assert!(once.iter().zip(&again).all(|(a, b)| a.points == b.points));
            assert!(once.windows(2).all(|two| two[0].points != two[1].points));
        }
    }
}

//! Outlines with curved edges: built by the library and by the reference, alone on tiles of every side and on sheets of every pair of sides.
//!
//! A case takes one such outline through building and every drawing call, and then one like it that is placed first. Its table is held to the one
//! that building its chords leaves, as straight edges without marks, and what is drawn to demand 3 with the exact areas of the chords
//! ([`demand3`]). An outline whose marks are all 0 has the table of the call without marks. And there are calls that may be refused ([`damage`]), of
//! outlines with about as many chords as there may be among others. Corrections with curves are in [`series`](crate::series).
use crate::calls::{self, Difference, Ground};
use crate::outlines::{self, Outline, Point, FEWEST_POINTS, MOST_EDGES, SIDES};
use crate::random::Random;
use crate::{cells_alone, damage, demand3, grouped, pictures, placements, sheets};
use crate::{on_all_processors, Tally};
use reference::{Curve, Curves, Fraction, Limits, Placement, Rules, Spec, STEPS};
use std::fmt::{Display, Formatter};
use std::ops::Range;

/// Every side of a tile alone, and every pair of sides of a sheet and a tile on it.
pub const GROUNDS: u64 = (SIDES.len() + sheets::PAIRS.len()) as u64;

/// In one round of all grounds in so many there are large outlines, of up to 1,024 chords.
const LARGE_ONE_IN: u64 = 12;

/// Calls that may be refused, in a case.
const DAMAGED_CALLS: u32 = 8;

/// The most halvings of a curve, k.
const MOST_HALVINGS: usize = Limits::SPEC.most_halvings as usize;

/// An outline that may have curved edges: its points, the control points among them, its counts of edges as marked, and the marks.
#[derive(Clone, Debug, PartialEq)]
pub struct Curved {
    pub outline: Outline,
    pub marks: Vec<u8>,
}

/// An edge as marked: its start, and its control point where it is curved.
pub type Piece = (Point, Option<Point>);

impl Curved {
    /// The outline of these contours.
    pub fn of(side: u32, contours: &[Vec<Piece>]) -> Curved {
        let pieces = || contours.iter().flatten();
        let numbers =
            |&(start, control): &Piece| [Some(start), control].into_iter().flatten().flat_map(|(x, y)| [x, y]);
        let points = pieces().flat_map(numbers).collect();
        let counts = contours.iter().map(|contour| contour.len() as u32).collect();
        let marks = pieces().map(|(_, control)| control.is_some() as u8).collect();
        Curved { outline: Outline { side, points, counts }, marks }
    }

    pub fn curves(&self) -> Curves<'_> {
        Curves { points: &self.outline.points, marks: &self.marks }
    }

    /// The outline of its chords, which has straight edges alone.
    pub fn chords(&self) -> Outline {
        let (points, counts) = reference::chords(&Spec, self.curves(), &self.outline.counts);
        Outline { side: self.outline.side, points, counts }
    }

    /// The same with the points as placed.
    pub fn placed(&self, placement: Placement, points: &[i64]) -> Curved {
        let points = reference::placed(&Spec, placement, points);
        Curved { outline: Outline { points, ..self.outline.clone() }, marks: self.marks.clone() }
    }

    /// Its contours.
    pub fn contours(&self) -> Vec<Vec<Piece>> {
        let mut points = self.outline.points.chunks(2).map(|point| (point[0], point[1]));
        let mut marks = self.marks.iter();
        let mut piece = |&mark: &u8| {
            let start = points.next().expect("a start for each mark");
            (start, (mark == 1).then(|| points.next().expect("a control point for each curve")))
        };
        self.outline.counts.iter().map(|&count| marks.by_ref().take(count as usize).map(&mut piece).collect()).collect()
    }
}

/// The curve of an edge of a contour, if it is one.
fn curve(contour: &[Piece], i: usize) -> Option<Curve> {
    let (start, control) = contour[i];
    let (end, _) = contour[(i + 1) % contour.len()];
    let point = |(x, y): Point| [x, y];
    control.map(|control| Curve { start: point(start), control: point(control), end: point(end) })
}

/// How many chords the edges of a contour have.
fn chords_of(contour: &[Piece]) -> Vec<u32> {
    (0..contour.len()).map(|i| curve(contour, i).map_or(1, |curve| 1 << Spec.halvings(curve))).collect()
}

/// A random outline of at most 1,024 chords: a few contours of a few edges mostly, and where it is to be large of many, often with just as many chords
/// as there may be.
pub fn outline(random: &mut Random, side: u32, large: bool) -> Curved {
    let mut contours: Vec<Vec<Piece>> = match random.index(32) {
        0 => Vec::new(),
        1..4 if large => vec![contour_of(random, side, MOST_EDGES)],
        _ => (0..random.within(1, 3)).map(|_| contour(random, side, large)).collect(),
    };
    // curves are made straight until there are few enough chords
    let mut chords: u32 = contours.iter().flat_map(|contour| chords_of(contour)).sum();
    while chords > MOST_EDGES {
        let contour = random.index(contours.len());
        let at = random.index(contours[contour].len());
        if let Some(curve) = curve(&contours[contour], at) {
            chords -= (1 << Spec.halvings(curve)) - 1;
            contours[contour][at].1 = None;
        }
    }
    if large && random.once_in(2) {
        fill(random, &mut contours, MOST_EDGES - chords);
    }
    Curved::of(side, &contours)
}

/// So many edges more, none of which goes anywhere: no curve becomes another.
fn fill(random: &mut Random, contours: &mut [Vec<Piece>], more: u32) {
    for _ in 0..more {
        let Some(contour) = contours.first_mut() else { return };
        let at = random.index(contour.len());
        let (start, _) = contour[at];
        contour.insert(at, (start, None));
    }
}

/// An outline with about as many chords as there may be, one less or one more, or with many more: the given one, and loops from corner to corner and
/// back with straight edges between.
pub fn crowded(random: &mut Random, curved: &Curved) -> Curved {
    let Outline { side, .. } = curved.outline;
    let limit = STEPS * i64::from(side);
    let looped: Piece = ((0, 0), Some((limit, limit)));
    let each = 1 << Spec.halvings(Curve { start: [0; 2], control: [limit; 2], end: [0; 2] });
    let mut contours = curved.contours();
    let chords: u32 = contours.iter().flat_map(|contour| chords_of(contour)).sum();
    let beyond = random.pick(&[0, 0, 1, 1, 2, 300]);
    let wanted = (MOST_EDGES + beyond).saturating_sub(chords).max(each + FEWEST_POINTS);
    let mut more = vec![looped; (wanted / each) as usize];
    more.extend(vec![((0, 0), None); (wanted % each) as usize]);
    while more.len() < FEWEST_POINTS as usize {
        more.push(((0, 0), None));
    }
    contours.push(more);
    Curved::of(side, &contours)
}

/// A contour of a few edges, some of them curved, or of some dozens where it is to be large.
pub fn contour(random: &mut Random, side: u32, large: bool) -> Vec<Piece> {
    let most = match (large, random.index(8)) {
        (true, _) => 96,
        (false, 0) => 24,
        (false, _) => 7,
    };
    contour_of(random, side, most)
}

/// A contour of at most so many edges, some of them curved.
fn contour_of(random: &mut Random, side: u32, most: u32) -> Vec<Piece> {
    let limit = STEPS * i64::from(side);
    let count = random.within(FEWEST_POINTS.into(), most.into()) as usize;
    let mut pieces = match random.index(6) {
        0..2 => at_the_limits(random, limit, count),
        2 => round(random, limit, count),
        _ => bent(random, side, count),
    };
    // begun anywhere, so that a curve may be the one that closes the contour
    let first = random.index(pieces.len());
    pieces.rotate_left(first);
    pieces
}

/// Three coordinates from 0 to the limit with this second difference, which is at most twice the limit either way.
fn with_difference(random: &mut Random, limit: i64, difference: i64) -> [i64; 3] {
    // the sum of the ends is as odd as the difference is
    let odd = difference.rem_euclid(2);
    let (least, most) = (difference.max(odd), (2 * limit - odd).min(2 * limit + difference));
    let sum = least + 2 * random.within(0, (most - least) / 2);
    let sum = random.pick(&[sum, sum, least, most]);
    let start = random.within((sum - limit).max(0), limit.min(sum));
    [start, (sum - difference) / 2, sum - start]
}

/// Curves whose second difference is at a limit of k, or one past it, in x, in y or in both, and straight edges between them.
fn at_the_limits(random: &mut Random, limit: i64, count: usize) -> Vec<Piece> {
    let mut pieces = Vec::new();
    while pieces.len() < count {
        let difference = (4 << (2 * random.index(MOST_HALVINGS + 1))) + random.index(2) as i64;
        if difference > 2 * limit {
            continue; // there is none of this k on so small a side
        }
        let less = random.within(-difference, difference);
        let other = random.pick(&[less, 0, difference, -difference]);
        let sign = random.pick(&[1, -1]);
        let along = with_difference(random, limit, sign * difference);
        let across = with_difference(random, limit, other);
        let [x, y] = if random.once_in(2) { [along, across] } else { [across, along] };
        pieces.push(((x[0], y[0]), Some((x[1], y[1]))));
        pieces.push(((x[2], y[2]), None));
    }
    // where there is one too many, the last curve goes to the first one's start
    pieces.truncate(count);
    pieces
}

/// A round letter: curves about a middle, through twice as many points of a circle as there are curves.
fn round(random: &mut Random, limit: i64, count: usize) -> Vec<Piece> {
    let ring = outlines::ring(random, limit, 2 * count);
    let held = |(x, y): Point| (x.clamp(0, limit), y.clamp(0, limit));
    (0..count)
        .map(|i| {
            let (start, middle, end) = (ring[2 * i], ring[2 * i + 1], ring[(2 * i + 2) % ring.len()]);
            // the curve is at the middle halfway
            let control = |start: i64, middle: i64, end: i64| 2 * middle - (start + end) / 2;
            (held(start), Some(held((control(start.0, middle.0, end.0), control(start.1, middle.1, end.1)))))
        })
        .collect()
}

/// A contour of straight edges of any kind, with some of its edges bent.
fn bent(random: &mut Random, side: u32, count: usize) -> Vec<Piece> {
    let limit = STEPS * i64::from(side);
    let points = outlines::contour(random, side, count as u32);
    let points: Vec<Point> = points.chunks(2).map(|point| (point[0], point[1])).collect();
    let reach = random.pick(&[2, 8, 64, 2000]);
    let kind = random.index(7);
    let bends = random.pick(&[1, 2, 4]);
    (0..count)
        .map(|i| {
            let (start, end) = (points[i], points[(i + 1) % count]);
            let middle = ((start.0 + end.0) / 2, (start.1 + end.1) / 2);
            let end_of_tile = random.pick(&[0, limit]);
            let any = (random.within(0, limit), random.within(0, limit));
            let control = match if kind == 6 { random.index(6) } else { kind } {
                0 => any,
                // not far from where it would be straight
                1 | 2 => (middle.0 + random.within(-reach, reach), middle.1 + random.within(-reach, reach)),
                // on the border, or in a corner
                3 => random.pick(&[(end_of_tile, any.1), (any.0, end_of_tile), (end_of_tile, limit - end_of_tile)]),
                // at one of the ends
                4 => random.pick(&[start, end]),
                // on the line through both ends, past one of them
                _ => (2 * end.0 - start.0, 2 * end.1 - start.1),
            };
            let held = (control.0.clamp(0, limit), control.1.clamp(0, limit));
            (start, random.once_in(bends).then_some(held))
        })
        .collect()
}

/// What a run has seen.
#[derive(Default)]
pub struct Seen {
    /// what was drawn and answered; its edges are chords
    pub drawn: crate::Seen,
    /// outlines by the ground that they lay on: the sides of tiles alone, and the pairs of sides
    pub grounds: Vec<u64>,
    /// outlines of which the table was that of their chords
    pub as_chords: u64,
    /// outlines that were placed and then had too many chords
    pub placed_crowded: u64,
    /// outlines of straight edges alone, whose table was that of the call without marks
    pub straight: u64,
    pub contours: u64,
    /// edges as marked that are straight, and that are curved
    pub marked: [u64; 2],
    /// curves by k
    pub curves: [u64; MOST_HALVINGS + 1],
    /// those of them whose second difference is just at the limit of k, in x or in y, and those with one more than the limit before
    pub at_the_limit: [u64; MOST_HALVINGS + 1],
    pub past_the_limit: [u64; MOST_HALVINGS + 1],
    /// curves that close a contour
    pub closing: u64,
    /// curves with a control point on the border
    pub on_the_border: u64,
    /// coordinates of chords' ends that are rounded: from a half to an even step and to an odd one, from less than a half up and down
    pub halves: [u64; 2],
    pub rounded: [u64; 2],
    /// outlines with as many chords as there may be
    pub full: u64,
}

impl Tally for Seen {
    fn add(&mut self, other: Seen) {
        fn add<const N: usize>(mine: &mut [u64; N], more: [u64; N]) {
            mine.iter_mut().zip(more).for_each(|(mine, more)| *mine += more);
        }
        self.drawn.add(other.drawn);
        self.grounds.resize(GROUNDS as usize, 0);
        self.grounds.iter_mut().zip(other.grounds).for_each(|(mine, more)| *mine += more);
        self.as_chords += other.as_chords;
        self.placed_crowded += other.placed_crowded;
        self.straight += other.straight;
        self.contours += other.contours;
        add(&mut self.marked, other.marked);
        add(&mut self.curves, other.curves);
        add(&mut self.at_the_limit, other.at_the_limit);
        add(&mut self.past_the_limit, other.past_the_limit);
        self.closing += other.closing;
        self.on_the_border += other.on_the_border;
        add(&mut self.halves, other.halves);
        add(&mut self.rounded, other.rounded);
        self.full += other.full;
    }
}

impl Display for Seen {
    fn fmt(&self, to: &mut Formatter) -> std::fmt::Result {
        let drawn = &self.drawn;
        write!(
            to,
            "{} outlines with {} contours, {} curved edges, {} straight ones and {} chords, {} with 1,024, and {} placed outlines; curves of 1 to 128 \
             chords: {:?}, at the limit {:?}, one past the one before {:?}; {} close a contour, {} have a control point on the border; {} coordinates of \
             chords' ends at a half, {} rounded else; {} outlines of straight edges alone; {} cells, {} greys one apart; {} calls, {} refused; worst \
             miss ",
            grouped(drawn.outlines),
            grouped(self.contours),
            grouped(self.marked[1]),
            grouped(self.marked[0]),
            grouped(drawn.edges),
            grouped(self.full),
            grouped(drawn.placed.iter().sum()),
            self.curves,
            self.at_the_limit,
            self.past_the_limit,
            grouped(self.closing),
            grouped(self.on_the_border),
            grouped(self.halves.iter().sum()),
            grouped(self.rounded.iter().sum()),
            grouped(self.straight),
            grouped(drawn.cells),
            grouped(drawn.greys_one_apart),
            grouped(drawn.calls),
            grouped(drawn.calls - drawn.answered[0]),
        )?;
        match &drawn.worst {
            None => write!(to, "none"),
            Some(worst) => worst.fmt(to),
        }
    }
}

impl Seen {
    /// Looks at what an outline is made of.
    fn look_at(&mut self, curved: &Curved) {
        let limit = STEPS * i64::from(curved.outline.side);
        for contour in curved.contours() {
            self.contours += 1;
            for i in 0..contour.len() {
                let Some(curve) = curve(&contour, i) else {
                    self.marked[0] += 1;
                    continue;
                };
                self.marked[1] += 1;
                self.closing += (i + 1 == contour.len()) as u64;
                self.on_the_border += curve.control.iter().any(|&at| at == 0 || at == limit) as u64;
                let k = Spec.halvings(curve);
                self.curves[k as usize] += 1;
                let size = curve.second_difference().map(i128::abs).into_iter().max().unwrap_or(0);
                let most = |k: u32| 4 * 4i128.pow(k);
                self.at_the_limit[k as usize] += (size == most(k)) as u64;
                self.past_the_limit[k as usize] += (k > 0 && size == most(k - 1) + 1) as u64;
                for i in 0..=1 << k {
                    curve.at(i, 1 << k).into_iter().for_each(|value| self.look_at_end(value));
                }
            }
        }
    }

    fn look_at_end(&mut self, Fraction { num, den }: Fraction) {
        let (floor, over) = (num.div_euclid(den), num.rem_euclid(den));
        match 2 * over {
            0 => (),
            // it goes to the next step
            twice if twice == den => self.halves[(floor + 1).rem_euclid(2) as usize] += 1,
            twice => self.rounded[(twice < den) as usize] += 1,
        }
    }
}

/// What the case of this number lies on.
pub fn ground(random: &mut Random, number: u64) -> Ground {
    let at = (number % GROUNDS) as usize;
    match SIDES.get(at) {
        Some(&side) => Ground::Tile(side),
        None => {
            let (sheet, side) = sheets::PAIRS[at - SIDES.len()];
            Ground::Sheet(sheets::any_tile(random, sheet, side))
        }
    }
}

/// The cases of these numbers, on all processors: what was seen, or the first case that fails, with what is wrong there.
pub fn run(seed: u64, numbers: Range<u64>) -> Result<Seen, (u64, Difference)> {
    on_all_processors(numbers, |number, seen| case(&Spec, seed, number, seen))
}

/// One case of a run.
pub fn case(rules: &dyn Rules, seed: u64, number: u64, seen: &mut Seen) -> Result<(), Difference> {
    let random = &mut Random::of_case(seed, number);
    let ground = ground(random, number);
    let large = (number / GROUNDS) % LARGE_ONE_IN == 1;
    let curved = outline(random, ground.reach(), large);
    seen.grounds.resize(GROUNDS as usize, 0);
    seen.grounds[(number % GROUNDS) as usize] += 1;
    seen.drawn.outlines += 1;
    seen.look_at(&curved);
    one_outline(rules, random, ground, &curved, &curved.outline.points, Placement::None, seen)?;
    let (placement, points) = placements::onto_the_tile(random, &curved.outline);
    let placed = curved.placed(placement, &points);
    seen.look_at(&placed);
    seen.drawn.placed[placements::kind(placement)] += 1;
    one_outline(rules, random, ground, &placed, &points, placement, seen)?;
    straight_edges(rules, random, ground, seen)?;
    for _ in 0..DAMAGED_CALLS {
        let curved = outline(random, ground.reach(), false);
        let curved = if random.once_in(3) { crowded(random, &curved) } else { curved };
        let damage::Curving { building, marks, placement } = damage::curving(random, ground, &curved);
        let curves = Curves { points: &building.points, marks: &marks };
        let answer = calls::build_curves(rules, building.ground, curves, &building.counts, placement, &building.table)?;
        seen.drawn.answer(answer);
    }
    Ok(())
}

/// Builds an outline from these points and this placement, which lead to it, draws all there is to draw of it, and holds it to its chords: to the table
/// of building them, and to demand 3 of their exact areas. It may have too many chords if it was placed.
pub fn one_outline(
    rules: &dyn Rules,
    random: &mut Random,
    ground: Ground,
    curved: &Curved,
    points: &[i64],
    placement: Placement,
    seen: &mut Seen,
) -> Result<(), Difference> {
    let side = ground.side();
    let chords = curved.chords();
    let held = damage::any_table(random, (side * side) as usize);
    let curves = Curves { points, marks: &curved.marks };
    let built = calls::build_curves(rules, ground, curves, &curved.outline.counts, placement, &held)?;
    if chords.edges() > MOST_EDGES {
        seen.placed_crowded += 1;
        return match seen.drawn.answer(built.clone()) {
            None if built == Err(5) => Ok(()),
            _ => Err(Difference(format!("{} chords are answered {:?}", chords.edges(), built.map(|_| ())))),
        };
    }
    let Some((edges, table)) = seen.drawn.answer(built) else {
        return Err(Difference("an accepted outline with curves is refused".to_string()));
    };
    let alone = calls::build_on(rules, ground, &chords.points, &chords.counts, None, &held)?;
    if alone != Ok((edges, table.clone())) {
        return Err(Difference("an outline with curves has not the table of its chords".to_string()));
    }
    seen.as_chords += 1;
    seen.drawn.edges += u64::from(edges);
    seen.drawn.empty += chords.counts.is_empty() as u64;
    seen.drawn.octilinear += chords.is_octilinear() as u64;
    seen.full += (edges == MOST_EDGES) as u64;
    let root = match ground {
        Ground::Tile(_) => reference::signed_area(&chords.points, &chords.counts),
        Ground::Sheet(_) => table[0],
    };
    for level in 0..=side.trailing_zeros() {
        let (figures, greys) = pictures(rules, random, side, level, &table, &mut seen.drawn)?;
        let looked = demand3::near_on(rules, ground, &chords, level, root, &figures, &greys)?;
        seen.drawn.add_level(looked);
        cells_alone(rules, random, side, level, &table, &figures, &mut seen.drawn)?;
    }
    Ok(())
}

/// An outline whose marks are all 0 has the table of the call without marks, from points that are placed.
fn straight_edges(rules: &dyn Rules, random: &mut Random, ground: Ground, seen: &mut Seen) -> Result<(), Difference> {
    let outline = outlines::outline(random, ground.reach(), false);
    let (placement, points) = placements::onto_the_tile(random, &outline);
    let held = damage::any_table(random, (ground.side() * ground.side()) as usize);
    let marks = vec![0; outline.edges() as usize];
    let curves = Curves { points: &points, marks: &marks };
    let marked = calls::build_curves(rules, ground, curves, &outline.counts, placement, &held)?;
    let plain = calls::build_on(rules, ground, &points, &outline.counts, Some(placement), &held)?;
    if marked.is_err() || marked != plain {
        return Err(Difference("an outline of straight edges has another table with marks than without".to_string()));
    }
    seen.straight += 1;
    seen.drawn.answer(marked);
    Ok(())
}

#[cfg(test)]
mod tests {
    use super::*;

    #[test]
    fn contours_there_and_back() {
        let mut random = Random::new(5);
        for number in 0..400 {
            let side = sheets::SHEETS[number % sheets::SHEETS.len()];
            let curved = outline(&mut random, side, number % 40 == 0);
            assert_eq!(Curved::of(side, &curved.contours()), curved);
            let contours = curved.contours();
            let chords: Vec<u32> = contours.iter().map(|contour| chords_of(contour).iter().sum()).collect();
            assert_eq!(curved.chords().counts, chords);
            assert!(chords.iter().sum::<u32>() <= MOST_EDGES);
            let limit = STEPS * i64::from(side);
            assert!(curved.outline.points.iter().all(|at| (0..=limit).contains(at)));
            assert!(curved.outline.counts.iter().all(|count| (FEWEST_POINTS..=MOST_EDGES).contains(count)));
        }
    }

    #[test]
    fn second_differences_as_asked() {
        let mut random = Random::new(6);
        for limit in sheets::SHEETS.map(|side| STEPS * i64::from(side)) {
            for difference in [0, 1, -1, 4, 5, -4, -5, 2 * limit - 1, 1 - 2 * limit, 2 * limit, -2 * limit] {
                for _ in 0..20 {
                    let [start, control, end] = with_difference(&mut random, limit, difference);
                    assert_eq!(start - 2 * control + end, difference);
                    assert!([start, control, end].iter().all(|at| (0..=limit).contains(at)));
                }
            }
        }
    }

    #[test]
    fn crowded_outlines_have_about_as_many_chords_as_there_may_be() {
        let mut random = Random::new(7);
        let mut times = [0; 3];
        for number in 0..400 {
            let side = sheets::SHEETS[number % sheets::SHEETS.len()];
            let curved = outline(&mut random, side, false);
            let chords = crowded(&mut random, &curved).chords().edges();
            times[match chords {
                MOST_EDGES => 0,
                1025 => 1,
                _ => 2,
            }] += 1;
            assert!(chords >= MOST_EDGES);
        }
        assert!(times.iter().all(|&times| times > 60), "{times:?}");
    }
}

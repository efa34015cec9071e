//! Placements: random ones that take points onto a tile, or to given points; those that a person gives as words, and what the library is given.
use crate::outlines::Outline;
use crate::random::Random;
use reference::{Limits, Placement, Spec, STEPS};
use std::ffi::{OsStr, OsString};

/// Parts to one: the numbers of a placement are whole numbers of 65,536ths.
const PARTS: i64 = reference::PARTS as i64;
const HALF: i64 = PARTS / 2;
/// The greatest factor and offset, either way, in these.
const MOST_FACTOR: i64 = Limits::SPEC.largest_factor as i64;
const MOST_OFFSET: i64 = Limits::SPEC.largest_offset as i64;

/// A 65,536th, the greatest factor and the greatest offset as floats.
pub const PART: f64 = 1.0 / PARTS as f64;
pub const FACTOR: f64 = MOST_FACTOR as f64 * PART;
pub const OFFSET: f64 = MOST_OFFSET as f64 * PART;

/// The ends of the coordinates that are moved.
pub const LOWEST: i64 = Limits::SPEC.lowest_moved;
pub const HIGHEST: i64 = Limits::SPEC.highest_moved;

/// A placement, and points that it takes to an outline on the tile: to the given one where only whole steps are moved, else to one much like it.
pub fn onto_the_tile(random: &mut Random, outline: &Outline) -> (Placement, Vec<i64>) {
    match random.index(8) {
        0 => (Placement::None, outline.points.clone()),
        1..3 => shift(random, outline),
        3..5 => scale(random, outline),
        _ => turn(random, outline),
    }
}

fn float(parts: i64) -> f64 {
    parts as f64 * PART
}

/// Less than a step, such that a coordinate with it is rounded to the one without: nothing, a half, which goes towards the larger, or any.
fn fraction(random: &mut Random) -> i64 {
    let any = random.within(-HALF, HALF - 1);
    random.pick(&[0, -HALF, any])
}

fn in_reach(coordinate: i64) -> i64 {
    coordinate.clamp(LOWEST, HIGHEST)
}

/// Moved back by whole steps first; what is left of the offsets is rounded away.
fn shift(random: &mut Random, outline: &Outline) -> (Placement, Vec<i64>) {
    let mut whole_steps = || {
        let reach = random.pick(&[2, 2 * STEPS, MOST_OFFSET / PARTS]);
        let any = random.within(-reach, reach);
        (random.pick(&[any, any, reach, -reach]), fraction(random))
    };
    let by = [whole_steps(), whole_steps()];
    // at an end, there is no room for a fraction that goes past it
    let [x, y] = by.map(|(steps, fraction)| (steps * PARTS + fraction).clamp(-MOST_OFFSET, MOST_OFFSET));
    let back = |(i, &at): (usize, &i64)| in_reach(at - by[i % 2].0);
    (Placement::Shift(float(x), float(y)), outline.points.iter().enumerate().map(back).collect())
}

/// Divided first, towards zero, so that no coordinate is past the one that it came from.
fn scale(random: &mut Random, outline: &Outline) -> (Placement, Vec<i64>) {
    let (any, small) = (random.within(-MOST_FACTOR, MOST_FACTOR), random.within(-PARTS, PARTS) >> random.index(8));
    let factor = random.pick(&[any, any, small, PARTS, HALF, -HALF, MOST_FACTOR, -MOST_FACTOR]);
    let back = |&at: &i64| if factor == 0 { at } else { in_reach(at * PARTS / factor) };
    (Placement::Scale(float(factor)), outline.points.iter().map(back).collect())
}

/// About the middle of the tile, or about any other point, which goes to the middle. The outline is made so much smaller first that the factors
/// cannot take it off the tile.
fn turn(random: &mut Random, outline: &Outline) -> (Placement, Vec<i64>) {
    let factors @ [a, b, d, e] = factors(random);
    let most = (a.abs() + b.abs()).max(d.abs() + e.abs());
    let smaller = [1, 2, 4].into_iter().find(|times| most <= times * PARTS).expect("no factor is past 2");
    let middle = STEPS * outline.side as i64 / 2;
    let (from, [c, f]) = to_the_middle(random, outline.side, factors);
    // the largest sheet is one step wider than what is moved
    let back = |(i, &at): (usize, &i64)| in_reach(from[i % 2] + (at - middle) / smaller);
    let points = outline.points.iter().enumerate().map(back).collect();
    (Placement::Turn([a, b, c, d, e, f].map(float)), points)
}

/// A point that a turn of these factors takes to the middle of the tile, and its offsets for that, in 65,536ths.
fn to_the_middle(random: &mut Random, side: u32, [a, b, d, e]: [i64; 4]) -> ([i64; 2], [i64; 2]) {
    let middle = STEPS * side as i64 / 2;
    let room = HIGHEST - middle;
    let (across, down) = (fraction(random), fraction(random));
    let mut from = if random.once_in(2) { [middle; 2] } else { [(); 2].map(|()| random.within(-room, room)) };
    loop {
        let [x, y] = from;
        let (c, f) = (middle * PARTS - a * x - b * y + across, middle * PARTS - d * x - e * y + down);
        if c.abs().max(f.abs()) <= MOST_OFFSET {
            return (from, [c, f]);
        }
        if from == [0, 0] {
            // the middle of the largest sheet is as far as an offset reaches, and there is no room for a fraction that goes past it
            return (from, [c, f].map(|offset| offset.min(MOST_OFFSET)));
        }
        from = [x / 2, y / 2]; // a point nearer to the corner of the tile, which needs less of an offset
    }
}

/// a, b, d and e of a turn, in 65,536ths.
fn factors(random: &mut Random) -> [i64; 4] {
    match random.index(4) {
        // quarter turns, and these seen in a mirror
        0 => {
            let (one, other) = (random.pick(&[PARTS, -PARTS]), random.pick(&[PARTS, -PARTS]));
            random.pick(&[[one, 0, 0, other], [0, one, other, 0]])
        }
        // a sheet that lies askew: the angle's cosine and sine are (1 − t²) / (1 + t²) and 2t / (1 + t²), with t a half of the angle or so
        1 => {
            const OF: i64 = 1 << 10;
            let t = random.within(-OF / 16, OF / 16); // up to 7 degrees either way
            let square = OF * OF + t * t;
            let (cosine, sine) = (PARTS * (OF * OF - t * t) / square, PARTS * 2 * t * OF / square);
            [cosine, -sine, sine, cosine]
        }
        // the same, so much smaller that the tile's corners stay on it
        2 => {
            let slope = random.within(-PARTS / 4, PARTS / 4);
            let along = PARTS - slope.abs();
            [along, -slope, slope, along]
        }
        _ => [(); 4].map(|()| {
            let any = random.within(-MOST_FACTOR, MOST_FACTOR);
            random.pick(&[any, any, any, MOST_FACTOR, -MOST_FACTOR, 0])
        }),
    }
}

/// How many placements are tried for given points before none is taken.
const TRIES: u32 = 8;

/// A placement, and points that it takes to just these, which are on a tile of this side.
pub fn exactly_onto(random: &mut Random, side: u32, points: &[i64]) -> (Placement, Vec<i64>) {
    for _ in 0..TRIES {
        let (placement, turn) = match random.index(8) {
            0 => break,
            1..3 => {
                let mut offset = || {
                    let reach = random.pick(&[2, 2 * STEPS, MOST_OFFSET / PARTS]);
                    let offset = random.within(-reach, reach) * PARTS + fraction(random);
                    offset.clamp(-MOST_OFFSET, MOST_OFFSET)
                };
                let (x, y) = (offset(), offset());
                (Placement::Shift(float(x), float(y)), [PARTS, 0, x, 0, PARTS, y])
            }
            3..5 => {
                let any = random.within(1, PARTS);
                let factor = random.pick(&[any, any, PARTS, HALF, MOST_FACTOR]) * random.pick(&[1, -1]);
                (Placement::Scale(float(factor)), [factor, 0, 0, 0, factor, 0])
            }
            _ => {
                let factors @ [a, b, d, e] = factors(random);
                let (_, [c, f]) = to_the_middle(random, side, factors);
                let turn = [a, b, c, d, e, f];
                (Placement::Turn(turn.map(float)), turn)
            }
        };
        if let Some(before) = led_back(placement, turn, points) {
            return (placement, before);
        }
    }
    (Placement::None, points.to_vec())
}

/// The whole points nearest to those from which a turn, in 65,536ths, would lead to these; where that placement takes them to just these. It does
/// if its factors are small, so that what they are off by is rounded away.
fn led_back(placement: Placement, [a, b, c, d, e, f]: [i64; 6], points: &[i64]) -> Option<Vec<i64>> {
    let determinant = a * e - b * d;
    if determinant == 0 {
        return None;
    }
    let (size, sign) = (determinant.abs(), determinant.signum());
    // halves towards the smaller, for placing takes them towards the larger
    let nearest = |numerator: i64| (2 * sign * numerator + size - 1).div_euclid(2 * size);
    let back = |point: &[i64]| {
        let (x, y) = (PARTS * point[0] - c, PARTS * point[1] - f);
        [nearest(e * x - b * y), nearest(a * y - d * x)]
    };
    let before: Vec<i64> = points.chunks(2).flat_map(back).collect();
    let movable = before.iter().all(|at| (LOWEST..=HIGHEST).contains(at));
    (movable && reference::placed(&Spec, placement, &before) == points).then_some(before)
}

/// Which placement it is: none, a shift, a scale or a turn.
pub fn kind(placement: Placement) -> usize {
    match placement {
        Placement::None => 0,
        Placement::Shift(..) => 1,
        Placement::Scale(_) => 2,
        Placement::Turn(_) => 3,
    }
}

/// The numbers of a placement, as C takes them.
pub fn numbers(placement: Placement) -> Vec<f64> {
    match placement {
        Placement::None => vec![],
        Placement::Scale(factor) => vec![factor],
        Placement::Shift(x, y) => vec![x, y],
        Placement::Turn(numbers) => numbers.to_vec(),
    }
}

/// The placement of these numbers, as many as one has.
pub fn of_numbers(numbers: &[f64]) -> Placement {
    match *numbers {
        [] => Placement::None,
        [factor] => Placement::Scale(factor),
        [x, y] => Placement::Shift(x, y),
        _ => Placement::Turn(numbers.try_into().expect("a turn has six numbers")),
    }
}

/// A placement at the front of some words, as `draw` takes it, and the words after it: `--shift X Y`, `--scale S`, `--turn A B C D E F`, or else
/// none. There is no answer where a number is missing or is no number.
pub fn read(words: &[OsString]) -> Option<(Placement, &[OsString])> {
    let (count, words) = match words.first().map(OsString::as_os_str).and_then(OsStr::to_str) {
        Some("--scale") => (1, &words[1..]),
        Some("--shift") => (2, &words[1..]),
        Some("--turn") => (6, &words[1..]),
        _ => (0, words),
    };
    let (numbers, rest) = words.split_at_checked(count)?;
    let numbers: Option<Vec<f64>> = numbers.iter().map(|word| word.to_str()?.parse().ok()).collect();
    Some((of_numbers(&numbers?), rest))
}

/// The library's own type.
pub fn for_library(placement: Placement) -> mattuliyan::Placement {
    match placement {
        Placement::None => mattuliyan::Placement::None,
        Placement::Shift(x, y) => mattuliyan::Placement::Shift(x, y),
        Placement::Scale(factor) => mattuliyan::Placement::Scale(factor),
        Placement::Turn(numbers) => mattuliyan::Placement::Turn(numbers),
    }
}

#[cfg(test)]
mod tests {
    use super::*;
    use crate::outlines::{contour, outline, SIDES};
    use reference::SheetTile;

    #[test]
    fn placed_outlines_are_on_the_tile() {
        let mut random = Random::new(4);
        let (mut moved, mut halves, mut flat) = (0, 0, 0);
        for number in 0..2100 {
            let outline = outline(&mut random, SIDES[number % 7], number % 50 == 0);
            let (placement, points) = onto_the_tile(&mut random, &outline);
            let table = vec![0; (outline.side * outline.side) as usize];
            let built =
                reference::build_placed(&Spec, outline.side, &points, &outline.counts, placement, &table).map(|_| ());
            assert_eq!(built, Ok(()), "{placement:?}");
            let placed = reference::placed(&Spec, placement, &points);
            moved += (placed != points) as u32;
            flat += (reference::signed_area(&outline.points, &outline.counts) != 0
                && reference::signed_area(&placed, &outline.counts) == 0) as u32;
            halves += on_halves(placement, &points);
        }
        assert!(moved > 1500, "only {moved} outlines are moved");
        assert!(halves > 5000, "only {halves} coordinates are at a half");
        assert!(flat < 100, "{flat} outlines have lost their area");
    }

    #[test]
    fn placements_lead_to_just_these_points() {
        let mut random = Random::new(6);
        let (mut kinds, mut moved, mut halves) = ([0; 4], 0, 0);
        for number in 0..7000 {
            let (side, count) = (SIDES[number % 7], random.within(3, 12) as u32);
            let points = contour(&mut random, side, count);
            let (placement, before) = exactly_onto(&mut random, side, &points);
            assert_eq!(reference::placed(&Spec, placement, &before), points, "{placement:?}");
            kinds[kind(placement)] += 1;
            moved += (before != points) as u32;
            halves += on_halves(placement, &before);
        }
        assert!(kinds.iter().all(|&times| times > 700), "none, shifted, scaled, turned: {kinds:?}");
        assert!(moved > 4500 && halves > 5000, "{moved} moved, {halves} coordinates at a half");
    }

    /// The largest sheet is one step wider than what is moved, and its middle as far as an offset reaches.
    #[test]
    fn placements_onto_the_largest_sheet() {
        let mut random = Random::new(7);
        let place = SheetTile { sheet: 128, side: 1, column: 0, row: 0 };
        let mut kinds = [[0; 4]; 2];
        for _ in 0..3000 {
            let outline = outline(&mut random, place.sheet, false);
            let (placement, points) = onto_the_tile(&mut random, &outline);
            let built = reference::build_on_sheet(&Spec, place, &points, &outline.counts, placement, &[0]);
            assert_eq!(built.map(|(edges, _)| edges), Ok(outline.edges()), "{placement:?}");
            kinds[0][kind(placement)] += 1;
            let (placement, before) = exactly_onto(&mut random, place.sheet, &outline.points);
            assert_eq!(reference::placed(&Spec, placement, &before), outline.points, "{placement:?}");
            kinds[1][kind(placement)] += 1;
        }
        assert!(kinds.iter().flatten().all(|&times| times > 300), "none, shifted, scaled, turned: {kinds:?}");
    }

    /// How many coordinates a placement takes to a half. In floats this is exact, as 02 says.
    fn on_halves(placement: Placement, points: &[i64]) -> u32 {
        let [a, b, c, d, e, f] = match placement {
            Placement::None => return 0,
            Placement::Shift(x, y) => [1.0, 0.0, x, 0.0, 1.0, y],
            Placement::Scale(factor) => [factor, 0.0, 0.0, 0.0, factor, 0.0],
            Placement::Turn(numbers) => numbers,
        };
        let at = |a: f64, b: f64, c: f64, point: &[i64]| a * point[0] as f64 + b * point[1] as f64 + c;
        let half = |at: f64| (at.rem_euclid(1.0) == 0.5) as u32;
        points.chunks(2).map(|point| half(at(a, b, c, point)) + half(at(d, e, f, point))).sum()
    }

    #[test]
    fn numbers_there_and_back() {
        for count in [0, 1, 2, 6] {
            let some = &[1.0, 2.0, 3.0, 4.0, 5.0, 6.0][..count];
            assert_eq!(numbers(of_numbers(some)), some);
        }
    }
}

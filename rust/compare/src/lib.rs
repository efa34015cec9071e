//! The proved library beside the reference, on very many inputs.
//!
//! What no proof covers is compared here: that the compiler made of the proved code what it says, and that what was proved is what was
//! wanted. The library is called through C; the reference was written from the papers alone and works by another method.
//!
//! A run is a list of cases, each made from the run's seed and its own number, so that any of them can be tried again alone. A case takes one
//! accepted outline through building and every drawing call at every level ([`calls`]), and one like it that is placed first ([`placements`]),
//! holds what is drawn to demand 3 with exact areas ([`demand3`]), and makes some calls that may be refused ([`damage`]). Tiles of sheets have runs of
//! their own ([`sheets`]), so have outlines with curved edges ([`curves`]), and so have corrections of tiles, which are runs of series ([`series`]).
//! The letters of TrueType fonts, which are such outlines, are read by [`truetype`].
pub mod calls;
pub mod curves;
pub mod damage;
pub mod demand3;
pub mod outlines;
pub mod placements;
pub mod printing;
pub mod random;
pub mod series;
pub mod sheets;
pub mod truetype;

use calls::{Difference, Ground};
use demand3::{Looked, Worst};
use outlines::{Outline, SIDES};
use random::Random;
use reference::{Rules, Spec};
use std::ops::Range;
use std::panic::{catch_unwind, AssertUnwindSafe};
use std::sync::atomic::{AtomicU64, Ordering};

/// One case in so many has a large outline, of up to 1,024 edges: those take the most time.
const LARGE_ONE_IN: u64 = 100;

/// Cells that are drawn one by one in a level with more than these; in a smaller level all are.
const CELLS_ALONE: usize = 64;

/// Calls that may be refused, of building, of building with a placement, of drawing and of drawing every level each, in a case.
const DAMAGED_CALLS: u32 = 2;

/// One more than the greatest number that a call answers: 0 is the work done; 11 is the tile program's own and is not answered here.
pub const ANSWERS: usize = 17;

/// What a run has seen.
#[derive(Default)]
pub struct Seen {
    pub outlines: u64,
    /// outlines of level and upright edges and those at 45 degrees alone
    pub octilinear: u64,
    pub edges: u64,
    /// outlines with no contour
    pub empty: u64,
    /// outlines with the most edges, by the depth of their tile
    pub largest: [u64; SIDES.len()],
    /// outlines that were drawn as placed: not moved, shifted, scaled, turned
    pub placed: [u64; 4],
    /// cells whose figure and grey were held to exact areas
    pub cells: u64,
    pub greys_one_apart: u64,
    /// those of the cells that are not white though their figure is below zero
    pub inked_below_zero: u64,
    /// outlines, not placed ones, with such a cell in their deepest level, and of these the ones with ink of both signs there
    pub with_ink_below_zero: u64,
    pub with_ink_of_both_signs: u64,
    pub calls: u64,
    /// calls by the number that was answered
    pub answered: [u64; ANSWERS],
    pub worst: Option<Worst>,
}

/// What is counted in each part of a run, and added up.
pub trait Tally: Default + Send {
    fn add(&mut self, other: Self);
}

impl Tally for Seen {
    fn add(&mut self, other: Seen) {
        self.outlines += other.outlines;
        self.octilinear += other.octilinear;
        self.edges += other.edges;
        self.empty += other.empty;
        self.largest.iter_mut().zip(other.largest).for_each(|(mine, more)| *mine += more);
        self.placed.iter_mut().zip(other.placed).for_each(|(mine, more)| *mine += more);
        self.cells += other.cells;
        self.greys_one_apart += other.greys_one_apart;
        self.inked_below_zero += other.inked_below_zero;
        self.with_ink_below_zero += other.with_ink_below_zero;
        self.with_ink_of_both_signs += other.with_ink_of_both_signs;
        self.calls += other.calls;
        self.answered.iter_mut().zip(other.answered).for_each(|(mine, more)| *mine += more);
        self.consider(other.worst);
    }
}

impl Seen {
    fn consider(&mut self, worst: Option<Worst>) {
        let ratio = |worst: &Option<Worst>| worst.as_ref().map_or(-1.0, |worst| worst.ratio);
        if ratio(&worst) > ratio(&self.worst) {
            self.worst = worst;
        }
    }

    /// Adds what was looked at in a level of an outline.
    fn add_level(&mut self, looked: Looked) {
        self.cells += looked.cells;
        self.greys_one_apart += looked.greys_one_apart;
        self.inked_below_zero += looked.inked[1];
        self.consider(looked.worst);
    }

    fn answer<T>(&mut self, answer: Result<T, u8>) -> Option<T> {
        self.calls += 1;
        self.answered[answer.as_ref().err().map_or(0, |&number| number as usize)] += 1;
        answer.ok()
    }
}

/// A number with its thousands set apart.
pub fn grouped(number: u64) -> String {
    let digits = number.to_string();
    let groups: Vec<&str> =
        digits.as_bytes().rchunks(3).rev().map(|group| std::str::from_utf8(group).unwrap()).collect();
    groups.join(",")
}

impl std::fmt::Display for Seen {
    fn fmt(&self, to: &mut std::fmt::Formatter) -> std::fmt::Result {
        write!(
            to,
            "{} outlines ({} octilinear, {} with ink below zero, {} of these with ink above it too) with {} edges, {} placed outlines, {} cells ({} with ink below zero), {} greys one apart; {} calls, {} refused; worst miss ",
            grouped(self.outlines),
            grouped(self.octilinear),
            grouped(self.with_ink_below_zero),
            grouped(self.with_ink_of_both_signs),
            grouped(self.edges),
            grouped(self.placed.iter().sum()),
            grouped(self.cells),
            grouped(self.inked_below_zero),
            grouped(self.greys_one_apart),
            grouped(self.calls),
            grouped(self.calls - self.answered[0]),
        )?;
        match &self.worst {
            None => write!(to, "none"),
            Some(worst) => worst.fmt(to),
        }
    }
}

/// One case of a run.
pub fn case(rules: &dyn Rules, seed: u64, number: u64, seen: &mut Seen) -> Result<(), Difference> {
    let random = &mut Random::of_case(seed, number);
    let side = SIDES[(number % SIDES.len() as u64) as usize];
    let large = (number / SIDES.len() as u64).is_multiple_of(LARGE_ONE_IN);
    let outline = outlines::outline(random, side, large);
    from_outline_to_pictures(rules, random, &outline, seen)?;
    from_placed_to_pictures(rules, random, &outline, seen)?;
    let ground = Ground::Tile(side);
    for _ in 0..DAMAGED_CALLS {
        damaged_building(rules, random, ground, &outline, seen)?;
        damaged_placing(rules, random, ground, &outline, seen)?;
        damaged_drawing(rules, random, side, seen)?;
    }
    any_pictures(rules, random, side, seen)?;
    for _ in 0..DAMAGED_CALLS {
        damaged_every_level(rules, random, side, seen)?;
    }
    Ok(())
}

/// Builds an accepted outline, draws all there is to draw, and holds it to demand 3.
pub fn from_outline_to_pictures(
    rules: &dyn Rules,
    random: &mut Random,
    outline: &Outline,
    seen: &mut Seen,
) -> Result<(), Difference> {
    let Outline { side, ref points, ref counts } = *outline;
    let held = damage::any_table(random, (side * side) as usize);
    let Some((edges, table)) = seen.answer(calls::build(rules, side, points, counts, &held)?) else {
        return Err(Difference("an accepted outline is refused".to_string()));
    };
    let area = reference::signed_area(points, counts);
    seen.outlines += 1;
    seen.octilinear += outline.is_octilinear() as u64;
    seen.edges += edges as u64;
    seen.empty += counts.is_empty() as u64;
    seen.largest[outline.depth() as usize] += (edges == outlines::MOST_EDGES) as u64;
    let mut one_by_one = Vec::new();
    for level in 0..=outline.depth() {
        let (figures, greys) = pictures(rules, random, side, level, &table, seen)?;
        one_by_one.extend(&greys);
        let looked = demand3::near_by(rules, outline, level, area, &figures, &greys)?;
        if level == outline.depth() {
            let [above, below] = looked.inked;
            seen.with_ink_below_zero += (below > 0) as u64;
            seen.with_ink_of_both_signs += (above > 0 && below > 0) as u64;
        }
        seen.add_level(looked);
        cells_alone(rules, random, side, level, &table, &figures, seen)?;
    }
    every_level(rules, side, &table, &one_by_one, seen)
}

/// Builds an outline much like this one from points that are placed, draws every level, and holds it to demand 3 of the points as placed. (Not
/// cell by cell: to a table it makes no difference how it was built.)
fn from_placed_to_pictures(
    rules: &dyn Rules,
    random: &mut Random,
    outline: &Outline,
    seen: &mut Seen,
) -> Result<(), Difference> {
    let (placement, points) = placements::onto_the_tile(random, outline);
    let placed = Outline { points: reference::placed(&Spec, placement, &points), ..outline.clone() };
    let Outline { side, ref counts, .. } = placed;
    let held = damage::any_table(random, (side * side) as usize);
    let Some((_, table)) = seen.answer(calls::build_placed(rules, side, &points, counts, placement, &held)?) else {
        return Err(Difference("an accepted outline is refused with its placement".to_string()));
    };
    seen.placed[placements::kind(placement)] += 1;
    let area = reference::signed_area(&placed.points, counts);
    for level in 0..=placed.depth() {
        let (figures, greys) = pictures(rules, random, side, level, &table, seen)?;
        seen.add_level(demand3::near_by(rules, &placed, level, area, &figures, &greys)?);
    }
    Ok(())
}

/// Draws a level of a table as figures and as greys.
fn pictures(
    rules: &dyn Rules,
    random: &mut Random,
    side: u32,
    level: u32,
    table: &[i64],
    seen: &mut Seen,
) -> Result<(Vec<i64>, Vec<u8>), Difference> {
    let held: Vec<i64> = damage::any_table(random, 1 << (2 * level));
    let bytes: Vec<u8> = held.iter().map(|&entry| entry as u8).collect();
    let figures = seen.answer(calls::figures(rules, side, level, table, &held)?);
    let greys = seen.answer(calls::greys(rules, side, level, table, &bytes)?);
    let (Some(figures), Some(greys)) = (figures, greys) else {
        return Err(Difference(format!("a picture of level {level} is refused")));
    };
    Ok((figures, greys))
}

/// Draws every level of a table in one call: these greys, which were drawn one level at a time.
fn every_level(
    rules: &dyn Rules,
    side: u32,
    table: &[i64],
    one_by_one: &[u8],
    seen: &mut Seen,
) -> Result<(), Difference> {
    // whatever the list holds before, none of the greys is in its place by chance
    let held: Vec<u8> = one_by_one.iter().map(|grey| !grey).collect();
    if seen.answer(calls::pyramid(rules, side, table, &held)?).as_deref() != Some(one_by_one) {
        return Err(Difference("the greys of every level are not those of each".to_string()));
    }
    Ok(())
}

/// Draws cells of a level one by one: all, or some where there are many.
fn cells_alone(
    rules: &dyn Rules,
    random: &mut Random,
    side: u32,
    level: u32,
    table: &[i64],
    figures: &[i64],
    seen: &mut Seen,
) -> Result<(), Difference> {
    for i in 0..figures.len().min(CELLS_ALONE) {
        let at = if figures.len() <= CELLS_ALONE { i } else { random.index(figures.len()) };
        let (cx, cy) = (at as u32 % (1 << level), at as u32 >> level);
        if seen.answer(calls::cell(rules, side, level, cx, cy, table)?) != Some(figures[at]) {
            return Err(Difference(format!("level {level}: cell ({cx}, {cy}) alone is not the picture's")));
        }
    }
    Ok(())
}

/// Every level of a table that no outline need have, its entries up to the limit.
fn any_pictures(rules: &dyn Rules, random: &mut Random, side: u32, seen: &mut Seen) -> Result<(), Difference> {
    let table = damage::table_in_range(random, (side * side) as usize);
    let mut one_by_one = Vec::new();
    for level in 0..=side.trailing_zeros() {
        let (figures, greys) = pictures(rules, random, side, level, &table, seen)?;
        one_by_one.extend(greys);
        cells_alone(rules, random, side, level, &table, &figures, seen)?;
    }
    every_level(rules, side, &table, &one_by_one, seen)
}

fn damaged_building(
    rules: &dyn Rules,
    random: &mut Random,
    ground: Ground,
    outline: &Outline,
    seen: &mut Seen,
) -> Result<(), Difference> {
    let call = damage::building(random, ground, outline);
    seen.answer(calls::build_on(rules, call.ground, &call.points, &call.counts, None, &call.table)?);
    Ok(())
}

fn damaged_placing(
    rules: &dyn Rules,
    random: &mut Random,
    ground: Ground,
    outline: &Outline,
    seen: &mut Seen,
) -> Result<(), Difference> {
    let (call, placement) = damage::placing(random, ground, outline);
    seen.answer(calls::build_on(rules, call.ground, &call.points, &call.counts, Some(placement), &call.table)?);
    Ok(())
}

fn damaged_drawing(rules: &dyn Rules, random: &mut Random, side: u32, seen: &mut Seen) -> Result<(), Difference> {
    let call = damage::drawing(random, side);
    let held = damage::any_table(random, call.places);
    let bytes: Vec<u8> = held.iter().map(|&entry| entry as u8).collect();
    seen.answer(calls::figures(rules, call.side, call.level, &call.table, &held)?);
    seen.answer(calls::greys(rules, call.side, call.level, &call.table, &bytes)?);
    seen.answer(calls::cell(rules, call.side, call.level, call.cx, call.cy, &call.table)?);
    Ok(())
}

fn damaged_every_level(rules: &dyn Rules, random: &mut Random, side: u32, seen: &mut Seen) -> Result<(), Difference> {
    let call = damage::every_level(random, side);
    let held: Vec<u8> = damage::any_table(random, call.places).iter().map(|&entry| entry as u8).collect();
    seen.answer(calls::pyramid(rules, call.side, &call.table, &held)?);
    Ok(())
}

/// What was found, a panic being a difference too, so that it is said in which case it came.
pub fn tried<T>(what: impl FnOnce() -> Result<T, Difference>) -> Result<T, Difference> {
    catch_unwind(AssertUnwindSafe(what)).unwrap_or_else(|_| Err(Difference("a panic, told above".to_string())))
}

/// The cases of these numbers, on all processors: what was seen, or the first case that fails, with what is wrong there.
pub fn run(seed: u64, numbers: Range<u64>) -> Result<Seen, (u64, Difference)> {
    on_all_processors(numbers, |number, seen| case(&Spec, seed, number, seen))
}

/// Something of each of these numbers, on all processors: what was counted, or the first number that fails, with what is wrong there.
pub fn on_all_processors<T: Tally>(
    numbers: Range<u64>,
    each: impl Fn(u64, &mut T) -> Result<(), Difference> + Sync,
) -> Result<T, (u64, Difference)> {
    let threads = std::thread::available_parallelism().map_or(1, |n| n.get() as u64);
    // none after one that failed need be tried
    let end = AtomicU64::new(numbers.end);
    let part = |first: u64| {
        let mut seen = T::default();
        let mut number = numbers.start + first;
        while number < end.load(Ordering::Relaxed) {
            if let Err(difference) = tried(|| each(number, &mut seen)) {
                end.fetch_min(number, Ordering::Relaxed);
                return Err((number, difference));
            }
            number += threads;
        }
        Ok(seen)
    };
    let parts: Vec<Result<T, (u64, Difference)>> = std::thread::scope(|scope| {
        let running: Vec<_> = (0..threads).map(|first| scope.spawn(move || part(first))).collect();
        running.into_iter().map(|thread| thread.join().expect("panics are caught in each case")).collect()
    });
    let mut seen = T::default();
    let mut failed = Vec::new();
    for part in parts {
        match part {
            Ok(more) => seen.add(more),
            Err(failure) => failed.push(failure),
        }
    }
    failed.into_iter().min_by_key(|&(number, _)| number).map_or(Ok(seen), Err)
}

//! Series of corrections: contours are put into a tile and taken out of it, by the library, by its own type for tiles and by the reference.
//!
//! A series begins with an empty tile, or with what building left. Each contour that is taken out is in the tile, and mostly comes under another
//! placement than it was put in, which leads to the same points. At the end the tile is what building the contours that remain leaves, in another
//! order and in a table that held anything; and once in a while what is drawn is held to exact areas. Between these calls others are made on
//! copies of the tile, so that the series stays what it is: calls that may be refused ([`damage`]), and contours taken out that are not in. Then
//! there are tiles that no series leaves, of any record and with entries up to the limit.
//!
//! The tile is one alone, or one of a sheet that keeps its place from the first call to the last. There are series of straight contours alone, and
//! series in which these and contours with curved edges are put into one tile.
use crate::calls::{self, Correcting, Difference, Ground, Tile};
use crate::curves::{self, Curved};
use crate::outlines::{self, Outline, FEWEST_POINTS, MOST_EDGES, SIDES};
use crate::random::Random;
use crate::{damage, demand3, grouped, on_all_processors, placements, sheets, Tally, ANSWERS};
use reference::{Correction, Curves, Placement, Rules, Spec};
use std::fmt::{Display, Formatter};
use std::ops::Range;

/// One series in so many has large contours, of up to 1,024 points, and so a tile that can be full.
const LARGE_ONE_IN: u64 = 24;

/// One series in so many is held to exact areas at its end, which takes the most time.
const NEAR_ONE_IN: u64 = 8;

/// Calls on a tile that no series need leave.
const CALLS_ON_ANY_TILE: u32 = 4;

/// What a run of series has seen. Where there are two numbers, the first is of putting in and the second of taking out.
#[derive(Default)]
pub struct Seen {
    /// series from an empty tile, from a built one, from one built with a placement
    pub series: [u64; 3],
    /// contours put in and taken out in series
    pub corrected: [u64; 2],
    /// contours that were put in: not moved, shifted, scaled, turned
    pub put_under: [u64; 4],
    /// contours that were taken out, likewise
    pub taken_under: [u64; 4],
    /// contours that were taken out under another placement than they came in
    pub under_another: u64,
    /// contours with marks that were put in and taken out in series
    pub marked: [u64; 2],
    /// contours that were put in with marks and taken out without them, as their chords; and those put in without and taken out with marks of 0
    pub marked_otherwise: [u64; 2],
    /// contours with the most points that were put in or taken out
    pub longest: u64,
    /// contours that are not in and were taken out all the same
    pub not_in: u64,
    /// series in which the tile was full: it had the most edges
    pub full: u64,
    /// series at the end of which all contours were taken out
    pub emptied: u64,
    /// contours that remained at the end
    pub remained: u64,
    /// series at the end of which what is drawn was held to exact areas
    pub near: u64,
    /// corrections that were undone, on tiles that no series need leave
    pub undone: u64,
    pub calls: u64,
    /// calls by the number that was answered
    pub answered: [[u64; ANSWERS]; 2],
    /// calls that were answered 9 though the table before them is in range
    pub would_leave: [u64; 2],
    /// calls that were done and took an entry to the limit
    pub to_the_limit: [u64; 2],
}

impl Tally for Seen {
    fn add(&mut self, other: Seen) {
        fn add<const N: usize>(mine: &mut [u64; N], more: [u64; N]) {
            mine.iter_mut().zip(more).for_each(|(mine, more)| *mine += more);
        }
        add(&mut self.series, other.series);
        add(&mut self.corrected, other.corrected);
        add(&mut self.put_under, other.put_under);
        add(&mut self.taken_under, other.taken_under);
        self.under_another += other.under_another;
        add(&mut self.marked, other.marked);
        add(&mut self.marked_otherwise, other.marked_otherwise);
        self.longest += other.longest;
        self.not_in += other.not_in;
        self.full += other.full;
        self.emptied += other.emptied;
        self.remained += other.remained;
        self.near += other.near;
        self.undone += other.undone;
        self.calls += other.calls;
        self.answered.iter_mut().zip(other.answered).for_each(|(mine, more)| add(mine, more));
        add(&mut self.would_leave, other.would_leave);
        add(&mut self.to_the_limit, other.to_the_limit);
    }
}

impl Seen {
    pub fn refused(&self) -> u64 {
        self.answered.iter().flat_map(|answered| &answered[1..]).sum()
    }

    fn answer(&mut self, call: &Correcting, answer: &Result<Tile, u8>) {
        let which = call.correction as usize;
        let number = answer.as_ref().err().map_or(0, |&number| number as usize);
        self.calls += 1;
        self.answered[which][number] += 1;
        let before = &call.tile.table;
        let in_range = |entry: &i64| (-damage::ENTRY_LIMIT..=damage::ENTRY_LIMIT).contains(entry);
        let to_the_limit = |(&before, &after): (&i64, &i64)| before != after && after.abs() == damage::ENTRY_LIMIT;
        self.would_leave[which] += (number == 9 && before.iter().all(in_range)) as u64;
        self.to_the_limit[which] +=
            answer.as_ref().is_ok_and(|left| before.iter().zip(&left.table).any(to_the_limit)) as u64;
    }
}

impl Display for Seen {
    fn fmt(&self, to: &mut Formatter) -> std::fmt::Result {
        write!(
            to,
            "{} series, {} from an empty tile, in which {} contours were put in and {} taken out, {} under another placement, {} of 1,024 \
             points; {} tiles full, {} emptied, {} held to exact areas; {} contours taken out that were not in, {} corrections undone; {} calls, \
             {} refused, {} for the table that would be left, and {} that took an entry to the limit",
            grouped(self.series.iter().sum()),
            grouped(self.series[0]),
            grouped(self.corrected[0]),
            grouped(self.corrected[1]),
            grouped(self.under_another),
            grouped(self.longest),
            grouped(self.full),
            grouped(self.emptied),
            grouped(self.near),
            grouped(self.not_in),
            grouped(self.undone),
            grouped(self.calls),
            grouped(self.refused()),
            grouped(self.would_leave.iter().sum()),
            grouped(self.to_the_limit.iter().sum()),
        )
    }
}

/// A contour that is in a tile: its points as placed, its marks if it came with them, and the placement under which it came.
struct Contour {
    points: Vec<i64>,
    marks: Option<Vec<u8>>,
    placement: Placement,
}

impl Contour {
    /// The contour with marks, which are 0 where it came without.
    fn marked(&self, side: u32) -> Curved {
        let (points, marks) = (self.points.clone(), self.marks.clone().unwrap_or(vec![0; self.points.len() / 2]));
        Curved { outline: Outline { side, points, counts: vec![marks.len() as u32] }, marks }
    }
}

/// A tile whose contours are known.
struct Known {
    ground: Ground,
    /// whether contours with curved edges come among the others
    mixed: bool,
    tile: Tile,
    /// the same tile, in the library's own type
    owned: mattuliyan::Tile,
    contours: Vec<Contour>,
}

/// The series of these numbers, on all processors: what was seen, or the first that fails, with what is wrong there.
pub fn run(seed: u64, numbers: Range<u64>) -> Result<Seen, (u64, Difference)> {
    on_all_processors(numbers, |number, seen| series(&Spec, seed, number, seen))
}

/// The series of these numbers on tiles of sheets, likewise.
pub fn run_on_sheets(seed: u64, numbers: Range<u64>) -> Result<Seen, (u64, Difference)> {
    on_all_processors(numbers, |number, seen| series_on_sheet(&Spec, seed, number, seen))
}

/// The series of these numbers with curves, on tiles alone and on tiles of sheets, likewise.
pub fn run_with_curves(seed: u64, numbers: Range<u64>) -> Result<Seen, (u64, Difference)> {
    on_all_processors(numbers, |number, seen| series_with_curves(&Spec, seed, number, seen))
}

/// One series of a run, and calls on a tile that no series need leave.
pub fn series(rules: &dyn Rules, seed: u64, number: u64, seen: &mut Seen) -> Result<(), Difference> {
    let random = &mut Random::of_case(seed, number);
    let ground = Ground::Tile(SIDES[(number % SIDES.len() as u64) as usize]);
    let large = (number / SIDES.len() as u64).is_multiple_of(LARGE_ONE_IN);
    from_tile_to_tile(rules, random, ground, large, false, seen)?;
    on_any_tile(rules, random, ground, false, seen)
}

/// The same, on a tile of a sheet.
pub fn series_on_sheet(rules: &dyn Rules, seed: u64, number: u64, seen: &mut Seen) -> Result<(), Difference> {
    let random = &mut Random::of_case(seed, number);
    let (sheet, side) = sheets::PAIRS[(number % sheets::PAIRS.len() as u64) as usize];
    let ground = Ground::Sheet(sheets::any_tile(random, sheet, side));
    let large = (number / sheets::PAIRS.len() as u64).is_multiple_of(LARGE_ONE_IN);
    from_tile_to_tile(rules, random, ground, large, false, seen)?;
    on_any_tile(rules, random, ground, false, seen)
}

/// The same with curves, on tiles alone and on tiles of sheets in turn.
pub fn series_with_curves(rules: &dyn Rules, seed: u64, number: u64, seen: &mut Seen) -> Result<(), Difference> {
    let random = &mut Random::of_case(seed, number);
    let ground = curves::ground(random, number);
    let large = (number / curves::GROUNDS).is_multiple_of(LARGE_ONE_IN);
    from_tile_to_tile(rules, random, ground, large, true, seen)?;
    on_any_tile(rules, random, ground, true, seen)
}

/// A series from its beginning to its end, where the tile is held to what building what remains leaves.
fn from_tile_to_tile(
    rules: &dyn Rules,
    random: &mut Random,
    ground: Ground,
    large: bool,
    mixed: bool,
    seen: &mut Seen,
) -> Result<(), Difference> {
    let mut known = begin(rules, random, ground, large, mixed, seen)?;
    let mut full = false;
    // with large contours the tile is soon full, and then empty
    let steps = if large { random.within(3, 6) } else { random.within(3, 16) };
    for _ in 0..steps {
        if random.index(5) < 2 && !known.contours.is_empty() {
            take_one(rules, random, &mut known, seen)?;
        } else {
            put_one(rules, random, &mut known, large, seen)?;
        }
        full |= known.tile.record == MOST_EDGES;
        if random.once_in(2) {
            beside(rules, random, &known, seen)?;
        }
    }
    if random.once_in(4) {
        while !known.contours.is_empty() {
            take_one(rules, random, &mut known, seen)?;
        }
        seen.emptied += 1;
    }
    seen.full += full as u64;
    seen.remained += known.contours.len() as u64;
    let remaining = as_built(rules, random, &known)?;
    let near = random.once_in(NEAR_ONE_IN);
    seen.near += near as u64;
    as_drawn(rules, random, &known, near.then_some(&remaining))
}

/// An empty tile, or what building left.
fn begin(
    rules: &dyn Rules,
    random: &mut Random,
    ground: Ground,
    large: bool,
    mixed: bool,
    seen: &mut Seen,
) -> Result<Known, Difference> {
    let entries = (ground.side() * ground.side()) as usize;
    let way = random.pick(&[0, 0, 1, 2]);
    seen.series[way] += 1;
    if way == 0 {
        let empty = match ground {
            Ground::Tile(side) => mattuliyan::Tile::new(side),
            Ground::Sheet(place) => mattuliyan::Tile::on_sheet(sheets::for_library(place)),
        };
        let owned = empty.map_err(|refusal| Difference(format!("an empty tile: {refusal}")))?;
        let tile = Tile { record: 0, table: vec![0; entries] };
        calls::same_owned(&owned, ground, &tile)?;
        return Ok(Known { ground, mixed, tile, owned, contours: Vec::new() });
    }
    if mixed {
        return begin_with_curves(rules, random, ground, large, way == 2);
    }
    let outline = outlines::outline(random, ground.reach(), large);
    let held = damage::any_table(random, entries);
    let counts = &outline.counts;
    let (placement, points) = match way {
        1 => (None, outline.points.clone()),
        _ => {
            let (placement, points) = placements::onto_the_tile(random, &outline);
            (Some(placement), points)
        }
    };
    let built = calls::build_on(rules, ground, &points, counts, placement, &held)?;
    let (record, table) =
        built.map_err(|number| Difference(format!("an accepted outline is refused with {number}")))?;
    let placement = placement.unwrap_or_default();
    let lent = placements::for_library(placement);
    let owned = match ground {
        Ground::Tile(side) => mattuliyan::Tile::build(side, &points, counts, lent),
        Ground::Sheet(place) => mattuliyan::Tile::build_on_sheet(sheets::for_library(place), &points, counts, lent),
    };
    let owned = owned.map_err(|refusal| Difference(format!("a tile of an accepted outline: {refusal}")))?;
    let tile = Tile { record, table };
    calls::same_owned(&owned, ground, &tile)?;

    let mut placed = reference::placed(&Spec, placement, &points);
    let contours = counts
        .iter()
        .map(|&count| {
            let rest = placed.split_off(2 * count as usize);
            Contour { points: std::mem::replace(&mut placed, rest), marks: None, placement }
        })
        .collect();
    Ok(Known { ground, mixed, tile, owned, contours })
}

/// What building an outline with curved edges left, from points that are placed if it is to be so.
fn begin_with_curves(
    rules: &dyn Rules,
    random: &mut Random,
    ground: Ground,
    large: bool,
    placed: bool,
) -> Result<Known, Difference> {
    let curved = curves::outline(random, ground.reach(), large);
    let as_it_is = (Placement::None, curved.outline.points.clone());
    let (placement, points) =
        if placed { placements::onto_the_tile(random, &curved.outline) } else { as_it_is.clone() };
    // as placed, it may have more chords than there may be
    let crowded = curved.placed(placement, &points).chords().edges() > MOST_EDGES;
    let (placement, points) = if crowded { as_it_is } else { (placement, points) };

    let (counts, marks) = (&curved.outline.counts, &curved.marks);
    let held = damage::any_table(random, (ground.side() * ground.side()) as usize);
    let built = calls::build_curves(rules, ground, Curves { points: &points, marks }, counts, placement, &held)?;
    let (record, table) =
        built.map_err(|number| Difference(format!("an accepted outline with curves is refused with {number}")))?;
    let lent = placements::for_library(placement);
    let owned = mattuliyan::Tile::build_curves(ground.for_library(), &points, counts, marks, lent);
    let owned = owned.map_err(|refusal| Difference(format!("a tile of an accepted outline: {refusal}")))?;
    let tile = Tile { record, table };
    calls::same_owned(&owned, ground, &tile)?;

    let contours = curved.placed(placement, &points).contours().into_iter().map(|contour| {
        let Curved { outline, marks } = Curved::of(ground.reach(), &[contour]);
        Contour { points: outline.points, marks: Some(marks), placement }
    });
    Ok(Known { ground, mixed: true, tile, owned, contours: contours.collect() })
}

/// Puts a contour with curved edges in, if there is room for its chords.
fn put_one_with_curves(
    rules: &dyn Rules,
    random: &mut Random,
    known: &mut Known,
    large: bool,
    seen: &mut Seen,
) -> Result<(), Difference> {
    let side = known.ground.reach();
    let curved = match known.contours.len() {
        // one that is in once more
        within @ 1.. if random.once_in(8) => known.contours[random.index(within)].marked(side),
        _ => {
            let contour = curves::contour(random, side, large);
            Curved::of(side, &[contour])
        }
    };
    let (placement, points) = placements::onto_the_tile(random, &curved.outline);
    let placed = curved.placed(placement, &points);
    let chords = placed.chords().edges();
    let call = known.call(Correction::PutIn, points, Some(placed.marks.clone()), placement);
    let room = known.tile.record + chords <= MOST_EDGES;
    match (known.correct(rules, &call, seen)?, room) {
        (Ok(()), true) => {
            seen.corrected[0] += 1;
            seen.marked[0] += 1;
            seen.put_under[placements::kind(placement)] += 1;
            known.contours.push(Contour { points: placed.outline.points, marks: Some(placed.marks), placement });
            Ok(())
        }
        (Err(5), false) => Ok(()),
        (answer, _) => Err(Difference(format!("putting {chords} chords to {}: {answer:?}", call.tile.record))),
    }
}

/// Puts a contour in, if there is room for it.
fn put_one(
    rules: &dyn Rules,
    random: &mut Random,
    known: &mut Known,
    large: bool,
    seen: &mut Seen,
) -> Result<(), Difference> {
    if known.mixed && random.once_in(2) {
        return put_one_with_curves(rules, random, known, large, seen);
    }
    let side = known.ground.reach();
    let (placement, points) = match known.contours.len() {
        // one that is in once more, or backwards, which leaves of it nothing but edges
        within @ 1.. if random.once_in(8) => {
            let contour = &known.contours[random.index(within)];
            let mut points = match contour.marks {
                Some(_) => contour.marked(side).chords().points,
                None => contour.points.clone(),
            };
            if random.once_in(2) {
                points.reverse();
                points.chunks_mut(2).for_each(|point| point.swap(0, 1));
            }
            placements::exactly_onto(random, side, &points)
        }
        _ => {
            let count = a_count(random, large, known.tile.record);
            let points = outlines::contour(random, side, count);
            placements::onto_the_tile(random, &Outline { side, points, counts: vec![count] })
        }
    };
    let call = known.call(Correction::PutIn, points, None, placement);
    let count = call.count;
    let room = known.tile.record + count <= MOST_EDGES;
    match (known.correct(rules, &call, seen)?, room) {
        (Ok(()), true) => {
            seen.corrected[0] += 1;
            seen.put_under[placements::kind(placement)] += 1;
            seen.longest += (count == MOST_EDGES) as u64;
            let points = reference::placed(&Spec, placement, &call.points);
            known.contours.push(Contour { points, marks: None, placement });
            Ok(())
        }
        (Err(5), false) => Ok(()),
        (answer, _) => Err(Difference(format!("putting {count} edges to {}: {answer:?}", call.tile.record))),
    }
}

/// Takes out a contour that is in, under a placement that leads to its points.
fn take_one(rules: &dyn Rules, random: &mut Random, known: &mut Known, seen: &mut Seen) -> Result<(), Difference> {
    let mut contour = known.contours.swap_remove(random.index(known.contours.len()));
    // a contour is known by its chords, with marks and without
    if known.mixed && random.once_in(4) {
        seen.marked_otherwise[contour.marks.is_none() as usize] += 1;
        let marked = contour.marked(known.ground.reach());
        (contour.points, contour.marks) = match contour.marks {
            Some(_) => (marked.chords().points, None),
            None => (marked.outline.points, Some(marked.marks)),
        };
    }
    let (placement, points) = placements::exactly_onto(random, known.ground.reach(), &contour.points);
    let call = known.call(Correction::TakeOut, points, contour.marks, placement);
    if let Err(number) = known.correct(rules, &call, seen)? {
        return Err(Difference(format!("taking out a contour that is in is refused with {number}")));
    }
    seen.corrected[1] += 1;
    seen.marked[1] += call.marks.is_some() as u64;
    seen.taken_under[placements::kind(placement)] += 1;
    seen.under_another += (placement != contour.placement) as u64;
    seen.longest += (call.count == MOST_EDGES) as u64;
    Ok(())
}

/// How many points a contour has: a few, some dozens, or up to the most; and where it is to be large, often as many as there is room for, or one
/// more.
fn a_count(random: &mut Random, large: bool, record: u32) -> u32 {
    let room = MOST_EDGES.saturating_sub(record);
    let most = match random.index(8) {
        0 if large => room,
        1 if large => room + 1,
        2 if large => MOST_EDGES,
        3 if large => random.within(3, MOST_EDGES.into()) as u32,
        0 => random.within(3, 48) as u32,
        _ => random.within(3, 12) as u32,
    };
    most.clamp(FEWEST_POINTS, MOST_EDGES)
}

impl Known {
    /// A call on this tile.
    fn call(
        &self,
        correction: Correction,
        points: Vec<i64>,
        marks: Option<Vec<u8>>,
        placement: Placement,
    ) -> Correcting {
        let count = marks.as_ref().map_or(points.len() / 2, Vec::len) as u32;
        Correcting { correction, ground: self.ground, points, marks, count, placement, tile: self.tile.clone() }
    }

    /// Makes a call, and keeps the tile that it leaves.
    fn correct(&mut self, rules: &dyn Rules, call: &Correcting, seen: &mut Seen) -> Result<Result<(), u8>, Difference> {
        let answer = calls::correct(rules, call)?;
        seen.answer(call, &answer);
        calls::correct_owned(&mut self.owned, call, &answer)?;
        Ok(answer.map(|left| self.tile = left))
    }
}

/// Calls on copies of a tile: one that may be refused, and a contour taken out that is not in.
fn beside(rules: &dyn Rules, random: &mut Random, known: &Known, seen: &mut Seen) -> Result<(), Difference> {
    let stranger = a_call(random, known.ground, known.mixed, known.tile.clone());
    let damaged = damage::correcting(random, stranger.clone());
    let stranger = Correcting { correction: Correction::TakeOut, ..stranger };
    for (call, counted) in [(damaged, false), (stranger, true)] {
        let answer = calls::correct(rules, &call)?;
        seen.answer(&call, &answer);
        seen.not_in += (counted && answer.is_ok()) as u64;
        // what a tile of the library's own type can be asked for
        let whole = call.count as usize == call.marks.as_ref().map_or(call.points.len() / 2, Vec::len);
        if whole && call.ground == known.ground && call.tile == known.tile {
            calls::correct_owned(&mut known.owned.clone(), &call, &answer)?;
        }
    }
    Ok(())
}

/// Puts some contour in or takes it out.
fn a_call(random: &mut Random, ground: Ground, mixed: bool, tile: Tile) -> Correcting {
    if mixed && !random.once_in(4) {
        return a_call_with_curves(random, ground, tile);
    }
    let (side, count) = (ground.reach(), a_count(random, false, 0));
    let points = outlines::contour(random, side, count);
    let (placement, points) = placements::onto_the_tile(random, &Outline { side, points, counts: vec![count] });
    let correction = random.pick(&[Correction::PutIn, Correction::TakeOut]);
    Correcting { correction, ground, points, marks: None, count, placement, tile }
}

/// The same of a contour with curved edges, which may have more chords than there may be.
fn a_call_with_curves(random: &mut Random, ground: Ground, tile: Tile) -> Correcting {
    let side = ground.reach();
    let Curved { outline, marks } = if random.once_in(6) {
        let nothing = Curved::of(side, &[]);
        curves::crowded(random, &nothing)
    } else {
        let contour = curves::contour(random, side, false);
        Curved::of(side, &[contour])
    };
    let (placement, points) = placements::onto_the_tile(random, &outline);
    let correction = random.pick(&[Correction::PutIn, Correction::TakeOut]);
    let count = marks.len() as u32;
    Correcting { correction, ground, points, marks: Some(marks), count, placement, tile }
}

/// At the end of a series, the tile is the one that building what remains leaves, in any order and in a table that held anything. The answer is
/// what remains, in such an order.
fn as_built(rules: &dyn Rules, random: &mut Random, known: &Known) -> Result<Outline, Difference> {
    let mut contours: Vec<&Contour> = known.contours.iter().collect();
    for last in (1..contours.len()).rev() {
        contours.swap(last, random.index(last + 1));
    }
    let side = known.ground.reach();
    let marked: Vec<Curved> = contours.iter().map(|contour| contour.marked(side)).collect();
    let remaining = Curved {
        outline: Outline {
            side,
            points: marked.iter().flat_map(|contour| &contour.outline.points).copied().collect(),
            counts: marked.iter().flat_map(|contour| &contour.outline.counts).copied().collect(),
        },
        marks: marked.iter().flat_map(|contour| &contour.marks).copied().collect(),
    };
    let chords = remaining.chords();
    let held = damage::any_table(random, known.tile.table.len());
    let mut built = vec![calls::build_on(rules, known.ground, &chords.points, &chords.counts, None, &held)?];
    if known.mixed {
        let counts = &remaining.outline.counts;
        let with_marks = calls::build_curves(rules, known.ground, remaining.curves(), counts, Placement::None, &held)?;
        built.push(with_marks);
    }
    for built in built {
        let (record, table) = built.map_err(|number| Difference(format!("what remains is refused with {number}")))?;
        if (Tile { record, table }) != known.tile {
            return Err(Difference(format!(
                "after the series, the tile is not that of the {} contours in it",
                chords.counts.len()
            )));
        }
    }
    calls::same_owned(&known.owned, known.ground, &known.tile)?;
    Ok(chords)
}

/// A tile of the library's own type is drawn as the reference draws its table, at every level; and as near to the ink as an outline is that is
/// drawn afresh.
fn as_drawn(rules: &dyn Rules, random: &mut Random, known: &Known, near: Option<&Outline>) -> Result<(), Difference> {
    let Known { ground, ref tile, ref owned, .. } = *known;
    let side = ground.side();
    for level in 0..=side.trailing_zeros() {
        let drawn = |what: &str, refusal| Difference(format!("level {level} of a tile, {what}: {refusal}"));
        let figures = owned.figures(level).map_err(|refusal| drawn("figures", refusal))?;
        let greys = owned.greys(level).map_err(|refusal| drawn("greys", refusal))?;
        let (cx, cy) = (random.index(1 << level) as u32, random.index(1 << level) as u32);
        let cell = owned.cell(level, cx, cy).map_err(|refusal| drawn("a cell", refusal))?;
        let places = 1 << (2 * level);
        if reference::figures(rules, side, level, &tile.table, places).as_ref() != Ok(&figures)
            || reference::greys(rules, side, level, &tile.table, places).as_ref() != Ok(&greys)
            || reference::cell(rules, side, level, cx, cy, &tile.table) != Ok(cell)
        {
            return Err(Difference(format!("level {level} of a tile is not drawn as its table is")));
        }
        if let Some(outline) = near {
            let root = match ground {
                Ground::Tile(_) => reference::signed_area(&outline.points, &outline.counts),
                Ground::Sheet(_) => tile.table[0],
            };
            demand3::near_on(rules, ground, outline, level, root, &figures, &greys)?;
        }
    }
    Ok(())
}

/// Corrects a tile that no series need leave, with entries up to the limit, and then undoes it, where the record allows that; and makes some calls
/// that may be refused.
fn on_any_tile(
    rules: &dyn Rules,
    random: &mut Random,
    ground: Ground,
    mixed: bool,
    seen: &mut Seen,
) -> Result<(), Difference> {
    let mut tile = damage::any_tile(random, ground.side(), FEWEST_POINTS);
    for _ in 0..CALLS_ON_ANY_TILE {
        let mut call = a_call(random, ground, mixed, tile.clone());
        if random.once_in(2) {
            call.tile.record = damage::any_record(random, edges_of(&call));
        }
        let answer = calls::correct(rules, &call)?;
        seen.answer(&call, &answer);
        if let Ok(left) = answer {
            undo(rules, random, &call, left.clone(), seen)?;
            tile = left;
        }
        let damaged = damage::correcting(random, call);
        let answer = calls::correct(rules, &damaged)?;
        seen.answer(&damaged, &answer);
    }
    Ok(())
}

/// How many edges a contour has in the record: its count, or where it has marks its chords.
fn edges_of(call: &Correcting) -> u32 {
    call.marks.as_ref().map_or(call.count, |marks| {
        let placed = reference::placed(&Spec, call.placement, &call.points);
        let (_, chords) = reference::chords(&Spec, Curves { points: &placed, marks }, &[call.count]);
        chords.iter().sum()
    })
}

/// What was put in is taken out, or what was taken out is put in, under another placement, and the tile is as it was before the call. (A tile that
/// had more edges than the most does not get them back.)
fn undo(
    rules: &dyn Rules,
    random: &mut Random,
    call: &Correcting,
    left: Tile,
    seen: &mut Seen,
) -> Result<(), Difference> {
    let placed = reference::placed(&Spec, call.placement, &call.points);
    let (placement, points) = placements::exactly_onto(random, call.ground.reach(), &placed);
    let (correction, expected) = match call.correction {
        Correction::PutIn => (Correction::TakeOut, Ok(&call.tile)),
        Correction::TakeOut if call.tile.record > MOST_EDGES => (Correction::PutIn, Err(5)),
        Correction::TakeOut => (Correction::PutIn, Ok(&call.tile)),
    };
    let back = Correcting { correction, points, placement, tile: left, ..call.clone() };
    let answer = calls::correct(rules, &back)?;
    seen.answer(&back, &answer);
    seen.undone += answer.is_ok() as u64;
    if answer.as_ref().map_err(|&number| number) != expected {
        return Err(Difference("a correction that is undone does not leave the tile as it was".to_string()));
    }
    Ok(())
}

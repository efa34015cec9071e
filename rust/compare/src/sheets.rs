//! Tiles of sheets: an outline that lies on a sheet, drawn into tiles of every side, by the library and by the reference.
//!
//! A case takes one outline on one sheet through building and every drawing call, in some of the sheet's tiles or in all of them, and then one like it
//! that is placed first; it holds what is drawn to demand 3 with the exact areas of the tile's cells at their place on the sheet ([`demand3`]). Where
//! all tiles of a sheet are drawn, their roots add up to the outline's signed area, or nearly. An outline that lies on one tile alone has the table
//! that it has without a sheet. And there are calls that may be refused ([`damage`]). Corrections on sheets are in [`series`](crate::series).
use crate::calls::{self, Difference, Ground};
use crate::outlines::{self, Outline};
use crate::random::Random;
use crate::{cells_alone, damage, damaged_building, damaged_placing, demand3, grouped, pictures, placements};
use crate::{on_all_processors, Tally};
use mattuliyan::Refusal;
use reference::{Cell, Edge, Placement, Question, Rules, SheetTile, Spec, STEPS};
use std::fmt::{Display, Formatter};
use std::ops::Range;

/// 02's sides of a sheet, and of a tile on one.
pub const SHEETS: [u32; 8] = [1, 2, 4, 8, 16, 32, 64, 128];
pub const SIDES_ON_SHEET: [u32; 6] = [1, 2, 4, 8, 16, 32];

/// Every side of a sheet with every side of a tile that is not larger.
pub const PAIRS: [(u32, u32); 33] = {
    let (mut pairs, mut found, mut i) = ([(0, 0); 33], 0, 0);
    while i < SHEETS.len() * SIDES_ON_SHEET.len() {
        let (sheet, side) = (SHEETS[i / SIDES_ON_SHEET.len()], SIDES_ON_SHEET[i % SIDES_ON_SHEET.len()]);
        if side <= sheet {
            pairs[found] = (sheet, side);
            found += 1;
        }
        i += 1;
    }
    assert!(found == pairs.len());
    pairs
};

/// In one round of all pairs in so many, every tile of each sheet is drawn; in one in so many there are large outlines, of up to 1,024 edges.
const WHOLE_ONE_IN: u64 = 8;
const LARGE_ONE_IN: u64 = 20;

/// Tiles that are drawn of an outline else, and of one that is placed.
const TILES: u32 = 3;

/// Calls that may be refused, of building without a placement and with one each, in a case.
const DAMAGED_CALLS: u32 = 4;

/// What a run has seen.
#[derive(Default)]
pub struct Seen {
    /// what was drawn and answered; its outlines are those on sheets
    pub drawn: crate::Seen,
    /// tiles that were drawn, those of outlines that were placed among them
    pub tiles: u64,
    /// sheets of which every tile was drawn, by the depths of the sheet and of the tile
    pub whole: [[u64; SIDES_ON_SHEET.len()]; SHEETS.len()],
    /// those of them with octilinear outlines, and those whose tiles' roots do not add up to the signed area
    pub octilinear_whole: u64,
    pub sums_off: u64,
    /// tiles whose root is not their exact area
    pub rounded_roots: u64,
    /// edges by where they lie as seen from a tile that was drawn, row by row: above it and to its left, above it, and so on. The middle one is for
    /// those that are in its columns and in its rows.
    pub edges_at: [u64; 9],
    /// those in the middle that do not come onto the tile
    pub past_a_corner: u64,
}

impl Tally for Seen {
    fn add(&mut self, other: Seen) {
        self.drawn.add(other.drawn);
        self.tiles += other.tiles;
        let more = other.whole.into_iter().flatten();
        self.whole.iter_mut().flatten().zip(more).for_each(|(mine, more)| *mine += more);
        self.octilinear_whole += other.octilinear_whole;
        self.sums_off += other.sums_off;
        self.rounded_roots += other.rounded_roots;
        self.edges_at.iter_mut().zip(other.edges_at).for_each(|(mine, more)| *mine += more);
        self.past_a_corner += other.past_a_corner;
    }
}

impl Display for Seen {
    fn fmt(&self, to: &mut Formatter) -> std::fmt::Result {
        let drawn = &self.drawn;
        write!(
            to,
            "{} outlines ({} octilinear) with {} edges, {} placed outlines, on sheets of which {} were drawn whole, {} with octilinear outlines \
             and {} with roots that do not add up; {} tiles, {} with a root that is rounded, {} edges off them, {} of these to their right and {} \
             past a corner; {} cells ({} with ink below zero), {} greys one apart; {} calls, {} refused; worst miss ",
            grouped(drawn.outlines),
            grouped(drawn.octilinear),
            grouped(drawn.edges),
            grouped(drawn.placed.iter().sum()),
            grouped(self.whole.iter().flatten().sum()),
            grouped(self.octilinear_whole),
            grouped(self.sums_off),
            grouped(self.tiles),
            grouped(self.rounded_roots),
            grouped(self.edges_at.iter().sum::<u64>() - self.edges_at[MIDDLE] + self.past_a_corner),
            grouped(self.edges_at[TO_THE_RIGHT]),
            grouped(self.past_a_corner),
            grouped(drawn.cells),
            grouped(drawn.inked_below_zero),
            grouped(drawn.greys_one_apart),
            grouped(drawn.calls),
            grouped(drawn.calls - drawn.answered[0]),
        )?;
        match &drawn.worst {
            None => write!(to, "none"),
            Some(worst) => worst.fmt(to),
        }
    }
}

/// The library's own type.
pub fn for_library(place: SheetTile) -> mattuliyan::SheetTile {
    let SheetTile { sheet, side, column, row } = place;
    mattuliyan::SheetTile { sheet, side, column, row }
}

/// A sheet as the library draws it, its tiles put together.
pub struct Together {
    pub edges: u32,
    /// the sum of the tiles' roots
    pub roots: i64,
    /// row by row of the sheet
    pub greys: Vec<u8>,
    /// how many greys there are in a row
    pub across: usize,
}

/// The number of the question about the level.
const LEVEL: u8 = Question::Level as u8;

/// Draws the sheet on which this outline lies, as placed, in tiles of this side: or the number of the refusal. The level is that of the sheet, of which
/// every tile has at least one cell; another is answered with the number of that question.
pub fn put_together(outline: &Outline, side: u32, level: u32, placement: Placement) -> Result<Together, u8> {
    let sheet = outline.side;
    let table = |place: SheetTile| {
        // 14 is asked for before the table's length, so a side that is too great needs no table of its own
        let across = place.side.min(SIDES_ON_SHEET[SIDES_ON_SHEET.len() - 1]) as usize;
        let mut table = vec![0; across * across];
        let (place, placement) = (for_library(place), placements::for_library(placement));
        let edges = mattuliyan::build_on_sheet(place, &outline.points, &outline.counts, placement, &mut table);
        edges.map(|edges| (edges, table)).map_err(Refusal::number)
    };
    // sides that are none are refused by the first tile, and so is what would be refused by every one
    let (edges, _) = table(SheetTile { sheet, side, column: 0, row: 0 })?;
    let tiles = (sheet / side) as usize;
    let level = level.checked_sub(tiles.trailing_zeros()).ok_or(LEVEL)?;
    // a level past the tile's depth is refused for itself, whatever the places
    let cells = 1 << level.min(side.trailing_zeros());
    let across = tiles * cells;
    let mut together = Together { edges, roots: 0, greys: vec![0; across * across], across };
    for place in SheetTile::all(sheet, side) {
        let (_, table) = table(place)?;
        let mut greys = vec![0; cells * cells];
        mattuliyan::greys(side, level, &table, &mut greys).map_err(Refusal::number)?;
        together.roots += table[0];
        let corner = (place.row as usize * across + place.column as usize) * cells;
        for (row, greys) in greys.chunks(cells).enumerate() {
            together.greys[corner + row * across..][..cells].copy_from_slice(greys);
        }
    }
    Ok(together)
}

/// Any tile of such a sheet.
pub fn any_tile(random: &mut Random, sheet: u32, side: u32) -> SheetTile {
    let across = (sheet / side) as usize;
    SheetTile { sheet, side, column: random.index(across) as u32, row: random.index(across) as u32 }
}

/// A tile of such a sheet on which a point of the outline lies, or any where it has none.
fn tile_of_a_point(random: &mut Random, outline: &Outline, side: u32) -> SheetTile {
    if outline.points.is_empty() {
        return any_tile(random, outline.side, side);
    }
    let (width, last) = (STEPS * side as i64, outline.side / side - 1);
    let point = 2 * random.index(outline.points.len() / 2);
    // a point on the sheet's far border is on the last tile's
    let [column, row] = [0, 1].map(|i| ((outline.points[point + i] / width) as u32).min(last));
    SheetTile { sheet: outline.side, side, column, row }
}

/// The cases of these numbers, on all processors: what was seen, or the first case that fails, with what is wrong there.
pub fn run(seed: u64, numbers: Range<u64>) -> Result<Seen, (u64, Difference)> {
    on_all_processors(numbers, |number, seen| case(&Spec, seed, number, seen))
}

/// One case of a run.
pub fn case(rules: &dyn Rules, seed: u64, number: u64, seen: &mut Seen) -> Result<(), Difference> {
    let random = &mut Random::of_case(seed, number);
    let ((sheet, side), round) = (PAIRS[(number % PAIRS.len() as u64) as usize], number / PAIRS.len() as u64);
    let whole = round.is_multiple_of(WHOLE_ONE_IN);
    // half of the outlines whose roots are added up are octilinear, so that they must add up exactly
    let outline = if whole && random.once_in(2) {
        outlines::octilinear_outline(random, sheet)
    } else {
        outlines::outline(random, sheet, round % LARGE_ONE_IN == 1)
    };
    seen.drawn.outlines += 1;
    seen.drawn.edges += outline.edges() as u64;
    seen.drawn.empty += outline.counts.is_empty() as u64;
    seen.drawn.octilinear += outline.is_octilinear() as u64;
    if whole {
        seen.whole[sheet.trailing_zeros() as usize][side.trailing_zeros() as usize] += 1;
        all_tiles(rules, random, side, &outline, seen)?;
    } else {
        for _ in 0..TILES {
            let place = a_tile(random, &outline, side);
            one_tile(rules, random, place, &outline, &outline.points, Placement::None, seen)?;
        }
    }
    placed_outline(rules, random, side, &outline, seen)?;
    on_one_tile_alone(rules, random, sheet, side, seen)?;
    for _ in 0..DAMAGED_CALLS {
        let ground = Ground::Sheet(any_tile(random, sheet, side));
        damaged_building(rules, random, ground, &outline, &mut seen.drawn)?;
        damaged_placing(rules, random, ground, &outline, &mut seen.drawn)?;
    }
    Ok(())
}

/// A tile that has something of the outline on it, or any.
fn a_tile(random: &mut Random, outline: &Outline, side: u32) -> SheetTile {
    if random.once_in(4) {
        any_tile(random, outline.side, side)
    } else {
        tile_of_a_point(random, outline, side)
    }
}

/// Draws every tile of a sheet. Their roots add up to the signed area, to within half a unit for each edge in each tile, and exactly where every edge
/// is level, upright or at 45 degrees.
fn all_tiles(
    rules: &dyn Rules,
    random: &mut Random,
    side: u32,
    outline: &Outline,
    seen: &mut Seen,
) -> Result<(), Difference> {
    let mut sum = 0;
    for place in SheetTile::all(outline.side, side) {
        sum += one_tile(rules, random, place, outline, &outline.points, Placement::None, seen)?[0];
    }
    let (area, tiles) = (reference::signed_area(&outline.points, &outline.counts), (outline.side / side).pow(2));
    let most = i64::from(if outline.is_octilinear() { 0 } else { outline.edges() }) * i64::from(tiles);
    if 2 * (sum - area).abs() > most {
        return Err(Difference(format!("the roots of all tiles add up to {sum}, and the signed area is {area}")));
    }
    seen.octilinear_whole += outline.is_octilinear() as u64;
    seen.sums_off += (sum != area) as u64;
    Ok(())
}

/// Builds a tile of a sheet from these points and this placement, which lead to the outline, draws all there is to draw of it, and holds it to
/// demand 3. The answer is its table.
fn one_tile(
    rules: &dyn Rules,
    random: &mut Random,
    place: SheetTile,
    outline: &Outline,
    points: &[i64],
    placement: Placement,
    seen: &mut Seen,
) -> Result<Vec<i64>, Difference> {
    let SheetTile { sheet, side, .. } = place;
    let held = damage::any_table(random, (side * side) as usize);
    let built = calls::build_on_sheet(rules, place, points, &outline.counts, placement, &held)?;
    let Some((_, table)) = seen.drawn.answer(built) else {
        return Err(Difference(format!("an accepted outline is refused on {place:?}")));
    };
    seen.tiles += 1;
    where_edges_lie(outline, place, seen);
    for level in 0..=side.trailing_zeros() {
        let (figures, greys) = pictures(rules, random, side, level, &table, &mut seen.drawn)?;
        let looked = demand3::near_on(rules, Ground::Sheet(place), outline, level, table[0], &figures, &greys)
            .map_err(|Difference(what)| Difference(format!("{place:?}: {what}")))?;
        seen.rounded_roots += (level == 0 && looked.worst.as_ref().is_some_and(|worst| worst.ratio > 0.0)) as u64;
        seen.drawn.add_level(looked);
        cells_alone(rules, random, side, level, &table, &figures, &mut seen.drawn)?;
    }
    if sheet == side {
        let alone = calls::build_placed(rules, side, points, &outline.counts, placement, &held)?;
        if alone != Ok((outline.edges(), table.clone())) {
            return Err(Difference("a sheet of one tile has not the table of the tile alone".to_string()));
        }
    }
    Ok(table)
}

/// Draws some tiles of an outline much like this one, from points that are placed.
fn placed_outline(
    rules: &dyn Rules,
    random: &mut Random,
    side: u32,
    outline: &Outline,
    seen: &mut Seen,
) -> Result<(), Difference> {
    let (placement, points) = placements::onto_the_tile(random, outline);
    let placed = Outline { points: reference::placed(&Spec, placement, &points), ..outline.clone() };
    seen.drawn.placed[placements::kind(placement)] += 1;
    for _ in 0..TILES {
        let place = a_tile(random, &placed, side);
        one_tile(rules, random, place, &placed, &points, placement, seen)?;
    }
    Ok(())
}

/// An outline that lies wholly on some tile of a sheet has the table that it has on a tile alone, as seen from the tile's corner.
fn on_one_tile_alone(
    rules: &dyn Rules,
    random: &mut Random,
    sheet: u32,
    side: u32,
    seen: &mut Seen,
) -> Result<(), Difference> {
    let (place, outline) = (any_tile(random, sheet, side), outlines::outline(random, side, false));
    let Cell { left, top, .. } = Spec.square(place);
    let there: Vec<i64> =
        outline.points.iter().enumerate().map(|(i, &at)| at + if i % 2 == 0 { left } else { top }).collect();
    let held = damage::any_table(random, (side * side) as usize);
    let alone = calls::build(rules, side, &outline.points, &outline.counts, &held)?;
    let on_sheet = calls::build_on_sheet(rules, place, &there, &outline.counts, Placement::None, &held)?;
    if alone.is_err() || alone != on_sheet {
        return Err(Difference(format!("an outline on one tile alone has another table on {place:?}")));
    }
    seen.drawn.answer(on_sheet);
    Ok(())
}

/// The places in `edges_at` of the edges that are in a tile's columns and in its rows, and of those to its right that are in its rows.
pub const MIDDLE: usize = 4;
pub const TO_THE_RIGHT: usize = 5;

/// Where an edge lies as seen from a tile: its place in `edges_at`.
fn where_it_lies(edge: Edge, tile: Cell) -> usize {
    let beside = |a: i64, b: i64, near: i64| match () {
        () if a.max(b) <= near => 0,
        () if near + tile.width <= a.min(b) => 2,
        () => 1,
    };
    3 * beside(edge.y0, edge.y1, tile.top) + beside(edge.x0, edge.x1, tile.left)
}

fn where_edges_lie(outline: &Outline, place: SheetTile, seen: &mut Seen) {
    let tile = Spec.square(place);
    for edge in outline.each_edge() {
        let at = where_it_lies(edge, tile);
        seen.edges_at[at] += 1;
        seen.past_a_corner += (at == MIDDLE && !edge.comes_inside(tile)) as u64;
    }
}

#[cfg(test)]
mod tests {
    use super::*;
    use reference::Limits;

    #[test]
    fn every_pair_of_sides() {
        assert_eq!((PAIRS[0], PAIRS[1], PAIRS[32]), ((1, 1), (2, 1), (128, 32)));
        assert!(PAIRS.windows(2).all(|two| two[0] < two[1]));
        assert_eq!(SHEETS.last(), Some(&Limits::SPEC.greatest_sheet));
        assert_eq!(SIDES_ON_SHEET.last(), Some(&Limits::SPEC.greatest_on_sheet));
    }

    #[test]
    fn edges_about_a_tile() {
        let tile = Spec.square(SheetTile { sheet: 4, side: 1, column: 1, row: 2 });
        let at = |x0, y0, x1, y1| where_it_lies(Edge { x0, y0, x1, y1 }, tile);
        // about (384, 640), the middle of the tile
        let around = [(0, 0), (384, 0), (800, 0), (0, 640), (384, 640), (800, 640), (0, 900), (384, 900), (800, 900)];
        for (place, (x, y)) in around.into_iter().enumerate() {
            assert_eq!(at(x, y, x + 1, y), place);
        }
        // an edge along a side lies beside it, and one that crosses the side does not
        assert_eq!([at(512, 512, 512, 768), at(512, 512, 511, 768), at(256, 700, 300, 700)], [5, 4, 4]);
        assert_eq!([at(300, 512, 400, 512), at(0, 500, 1000, 513), at(0, 768, 1000, 800)], [1, 4, 7]);
    }

    #[test]
    fn tiles_that_points_lie_on() {
        let mut random = Random::new(8);
        let corner = Outline { side: 128, points: vec![32_768; 6], counts: vec![3] };
        let place = tile_of_a_point(&mut random, &corner, 32);
        assert_eq!((place.column, place.row), (3, 3));
        let outline = Outline { side: 128, points: vec![8191, 8192, 8191, 8192, 8191, 8192], counts: vec![3] };
        let place = tile_of_a_point(&mut random, &outline, 32);
        assert_eq!((place.column, place.row), (0, 1));
        let empty = Outline { side: 2, points: vec![], counts: vec![] };
        assert_eq!(tile_of_a_point(&mut random, &empty, 2), SheetTile { sheet: 2, side: 2, column: 0, row: 0 });
    }
}

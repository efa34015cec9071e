//! The exact areas of the cells, "said without wavelets", and the exact
//! details. No rule of rounding or refusing is met here.

use crate::edge::{edges, Cell, Edge, Profile};
use crate::exact::Exact;
use crate::questions::depth;
use crate::rules::{Rules, Spec};
use crate::sheet::SheetTile;

/// Each cell's exact area in units, row by row, of an accepted outline at a
/// level from 0 to the depth: "for each edge, as y runs along it, take how far
/// x lies past the cell's left side, held between 0 and the cell's width; sum
/// that over the y that lie in the cell's rows [...]; double it."
///
/// Other input, which building or drawing would refuse, may panic.
pub fn exact_areas(side: u32, points: &[i64], counts: &[u32], level: u32) -> Vec<Exact> {
    assert!(level <= depth(side), "the level is above the depth");
    areas(Cell::of(side, 0, 0, 0), points, counts, level)
}

/// As [`exact_areas`], of a tile at its place on a sheet: 02's P5 has "the exact
/// area [...] cell by cell, with edges beyond the tile."
pub fn exact_areas_on_sheet(place: SheetTile, points: &[i64], counts: &[u32], level: u32) -> Vec<Exact> {
    assert!(level <= depth(place.side), "the level is above the depth");
    areas(Spec.square(place), points, counts, level)
}

fn areas(tile: Cell, points: &[i64], counts: &[u32], level: u32) -> Vec<Exact> {
    let edges = edges(&Spec, points, counts);
    let columns: Vec<Profile> = (0..1 << level)
        .map(|cx| tile.part(level, cx, 0))
        .map(|cell| Profile::past_left(cell.left, cell.width))
        .collect();
    let mut areas = Vec::with_capacity(columns.len() * columns.len());
    for cy in 0..1 << level {
        let Cell { top, width, .. } = tile.part(level, 0, cy);
        let mut row = vec![Exact::default(); columns.len()];
        for edge in &edges {
            let Some(stretch) = edge.between(top, top + width) else {
                continue;
            };
            for (area, f) in row.iter_mut().zip(&columns) {
                let num = stretch.twice_integral(f);
                if num == 0 {
                    break; // the edge lies left of this cell and of all that follow
                }
                area.add_fraction(num, stretch.den);
            }
        }
        areas.append(&mut row);
    }
    areas
}

/// The exact h, v and d of each cell of a level below the depth, row by row:
/// what the table would hold if nothing were rounded.
pub fn exact_details(side: u32, points: &[i64], counts: &[u32], level: u32) -> Vec<[Exact; 3]> {
    assert!(level < depth(side), "only levels below the depth have details");
    details(Cell::of(side, 0, 0, 0), points, counts, level)
}

/// As [`exact_details`], of a tile at its place on a sheet.
pub fn exact_details_on_sheet(place: SheetTile, points: &[i64], counts: &[u32], level: u32) -> Vec<[Exact; 3]> {
    assert!(level < depth(place.side), "only levels below the depth have details");
    details(Spec.square(place), points, counts, level)
}

fn details(tile: Cell, points: &[i64], counts: &[u32], level: u32) -> Vec<[Exact; 3]> {
    let edges = edges(&Spec, points, counts);
    let mut details = Vec::new();
    for cy in 0..1 << level {
        for cx in 0..1 << level {
            let cell = tile.part(level, cx, cy);
            let mut sums = [Exact::default(), Exact::default(), Exact::default()];
            for edge in &edges {
                for (sum, value) in sums.iter_mut().zip(edge.details(&Spec, cell)) {
                    sum.add_fraction(value.num, value.den);
                }
            }
            details.push(sums);
        }
    }
    details
}

/// The outline's signed area in units: "the sum over edges of
/// x0 × y1 − x1 × y0."
pub fn signed_area(points: &[i64], counts: &[u32]) -> i64 {
    let edges = edges(&Spec, points, counts);
    edges.into_iter().map(Edge::shoelace).sum()
}

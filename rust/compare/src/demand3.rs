//! Demand 3, checked of what was drawn against exact areas: a figure within (4^level − 1) × edges / 2 of 4^level times its cell's exact area,
//! and equal to it where every edge is level, upright or at 45 degrees; a grey within one of the exact area's; figures that add up. Of a tile of a
//! sheet, a figure within 4^level × edges / 2, and figures that add up to 4^level times the tile's own root.
use crate::calls::{Difference, Ground};
use crate::outlines::Outline;
use reference::{Miss, Rules, SheetTile, Spec};
use std::fmt::{Display, Formatter};

/// The greatest miss of a figure that was met, as a ratio of its bound.
#[derive(Clone, Debug)]
pub struct Worst {
    pub ratio: f64,
    pub level: u32,
    pub cx: usize,
    pub cy: usize,
    pub outline: Outline,
    /// the tile, where the outline lies on a sheet
    pub place: Option<SheetTile>,
}

impl Display for Worst {
    fn fmt(&self, to: &mut Formatter) -> std::fmt::Result {
        let Worst { ratio, level, cx, cy, outline, place } = self;
        let tile = match place {
            None => format!("side {}", outline.side),
            Some(SheetTile { sheet, side, column, row }) => format!("sheet {sheet}, side {side} at ({column}, {row})"),
        };
        let edges = outline.edges();
        write!(to, "{ratio:.4} of its bound ({tile}, level {level}, cell ({cx}, {cy}), {edges} edges)")
    }
}

/// What was looked at in a level.
#[derive(Default)]
pub struct Looked {
    pub cells: u64,
    /// greys that are not the exact area's, but one from it
    pub greys_one_apart: u64,
    /// cells that are not white, of a figure above zero and of one below it
    pub inked: [u64; 2],
    pub worst: Option<Worst>,
}

/// Are these the figures and greys of a level of the outline? `area` is its signed area.
pub fn near(outline: &Outline, level: u32, area: i64, figures: &[i64], greys: &[u8]) -> Result<Looked, Difference> {
    near_by(&Spec, outline, level, area, figures, greys)
}

/// As `near`, with the exact area's grey by these rules.
pub fn near_by(
    rules: &dyn Rules,
    outline: &Outline,
    level: u32,
    area: i64,
    figures: &[i64],
    greys: &[u8],
) -> Result<Looked, Difference> {
    near_on(rules, Ground::Tile(outline.side), outline, level, area, figures, greys)
}

/// As `near_by`, of a tile on either ground, on which the outline lies. `root` is the signed area of the outline, or the root of a tile of a sheet.
pub fn near_on(
    rules: &dyn Rules,
    ground: Ground,
    outline: &Outline,
    level: u32,
    root: i64,
    figures: &[i64],
    greys: &[u8],
) -> Result<Looked, Difference> {
    let across = 1 << level;
    let octilinear = outline.is_octilinear();
    let (points, counts) = (&outline.points, &outline.counts);
    let (exact, within, ratio_of, place) = match ground {
        Ground::Tile(side) => (
            reference::exact_areas(side, points, counts, level),
            Miss::within as fn(&Miss, u32, u32) -> bool,
            Miss::ratio as fn(&Miss, u32, u32) -> f64,
            None,
        ),
        Ground::Sheet(place) => (
            reference::exact_areas_on_sheet(place, points, counts, level),
            Miss::within_on_sheet as _,
            Miss::ratio_on_sheet as _,
            Some(place),
        ),
    };
    let mut looked = Looked { cells: exact.len() as u64, ..Looked::default() };
    if exact.len() != figures.len() || exact.len() != greys.len() {
        return Err(Difference(format!("level {level} has not {} cells", exact.len())));
    }
    for (i, area) in exact.iter().enumerate() {
        let (cx, cy) = (i % across, i / across);
        let wrong = |what: &str| Err(Difference(format!("level {level}, cell ({cx}, {cy}): {what}")));
        let miss = area.miss(figures[i], level);
        if !within(&miss, level, outline.edges()) {
            return wrong("the figure misses the exact area by more than the bound");
        }
        if octilinear && !miss.is_zero() {
            return wrong("the figure is not the exact area, though every edge is level, upright or at 45 degrees");
        }
        match rules.exact_grey(area, ground.side(), level).abs_diff(greys[i]) {
            0 => (),
            1 => looked.greys_one_apart += 1,
            _ => return wrong("the grey is more than one from the exact area's"),
        }
        if greys[i] != 0 {
            looked.inked[(figures[i] < 0) as usize] += 1;
        }
        let ratio = ratio_of(&miss, level, outline.edges());
        if looked.worst.as_ref().is_none_or(|worst| ratio > worst.ratio) {
            looked.worst = Some(Worst { ratio, level, cx, cy, outline: outline.clone(), place });
        }
    }
    let total: i128 = figures.iter().map(|&figure| figure as i128).sum();
    if total != (root as i128) << (2 * level) {
        let what = if place.is_some() { "the tile's root" } else { "the signed area" };
        return Err(Difference(format!("level {level}: the figures do not add up to 4^{level} times {what}")));
    }
    Ok(looked)
}

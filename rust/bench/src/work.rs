//! The outlines of an input, with everything that the cases write to, and the calls themselves.

use crate::cases::{Case, Size, Step};
use crate::inputs::{Input, Outline, SIDE, STEPS_PER_PIXEL};
use crate::library::Opened;
use crate::others::{Library, Rasteriser, LIBRARIES};
use crate::pixels::{PixelByPixel, ARITHMETICS};
use mattuliyan::{Placement, Refusal};
use std::hint::black_box;
use std::ops::{Range, RangeInclusive};
use std::path::Path;

/// A quarter turn of the tile, clockwise: (x, y) goes to (the tile's width − y, x).
const QUARTER_TURN: Placement = Placement::Turn([0.0, -1.0, (STEPS_PER_PIXEL * SIDE) as f64, 1.0, 0.0, 0.0]);

/// The speck: a rough octagon about half a pixel wide, near the middle of the tile.
const SPECK: [i64; 16] =
    [8192, 8130, 8236, 8149, 8255, 8192, 8236, 8236, 8192, 8255, 8149, 8236, 8130, 8192, 8149, 8149];

/// By how many greys pixel by pixel may be off from ours, as our own are proved to be from the exact area's.
const ALLOWED: u8 = 1;

pub struct Work {
    tiles: Vec<Tile>,
    /// The one whose turn it is.
    turn: usize,
    /// The levels of the tiles below the root.
    depth: u32,
    /// Of all levels, from the single pixel on, one after the other.
    pictures: Vec<u8>,
    pixel_by_pixel: PixelByPixel,
    others: Vec<(Library, Rasteriser)>,
    before: Option<Opened>,
}

/// An outline and its tables. Each way of building has one of its own, so that none gains by what is in the processor's caches.
struct Tile {
    outline: Outline,
    table: Vec<i64>,
    placed: Vec<i64>,
    /// As an earlier library builds it.
    before: Vec<i64>,
}

/// All levels of a tile, level 0 first, one after the other, with a call for each.
fn level_by_level(side: u32, table: &[i64], pictures: &mut [u8]) -> Result<(), Refusal> {
    (0..=side.trailing_zeros())
        .try_for_each(|level| mattuliyan::greys(side, level, table, &mut pictures[places(level)]))
}

impl Work {
    /// The tables are built at once, for the cases that only draw from them.
    pub fn new(input: Input, variants: usize, before: Option<&Path>) -> Result<Work, String> {
        let open = |library| Some((library, Rasteriser::open(library)?));
        let depth = input.side.trailing_zeros();
        let table = || vec![0; (input.side * input.side) as usize];
        let tile = |outline| Tile { outline, table: table(), placed: table(), before: table() };
        let mut work = Work {
            tiles: input.outlines(variants).into_iter().map(tile).collect(),
            turn: 0,
            depth,
            pictures: vec![0; places(depth).end],
            pixel_by_pixel: PixelByPixel::default(),
            others: LIBRARIES.into_iter().filter_map(open).collect(),
            before: before.map(Opened::open).transpose()?,
        };
        work.run_all(Case::Build)?;
        if before.is_some() {
            work.run_all(Case::Before(Step::Build))?;
        }
        Ok(work)
    }

    /// Those that can be run.
    pub fn cases(&self) -> Vec<Case> {
        Case::all(self.before.is_some())
    }

    /// Runs a case once for each outline.
    pub fn run_all(&mut self, case: Case) -> Result<(), String> {
        for turn in 0..self.tiles.len() {
            self.turn = turn;
            self.run(case)?;
        }
        Ok(())
    }

    /// Every call's answer is looked at, and every picture is cleared before it is drawn.
    fn run(&mut self, case: Case) -> Result<(), String> {
        match case {
            Case::Build => self.build(),
            Case::BuildPlaced => self.build_placed(),
            Case::Correct => self.correct(),
            Case::Draw(size) => self.draw(size),
            Case::Pyramid => self.draw_pyramid(),
            Case::BuildAndDraw(Size::Full) => {
                self.build()?;
                self.draw(Size::Full)
            }
            Case::BuildAndDraw(Size::All) => {
                self.build()?;
                self.draw_pyramid()
            }
            Case::Pixels(arithmetic) => {
                let picture = &mut self.pictures[places(self.depth)];
                self.pixel_by_pixel.draw(arithmetic, black_box(&self.tiles[self.turn].outline), picture);
                black_box(picture);
                Ok(())
            }
            Case::Other(library, size) => self.draw_by(library, size),
            Case::Before(Step::Build) => self.build_before(),
            Case::Before(Step::Draw(size)) => self.draw_before(size),
            Case::Before(Step::BuildAndDrawAll) => {
                self.build_before()?;
                self.draw_before(Size::All)
            }
        }
    }

    fn build(&mut self) -> Result<(), String> {
        let Tile { outline, table, .. } = black_box(&mut self.tiles[self.turn]);
        let answer = mattuliyan::build(outline.side, &outline.points, &outline.counts, table);
        black_box(table);
        all_edges(answer, outline)
    }

    fn build_placed(&mut self) -> Result<(), String> {
        let Tile { outline, placed: table, .. } = black_box(&mut self.tiles[self.turn]);
        let answer = mattuliyan::build_placed(outline.side, &outline.points, &outline.counts, QUARTER_TURN, table);
        black_box(table);
        all_edges(answer, outline)
    }

    fn correct(&mut self) -> Result<(), String> {
        let (speck, Tile { outline, table, .. }) = black_box((&SPECK, &mut self.tiles[self.turn]));
        let (count, mut edges) = ((speck.len() / 2) as u32, outline.edges());
        let answer = mattuliyan::take(outline.side, speck, count, Placement::None, &mut edges, table)
            .and_then(|()| mattuliyan::put(outline.side, speck, count, Placement::None, &mut edges, table))
            .map(|()| edges);
        black_box(table);
        all_edges(answer, outline)
    }

    /// The levels of a size.
    fn levels(&self, size: Size) -> RangeInclusive<u32> {
        match size {
            Size::Full => self.depth..=self.depth,
            Size::All => 0..=self.depth,
        }
    }

    /// The pictures of a size, cleared, and the tile whose turn it is.
    fn cleared(&mut self, size: Size) -> (&Tile, &mut [u8]) {
        let levels = self.levels(size);
        let pictures = &mut self.pictures[places(*levels.start()).start..places(*levels.end()).end];
        pictures.fill(0);
        (black_box(&self.tiles[self.turn]), black_box(pictures))
    }

    fn draw(&mut self, size: Size) -> Result<(), String> {
        let depth = self.depth;
        let (Tile { outline, table, .. }, pictures) = self.cleared(size);
        let answer = match size {
            Size::Full => mattuliyan::greys(outline.side, depth, table, pictures),
            Size::All => level_by_level(outline.side, table, pictures),
        };
        black_box(pictures);
        answer.map_err(|refusal| format!("greys: {refusal}"))
    }

    fn draw_pyramid(&mut self) -> Result<(), String> {
        let (Tile { outline, table, .. }, pictures) = self.cleared(Size::All);
        let answer = mattuliyan::pyramid(outline.side, table, pictures);
        black_box(pictures);
        answer.map_err(|refusal| format!("all levels: {refusal}"))
    }

    /// The shims clear the picture themselves.
    fn draw_by(&mut self, library: Library, size: Size) -> Result<(), String> {
        let levels = self.levels(size);
        let found = self.others.iter_mut().find(|(each, _)| *each == library);
        let (_, rasteriser) = found.ok_or_else(|| format!("there is no {}", library.name()))?;
        for level in levels {
            let picture = &mut self.pictures[places(level)];
            rasteriser
                .draw(black_box(&self.tiles[self.turn].outline), level, picture)
                .map_err(|number| format!("{} failed with {number} at level {level}", library.name()))?;
            black_box(picture);
        }
        Ok(())
    }

    fn build_before(&mut self) -> Result<(), String> {
        let before = black_box(self.before.as_ref().ok_or(NO_LIBRARY)?);
        let Tile { outline, before: table, .. } = black_box(&mut self.tiles[self.turn]);
        let answer = before.build(outline, table);
        black_box(table);
        match answer {
            (0, edges) if edges == outline.edges() => Ok(()),
            other => Err(format!("the library before: building answers {other:?}")),
        }
    }

    /// From the tables that the earlier library built.
    fn draw_before(&mut self, size: Size) -> Result<(), String> {
        let levels = self.levels(size);
        let first = places(*levels.start()).start;
        let (tile, pictures) = (&self.tiles[self.turn], &mut self.pictures);
        pictures[first..places(*levels.end()).end].fill(0);
        let before = black_box(self.before.as_ref().ok_or(NO_LIBRARY)?);
        for level in levels {
            let picture = &mut pictures[places(level)];
            let number = before.greys(tile.outline.side, level, black_box(&tile.before), picture);
            black_box(picture);
            if number != 0 {
                return Err(format!("the library before: greys of level {level} answer {number}"));
            }
        }
        Ok(())
    }

    pub fn outlines(&self) -> usize {
        self.tiles.len()
    }

    pub fn versions(&self) -> Vec<(Library, String)> {
        self.others.iter().map(|(library, rasteriser)| (*library, rasteriser.version())).collect()
    }

    /// Are all pictures those that are to be measured? One call draws what a call for each level draws, pixel by pixel draws what we draw, but
    /// for a grey, and an earlier library builds the same tables and draws the same pictures. What does not hold is told.
    pub fn check(&mut self) -> Result<(), String> {
        for turn in 0..self.tiles.len() {
            self.turn = turn;
            let ours = self.drawn(Case::Draw(Size::All))?;
            if self.drawn(Case::Pyramid)? != ours {
                return Err("one call draws other pictures than a call for each level".into());
            }
            let full = places(self.depth);
            for arithmetic in ARITHMETICS {
                let difference = greatest(&self.drawn(Case::Pixels(arithmetic))?[full.clone()], &ours[full.clone()]);
                if difference > ALLOWED {
                    return Err(format!("pixel by pixel, {arithmetic:?}: {difference} greys off"));
                }
            }
            if self.before.is_some() {
                let drawn = self.drawn(Case::Before(Step::BuildAndDrawAll))?;
                if self.tiles[turn].before != self.tiles[turn].table {
                    return Err("the library before builds another table".into());
                }
                if drawn != ours {
                    return Err("the library before draws other pictures".into());
                }
            }
        }
        Ok(())
    }

    /// By how many greys, at most, a library's pictures differ from ours, for each level.
    pub fn differences(&mut self, library: Library) -> Result<Vec<u8>, String> {
        let mut all = vec![0; self.depth as usize + 1];
        for turn in 0..self.tiles.len() {
            self.turn = turn;
            let ours = self.drawn(Case::Draw(Size::All))?;
            let theirs = self.drawn(Case::Other(library, Size::All))?;
            for (level, most) in (0..).zip(&mut all) {
                *most = greatest(&ours[places(level)], &theirs[places(level)]).max(*most);
            }
        }
        Ok(all)
    }

    /// All pictures, after a case drew some of them.
    fn drawn(&mut self, case: Case) -> Result<Vec<u8>, String> {
        self.run(case)?;
        Ok(self.pictures.clone())
    }
}

const NO_LIBRARY: &str = "there is no library from before";

/// Is this the outline's edge count?
fn all_edges(answer: Result<u32, Refusal>, outline: &Outline) -> Result<(), String> {
    match answer {
        Ok(edges) if edges == outline.edges() => Ok(()),
        other => Err(format!("the edge count is {other:?}")),
    }
}

/// Where the pixels of a level are among those of all levels.
fn places(level: u32) -> Range<usize> {
    let pixels = 1 << (2 * level);
    let first = (pixels - 1) / 3;
    first..first + pixels
}

fn greatest(one: &[u8], another: &[u8]) -> u8 {
    one.iter().zip(another).map(|(a, b)| a.abs_diff(*b)).max().unwrap_or(0)
}

#[cfg(test)]
mod tests;

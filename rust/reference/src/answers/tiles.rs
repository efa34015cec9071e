//! `tile_vectors`: 01's four calls.
//!
//! A line is a letter and its numbers. `s`, `l`, `n` and `r` set the side, the
//! level, how many entries of the table and how many places of a picture the
//! next calls get; `c` and `p` the counts and the points. `t` writes entries of
//! the table from a place on, `f` every entry of the table and of both pictures.
//! `b` builds, `d` draws figures, `g` greys and `k` one cell; each prints what
//! it was given, the number answered, 0 for none, and what its list then holds.
//! `a` draws every level of the tile, and says whether each cell asked for alone
//! is the picture's.

use super::{lines, GREATEST_DEPTH};
use crate::picture::{cell, figures, greys};
use crate::rules::Spec;
use crate::table::build;

/// How long each list is: more than any call takes.
const ROOM: usize = 4100;

/// A number from here on, either way, is taken for the end of 64 bits. The
/// program reads digit by digit, and goes on only where any digit has room: from
/// the last multiple of 10 on, a 9 would have none.
const FAR: i128 = i64::MAX as i128 / 10 * 10;

/// What the next calls are given.
struct Given {
    side: u32,
    level: u32,
    entries: usize,
    places: usize,
    counts: Vec<u32>,
    points: Vec<i64>,
    /// The lists that calls write to, of which they get the first so many
    /// places.
    table: Vec<i64>,
    figures: Vec<i64>,
    greys: Vec<u8>,
}

pub fn answer(cases: &str) -> Result<String, String> {
    let mut given = Given {
        side: 0,
        level: 0,
        entries: 0,
        places: 0,
        counts: Vec::new(),
        points: Vec::new(),
        table: vec![0; ROOM],
        figures: vec![0; ROOM],
        greys: vec![0; ROOM],
    };
    let mut printed = String::new();
    for (line, case) in lines::cases(cases) {
        let mut words = case.split(' ');
        let letter = words.next().unwrap_or_default();
        let numbers: Option<Vec<i64>> = words.take(ROOM).map(|word| lines::number(word).map(nearest_i64)).collect();
        let answer = numbers.and_then(|numbers| given.line(letter, &numbers));
        printed += &answer.ok_or_else(|| format!("line {line}: it is no case"))?;
    }
    Ok(printed)
}

/// The nearest number of 64 bits, with one from `FAR` on taken for the end.
fn nearest_i64(number: i128) -> i64 {
    match number {
        FAR.. => i64::MAX,
        _ if number <= -FAR => i64::MIN,
        _ => number as i64,
    }
}

/// The nearest number of 32 bits from 0 on.
fn word(number: i64) -> u32 {
    number.clamp(0, u32::MAX.into()) as u32
}

impl Given {
    /// What a line prints.
    fn line(&mut self, letter: &str, numbers: &[i64]) -> Option<String> {
        let first = numbers.first().copied().unwrap_or(0);
        let second = numbers.get(1).copied().unwrap_or(0);
        match letter {
            "s" => self.side = word(first),
            "l" => self.level = word(first),
            "n" => self.entries = ROOM.min(word(first) as usize),
            "r" => self.places = ROOM.min(word(first) as usize),
            "c" => self.counts = numbers.iter().map(|&number| word(number)).collect(),
            "p" => self.points = numbers.to_vec(),
            "t" => self.write(numbers),
            "f" => {
                self.table.fill(first);
                self.figures.fill(first);
                self.greys.fill((word(first) % 256) as u8);
            }
            "b" => return Some(self.build()),
            "d" => return Some(self.draw_figures(self.level, self.places)),
            "g" => return Some(self.draw_greys(self.level, self.places)),
            "k" => return Some(self.cell(word(first), word(second))),
            "a" => return Some((0..=GREATEST_DEPTH).map(|level| self.draw_level(level)).collect()),
            _ => return None,
        }
        Some(String::new())
    }

    fn write(&mut self, numbers: &[i64]) {
        if let Some((&first, entries)) = numbers.split_first() {
            let places = self.table.iter_mut().skip(word(first) as usize);
            places.zip(entries).for_each(|(place, &entry)| *place = entry);
        }
    }

    fn build(&mut self) -> String {
        let Given { side, entries, ref points, ref counts, ref mut table, .. } = *self;
        let told = format!("build side {side} contours {} points {} entries {entries}", counts.len(), points.len());
        let table = &mut table[..entries];
        let (number, edges) = match build(&Spec, side, points, counts, table) {
            Ok((edges, built)) => {
                table.copy_from_slice(&built);
                (0, edges)
            }
            Err(number) => (number, 0),
        };
        format!("{told}: {number} edges {edges} table{}\n", lines::list(table))
    }

    /// What the calls that draw are given.
    fn told(&self, call: &str, level: u32) -> String {
        format!("{call} side {} level {level} entries {}", self.side, self.entries)
    }

    fn draw_figures(&mut self, level: u32, places: usize) -> String {
        let drawn = figures(&Spec, self.side, level, &self.table[..self.entries], places);
        picture(self.told("figures", level), drawn, &mut self.figures[..places])
    }

    fn draw_greys(&mut self, level: u32, places: usize) -> String {
        let drawn = greys(&Spec, self.side, level, &self.table[..self.entries], places);
        picture(self.told("greys", level), drawn, &mut self.greys[..places])
    }

    fn cell(&self, cx: u32, cy: u32) -> String {
        let answer = cell(&Spec, self.side, self.level, cx, cy, &self.table[..self.entries]);
        let number = answer.err().unwrap_or(0);
        let (told, figure) = (self.told("cell", self.level), answer.unwrap_or(0));
        format!("{told} at {cx} {cy}: {number} figure {figure}\n")
    }

    /// A level with its cells alone, where the tile has it.
    fn draw_level(&mut self, level: u32) -> String {
        let across = 1 << level;
        if self.side < across {
            return String::new();
        }
        let places = (across * across) as usize;
        let pictures = self.draw_figures(level, places) + &self.draw_greys(level, places);
        let alone = |i| cell(&Spec, self.side, level, i % across, i / across, &self.table[..self.entries]);
        let same = (0..across * across).all(|i| alone(i) == Ok(self.figures[i as usize]));
        let alone = if same { "same" } else { "differs" };
        format!("{pictures}{}: alone {alone}\n", self.told("cells", level))
    }
}

/// What is printed of a picture. It is written to its list where it was drawn.
fn picture<T: Copy + Into<i128>>(told: String, drawn: Result<Vec<T>, u8>, list: &mut [T]) -> String {
    let number = match drawn {
        Ok(picture) => {
            list.copy_from_slice(&picture);
            0
        }
        Err(number) => number,
    };
    format!("{told} places {}: {number} picture{}\n", list.len(), lines::list(list))
}

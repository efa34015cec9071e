//! `haar_vectors`: what is drawn of a table.
//!
//! A case is a table, a name with its depth and its entries: `i:` before one
//! goes on at place i, and an entry that is not given is 0. Its answer is each
//! level's figures, the same with each cell asked for alone, and its greys. Or a
//! case asks for one cell of the last table: `@`, level, x and y. A line that is
//! not so formed or has a number out of range is refused, and a table that is
//! refused leaves none.

use super::{lines, GREATEST_DEPTH};
use crate::picture::{cell, figures, greys};
use crate::questions::Limits;
use crate::rules::{Rules, Spec};

struct Table {
    depth: u32,
    entries: Vec<i64>,
}

pub fn answer(cases: &str) -> String {
    let (mut printed, mut last) = (String::new(), None);
    for (_, line) in lines::cases(cases) {
        let mut words = line.split(' ');
        let name = words.next().unwrap_or_default();
        let words: Vec<&str> = words.collect();
        let answer = if name.starts_with('@') {
            last.as_ref().and_then(|table: &Table| table.cell(&words))
        } else {
            last = table(&words);
            last.as_ref().map(Table::pictures)
        };
        printed += name;
        printed += &answer.unwrap_or(" refused\n".to_string());
    }
    printed
}

fn table(words: &[&str]) -> Option<Table> {
    let (depth, words) = words.split_first()?;
    let depth = place(depth).filter(|&depth| depth <= GREATEST_DEPTH as usize)?;
    let mut entries = vec![0; 1 << (2 * depth)];
    let mut next = 0;
    for word in words {
        let (at, value) = match word.split_once(':') {
            Some((at, value)) => (place(at)?, value),
            None => (next, *word),
        };
        *entries.get_mut(at)? = entry(value)?;
        next = at + 1;
    }
    Some(Table { depth: depth as u32, entries })
}

fn entry(word: &str) -> Option<i64> {
    let largest = Limits::SPEC.largest_entry;
    let entry = i64::try_from(lines::number(word)?).ok()?;
    (-largest..=largest).contains(&entry).then_some(entry)
}

/// A number that counts, from 0 on. A minus is refused before 0 too.
fn place(word: &str) -> Option<usize> {
    let number = lines::number(word).filter(|_| !word.starts_with('-'))?;
    usize::try_from(number).ok()
}

impl Table {
    fn side(&self) -> u32 {
        1 << self.depth
    }

    fn figure(&self, level: u32, x: u32, y: u32) -> Option<i64> {
        cell(&Spec, self.side(), level, x, y, &self.entries).ok()
    }

    fn pictures(&self) -> String {
        let mut printed = "\n".to_string();
        for level in 0..=self.depth {
            let (across, places) = (1 << level, 1 << (2 * level));
            let figures = figures(&Spec, self.side(), level, &self.entries, places).expect("a table in range");
            let greys = greys(&Spec, self.side(), level, &self.entries, places).expect("a table in range");
            let alone = (0..across * across).map(|i| self.figure(level, i % across, i / across));
            let alone: Vec<i64> = alone.map(|figure| figure.expect("a cell of the level")).collect();
            printed += &format!("{level} figures{}\n", lines::list(&figures));
            printed += &format!("{level} alone  {}\n", lines::list(&alone));
            printed += &format!("{level} greys  {}\n", lines::list(&greys));
        }
        printed
    }

    fn cell(&self, words: &[&str]) -> Option<String> {
        let [level, x, y] = *words else { return None };
        let number = |word| u32::try_from(place(word)?).ok();
        let (level, x, y) = (number(level)?, number(x)?, number(y)?);
        let figure = self.figure(level, x, y)?;
        let grey = Spec.grey(figure, self.side());
        Some(format!(" {level} {x} {y}: figure {figure} grey {grey}\n"))
    }
}

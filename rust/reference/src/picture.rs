//! Drawing a table: figures, greys, the greys of every level, and one cell.

use crate::questions::{depth, Given};
use crate::rules::Rules;
use crate::table::place;

/// The figures of a level, row by row from the top left, or the refusal's
/// number. `places` is how many places the caller's picture has.
pub fn figures(rules: &dyn Rules, side: u32, level: u32, table: &[i64], places: usize) -> Result<Vec<i64>, u8> {
    let worked = worked(rules, side, level, table, places)?;
    Ok(worked.into_iter().map(|figure| rules.answered(figure)).collect())
}

/// The figures of a level before they are answered or taken for greys, or the
/// refusal's number.
fn worked(rules: &dyn Rules, side: u32, level: u32, table: &[i64], places: usize) -> Result<Vec<i64>, u8> {
    let given = Given { side, table, level, places, ..Given::default() };
    given.ask(&rules.picture(), rules)?;
    Ok(drawn(rules, level, table))
}

/// The same of a table that has the level.
fn drawn(rules: &dyn Rules, level: u32, table: &[i64]) -> Vec<i64> {
    // The whole picture of each level is made from that of the level above.
    let mut picture = vec![table[0]];
    for j in 0..level {
        let wide = 1 << j;
        let mut finer = Vec::with_capacity(4 * picture.len());
        for y in 0..2 * wide {
            for x in 0..2 * wide {
                let parent = picture[((y / 2) * wide + x / 2) as usize];
                let details = signed_details(table, j, x, y);
                finer.push(rules.quarter(parent, j, details));
            }
        }
        picture = finer;
    }
    picture
}

/// The greys of a level, row by row from the top left, or the refusal's
/// number.
pub fn greys(rules: &dyn Rules, side: u32, level: u32, table: &[i64], places: usize) -> Result<Vec<u8>, u8> {
    let worked = worked(rules, side, level, table, places)?;
    Ok(worked.into_iter().map(|figure| rules.grey_of_cell(figure, table[0], side)).collect())
}

/// The greys of every level from 0 to the depth, one picture after the other,
/// or the refusal's number. `places` is how many places the caller's list has.
/// 01 has no such call: each picture is 01's, and the questions are 01's too, but
/// for the level's, and question 8 is about all of them together.
pub fn pyramid(rules: &dyn Rules, side: u32, table: &[i64], places: usize) -> Result<Vec<u8>, u8> {
    let given = Given { side, table, places, every_level: true, ..Given::default() };
    given.ask(&rules.every_level(), rules)?;
    let figures = rules.levels(depth(side)).into_iter().flat_map(|level| drawn(rules, level, table));
    Ok(figures.map(|figure| rules.grey_of_cell(figure, table[0], side)).collect())
}

/// The figure of one cell, worked on its own from the root down through the
/// cells that hold it, or the refusal's number.
pub fn cell(rules: &dyn Rules, side: u32, level: u32, cx: u32, cy: u32, table: &[i64]) -> Result<i64, u8> {
    let given = Given { side, table, level, cell: (cx, cy), ..Given::default() };
    given.ask(&rules.one_cell(), rules)?;

    let mut figure = table[0];
    for j in 0..level {
        // The cell of level j + 1 that holds the wanted one.
        let up = level - (j + 1);
        let details = signed_details(table, j, cx >> up, cy >> up);
        figure = rules.quarter(figure, j, details);
    }
    Ok(rules.answered(figure))
}

/// ± h ± v ± d of the parent of cell (x, y) of level j + 1: "h plus on the
/// left, v plus above, d plus in the upper left and lower right."
fn signed_details(table: &[i64], j: u32, x: u32, y: u32) -> i64 {
    let first = place(j, x / 2, y / 2);
    let across = 1 - 2 * i64::from(x % 2);
    let down = 1 - 2 * i64::from(y % 2);
    across * table[first] + down * table[first + 1] + across * down * table[first + 2]
}

//! Building the table from an outline.

use crate::edge::{edges, Cell, Edge};
use crate::placement::{placed, Placement};
use crate::questions::{depth, Given};
use crate::rules::Rules;
use crate::STEPS;

/// Builds an outline's table as it comes, without a placement: see
/// [`build_placed`].
pub fn build(
    rules: &dyn Rules,
    side: u32,
    points: &[i64],
    counts: &[u32],
    table: &[i64],
) -> Result<(u32, Vec<i64>), u8> {
    build_placed(rules, side, points, counts, Placement::None, table)
}

/// Builds the table of an outline that is placed first: the edge count and the
/// table that building must leave, or the refusal's number. Of `table`, what
/// the caller's table holds before, only the length matters.
pub fn build_placed(
    rules: &dyn Rules,
    side: u32,
    points: &[i64],
    counts: &[u32],
    placement: Placement,
    table: &[i64],
) -> Result<(u32, Vec<i64>), u8> {
    let given = Given { side, table, points, counts, placement, ..Given::default() };
    given.ask(&rules.building(), rules)?;

    let edges = edges(rules, &placed(rules, placement, points), counts);
    Ok((counts.iter().sum(), worked(rules, side, &edges)))
}

/// The table of some edges on a tile alone, whose root is their signed area.
pub(crate) fn worked(rules: &dyn Rules, side: u32, edges: &[Edge]) -> Vec<i64> {
    let root = edges.iter().map(|edge| edge.shoelace()).sum();
    with_root(rules, root, Cell::of(side, 0, 0, 0), edges)
}

/// The table of some edges, of the tile that is this square: entry 0 the root,
/// and of each cell h, v and d.
pub(crate) fn with_root(rules: &dyn Rules, root: i64, tile: Cell, edges: &[Edge]) -> Vec<i64> {
    let side = (tile.width / STEPS) as u32;
    let v_sign = rules.v_sign();
    let mut built = vec![0; (side * side) as usize];
    built[0] = root;

    // The cell's edge values of h, v and d; zeros are left out, for an edge
    // has none but zeros in nearly all cells.
    let mut values = [Vec::new(), Vec::new(), Vec::new()];
    for j in 0..depth(side) {
        for cy in 0..1 << j {
            for cx in 0..1 << j {
                let cell = tile.part(j, cx, cy);
                let across = rules.distance(cell.left, cell.width);
                let down = rules.distance(cell.top, cell.width);
                for edge in edges {
                    let details = edge.details_by(v_sign, cell, &across, &down);
                    for (list, value) in values.iter_mut().zip(details) {
                        if value.num != 0 {
                            list.push(value);
                        }
                    }
                }
                let first = place(j, cx, cy);
                for (k, list) in values.iter_mut().enumerate() {
                    built[first + k] = rules.entry(list);
                    list.clear();
                }
            }
        }
    }
    built
}

/// Where the entries h, v, d of a cell begin: 4^j + 3 × (cy × 2^j + cx).
pub(crate) fn place(j: u32, cx: u32, cy: u32) -> usize {
    (1 << (2 * j)) + 3 * (((cy as usize) << j) + cx as usize)
}

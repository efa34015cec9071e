//! `edge_vectors`: an edge's values in a cell. A case is seven numbers, the
//! edge's x0, y0, x1 and y1, the cell's left and upper side and half its width.
//! Its answer is h, v and d and the area, each rounded, and `in` where the edge
//! comes inside the cell, else `out`; or `out of range`, where the program has
//! no room for the numbers.

use super::lines;
use crate::edge::{Cell, Edge};
use crate::rules::{Rules, Spec};

/// What the program has room for: a coordinate either way, and a width times
/// the edge's extent.
const ROOM: i128 = 1 << 28;

pub fn answer(cases: &str) -> Result<String, String> {
    let mut printed = String::new();
    for (line, case) in lines::cases(cases) {
        let numbers: Option<Vec<i128>> = case.split(' ').map(lines::number).collect();
        let numbers = numbers.and_then(|numbers| <[i128; 7]>::try_from(numbers).ok());
        let numbers = numbers.ok_or_else(|| format!("line {line}: it is not seven numbers"))?;
        printed += &match read(numbers) {
            Some((edge, cell)) => values(edge, cell),
            None => "out of range\n".to_string(),
        };
    }
    Ok(printed)
}

/// The edge and the cell, where the program has room for the numbers.
fn read(numbers: [i128; 7]) -> Option<(Edge, Cell)> {
    let [x0, y0, x1, y1, left, top, half] = numbers;
    let room = -ROOM..=ROOM;
    let points_fit = [x0, y0, x1, y1, left, top].iter().all(|coordinate| room.contains(coordinate));
    let width = (0..=ROOM / 2).contains(&half).then_some(2 * half)?;
    if !points_fit || ![x1 - x0, y1 - y0].iter().all(|extent| room.contains(&(extent * width))) {
        return None;
    }
    let [x0, y0, x1, y1, left, top, width] = [x0, y0, x1, y1, left, top, width].map(|number| number as i64);
    Some((Edge { x0, y0, x1, y1 }, Cell { left, top, width }))
}

fn values(edge: Edge, cell: Cell) -> String {
    let [h, v, d] = edge.details(&Spec, cell).map(|value| Spec.round(value));
    let area = Spec.round(edge.area(cell));
    let place = if edge.comes_inside(cell) { "in" } else { "out" };
    format!("{h} {v} {d} {area} {place}\n")
}

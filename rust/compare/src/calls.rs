//! One call of the library beside the same call of the reference: equal answers, equal buffers afterwards, and nothing else written.
use crate::{placements, sheets};
use mattuliyan::Refusal;
use reference::{Correction, Curves, Placement, Rules, SheetTile, Site};
use std::fmt::{Debug, Display, Formatter};

/// What is answered or left otherwise than the reference says, in words.
#[derive(Debug)]
pub struct Difference(pub String);

impl Display for Difference {
    fn fmt(&self, to: &mut Formatter) -> std::fmt::Result {
        to.write_str(&self.0)
    }
}

/// Building: what the library answers and leaves, which the reference says too.
pub fn build(
    rules: &dyn Rules,
    side: u32,
    points: &[i64],
    counts: &[u32],
    held: &[i64],
) -> Result<Result<(u32, Vec<i64>), u8>, Difference> {
    let expected = reference::build(rules, side, points, counts, held);
    built("build", points, counts, held, &expected, |points, counts, table| {
        mattuliyan::build(side, points, counts, table)
    })
}

/// Building with a placement, likewise: by its type, and by its numbers, which can be lent between margins.
pub fn build_placed(
    rules: &dyn Rules,
    side: u32,
    points: &[i64],
    counts: &[u32],
    placement: Placement,
    held: &[i64],
) -> Result<Result<(u32, Vec<i64>), u8>, Difference> {
    let expected = reference::build_placed(rules, side, points, counts, placement, held);
    let numbers = placements::numbers(placement);
    let lent = Guarded::new(&numbers);
    let by_numbers = built("build_by_numbers", points, counts, held, &expected, |points, counts, table| {
        mattuliyan::build_by_numbers(side, points, counts, lent.get(), table)
    });
    lent.same("the numbers after build_by_numbers", &numbers)?;
    by_numbers.and(built("build_placed", points, counts, held, &expected, |points, counts, table| {
        mattuliyan::build_placed(side, points, counts, placements::for_library(placement), table)
    }))
}

/// Building one tile of a sheet, likewise.
pub fn build_on_sheet(
    rules: &dyn Rules,
    place: SheetTile,
    points: &[i64],
    counts: &[u32],
    placement: Placement,
    held: &[i64],
) -> Result<Result<(u32, Vec<i64>), u8>, Difference> {
    let expected = reference::build_on_sheet(rules, place, points, counts, placement, held);
    let there = sheets::for_library(place);
    let numbers = placements::numbers(placement);
    let lent = Guarded::new(&numbers);
    let by_numbers = built("build_on_sheet_by_numbers", points, counts, held, &expected, |points, counts, table| {
        mattuliyan::build_on_sheet_by_numbers(there, points, counts, lent.get(), table)
    });
    lent.same("the numbers after build_on_sheet_by_numbers", &numbers)?;
    by_numbers.and(built("build_on_sheet", points, counts, held, &expected, |points, counts, table| {
        mattuliyan::build_on_sheet(there, points, counts, placements::for_library(placement), table)
    }))
}

/// Building an outline with marks, on either ground, likewise.
pub fn build_curves(
    rules: &dyn Rules,
    ground: Ground,
    curves: Curves,
    counts: &[u32],
    placement: Placement,
    held: &[i64],
) -> Result<Result<(u32, Vec<i64>), u8>, Difference> {
    let Curves { points, marks } = curves;
    let expected = reference::build_curves(rules, ground.site(), curves, counts, placement, held);
    let site = ground.for_library();
    let numbers = placements::numbers(placement);
    let (lent, lent_marks) = (Guarded::new(&numbers), Guarded::new(marks));
    let by_numbers = built("build_curves_by_numbers", points, counts, held, &expected, |points, counts, table| {
        mattuliyan::build_curves_by_numbers(site, points, counts, lent_marks.get(), lent.get(), table)
    });
    lent.same("the numbers after build_curves_by_numbers", &numbers)?;
    let by_type = by_numbers.and(built("build_curves", points, counts, held, &expected, |points, counts, table| {
        let placement = placements::for_library(placement);
        mattuliyan::build_curves(site, points, counts, lent_marks.get(), placement, table)
    }));
    lent_marks.same("the marks after build_curves", marks)?;
    by_type
}

/// Building on either ground. Where there is no placement, a tile alone has a call of its own.
pub fn build_on(
    rules: &dyn Rules,
    ground: Ground,
    points: &[i64],
    counts: &[u32],
    placement: Option<Placement>,
    held: &[i64],
) -> Result<Result<(u32, Vec<i64>), u8>, Difference> {
    match (ground, placement) {
        (Ground::Tile(side), None) => build(rules, side, points, counts, held),
        (Ground::Tile(side), Some(placement)) => build_placed(rules, side, points, counts, placement, held),
        (Ground::Sheet(place), placement) => {
            build_on_sheet(rules, place, points, counts, placement.unwrap_or_default(), held)
        }
    }
}

fn built(
    name: &str,
    points: &[i64],
    counts: &[u32],
    held: &[i64],
    expected: &Result<(u32, Vec<i64>), u8>,
    call: impl FnOnce(&[i64], &[u32], &mut [i64]) -> Result<u32, Refusal>,
) -> Result<Result<(u32, Vec<i64>), u8>, Difference> {
    let (lent_points, lent_counts, mut table) = (Guarded::new(points), Guarded::new(counts), Guarded::new(held));
    let answer = call(lent_points.get(), lent_counts.get(), table.get_mut()).map_err(Refusal::number);
    lent_points.same(&format!("the points after {name}"), points)?;
    lent_counts.same(&format!("the counts after {name}"), counts)?;
    let answered = expected.as_ref().map(|&(edges, _)| edges).map_err(|&number| number);
    same(&format!("what {name} answers"), &answer, &answered)?;
    table.same(&format!("the table after {name}"), expected.as_ref().map_or(held, |(_, table)| table))?;
    Ok(answer.map(|edges| (edges, table.get().to_vec())))
}

/// What the contours of a tile lie on: the tile alone, of this side, or a sheet.
#[derive(Clone, Copy, Debug, PartialEq)]
pub enum Ground {
    Tile(u32),
    Sheet(SheetTile),
}

impl Ground {
    /// The tile's side.
    pub fn side(self) -> u32 {
        match self {
            Ground::Tile(side) => side,
            Ground::Sheet(place) => place.side,
        }
    }

    /// The side of what the contours lie on: a coordinate is at most 256 times it.
    pub fn reach(self) -> u32 {
        match self {
            Ground::Tile(side) => side,
            Ground::Sheet(place) => place.sheet,
        }
    }

    /// As the calls with marks are given it, by the reference and by the library.
    pub fn site(self) -> Site {
        match self {
            Ground::Tile(side) => Site::Alone(side),
            Ground::Sheet(place) => Site::OnSheet(place),
        }
    }

    pub fn for_library(self) -> mattuliyan::Site {
        match self {
            Ground::Tile(side) => mattuliyan::Site::Alone(side),
            Ground::Sheet(place) => mattuliyan::Site::OnSheet(sheets::for_library(place)),
        }
    }
}

/// A tile: a table with the record of its edge count.
#[derive(Clone, Debug, PartialEq)]
pub struct Tile {
    pub record: u32,
    pub table: Vec<i64>,
}

/// A call that puts a contour into a tile or takes it out.
#[derive(Clone, Debug)]
pub struct Correcting {
    pub correction: Correction,
    pub ground: Ground,
    pub points: Vec<i64>,
    /// the marks of a call that has them
    pub marks: Option<Vec<u8>>,
    pub count: u32,
    pub placement: Placement,
    /// as it is before the call
    pub tile: Tile,
}

/// Correcting a tile: what the library answers, and the tile that it leaves where it is done, which the reference says too. It is called by the
/// placement's type and by its numbers, as for building.
pub fn correct(rules: &dyn Rules, call: &Correcting) -> Result<Result<Tile, u8>, Difference> {
    if let Some(marks) = &call.marks {
        return correct_curves(rules, call, marks);
    }
    let Correcting { count, placement, .. } = *call;
    let (name, left, answer) = expected(rules, call);

    let numbers = placements::numbers(placement);
    let lent = Guarded::new(&numbers);
    corrected(&format!("{name}_by_numbers"), call, answer, &left, |points, edges, table| {
        let by_numbers = lent.get();
        match (call.ground, call.correction) {
            (Ground::Tile(side), Correction::PutIn) => {
                mattuliyan::put_by_numbers(side, points, count, by_numbers, edges, table)
            }
            (Ground::Tile(side), Correction::TakeOut) => {
                mattuliyan::take_by_numbers(side, points, count, by_numbers, edges, table)
            }
            (Ground::Sheet(place), Correction::PutIn) => {
                let place = sheets::for_library(place);
                mattuliyan::put_on_sheet_by_numbers(place, points, count, by_numbers, edges, table)
            }
            (Ground::Sheet(place), Correction::TakeOut) => {
                let place = sheets::for_library(place);
                mattuliyan::take_on_sheet_by_numbers(place, points, count, by_numbers, edges, table)
            }
        }
    })?;
    lent.same(&format!("the numbers after {name}_by_numbers"), &numbers)?;
    corrected(name, call, answer, &left, |points, edges, table| {
        let by_type = placements::for_library(placement);
        match (call.ground, call.correction) {
            (Ground::Tile(side), Correction::PutIn) => mattuliyan::put(side, points, count, by_type, edges, table),
            (Ground::Tile(side), Correction::TakeOut) => mattuliyan::take(side, points, count, by_type, edges, table),
            (Ground::Sheet(place), Correction::PutIn) => {
                mattuliyan::put_on_sheet(sheets::for_library(place), points, count, by_type, edges, table)
            }
            (Ground::Sheet(place), Correction::TakeOut) => {
                mattuliyan::take_on_sheet(sheets::for_library(place), points, count, by_type, edges, table)
            }
        }
    })?;
    Ok(answer.map(|()| left))
}

/// The same for a call with marks.
fn correct_curves(rules: &dyn Rules, call: &Correcting, marks: &[u8]) -> Result<Result<Tile, u8>, Difference> {
    let Correcting { correction, ground, ref points, count, placement, .. } = *call;
    let mut left = call.tile.clone();
    let Tile { record, table } = &mut left;
    let curves = Curves { points, marks };
    let (name, answer) = match correction {
        Correction::PutIn => {
            ("put_curves", reference::put_curves(rules, ground.site(), curves, count, placement, record, table))
        }
        Correction::TakeOut => {
            ("take_curves", reference::take_curves(rules, ground.site(), curves, count, placement, record, table))
        }
    };

    let site = ground.for_library();
    let numbers = placements::numbers(placement);
    let (lent, lent_marks) = (Guarded::new(&numbers), Guarded::new(marks));
    corrected(&format!("{name}_by_numbers"), call, answer, &left, |points, edges, table| {
        let make = match correction {
            Correction::PutIn => mattuliyan::put_curves_by_numbers,
            Correction::TakeOut => mattuliyan::take_curves_by_numbers,
        };
        make(site, points, count, lent_marks.get(), lent.get(), edges, table)
    })?;
    lent.same(&format!("the numbers after {name}_by_numbers"), &numbers)?;
    corrected(name, call, answer, &left, |points, edges, table| {
        let make = match correction {
            Correction::PutIn => mattuliyan::put_curves,
            Correction::TakeOut => mattuliyan::take_curves,
        };
        make(site, points, count, lent_marks.get(), placements::for_library(placement), edges, table)
    })?;
    lent_marks.same(&format!("the marks after {name}"), marks)?;
    Ok(answer.map(|()| left))
}

/// The call's name, and by the reference the tile that it leaves and what it answers.
fn expected(rules: &dyn Rules, call: &Correcting) -> (&'static str, Tile, Result<(), u8>) {
    let Correcting { correction, ground, ref points, count, placement, ref tile, .. } = *call;
    let mut left = tile.clone();
    let Tile { record, table } = &mut left;
    let (name, answer) = match (ground, correction) {
        (Ground::Tile(side), Correction::PutIn) => {
            ("put", reference::put(rules, side, points, count, placement, record, table))
        }
        (Ground::Tile(side), Correction::TakeOut) => {
            ("take", reference::take(rules, side, points, count, placement, record, table))
        }
        (Ground::Sheet(place), Correction::PutIn) => {
            ("put_on_sheet", reference::put_on_sheet(rules, place, points, count, placement, record, table))
        }
        (Ground::Sheet(place), Correction::TakeOut) => {
            ("take_on_sheet", reference::take_on_sheet(rules, place, points, count, placement, record, table))
        }
    };
    (name, left, answer)
}

/// Does a call of the library answer this, and leave this tile?
fn corrected(
    name: &str,
    call: &Correcting,
    answer: Result<(), u8>,
    left: &Tile,
    make: impl FnOnce(&[i64], &mut u32, &mut [i64]) -> Result<(), Refusal>,
) -> Result<(), Difference> {
    let lent_points = Guarded::new(&call.points);
    let (mut record, mut table) = (Guarded::new(&[call.tile.record]), Guarded::new(&call.tile.table));
    let answered = make(lent_points.get(), &mut record.get_mut()[0], table.get_mut()).map_err(Refusal::number);
    lent_points.same(&format!("the points after {name}"), &call.points)?;
    same(&format!("what {name} answers"), &answered, &answer)?;
    record.same(&format!("the record after {name}"), &[left.record])?;
    table.same(&format!("the table after {name}"), &left.table)
}

/// The same call on a tile of the library's own type, which is as the call's is: what it answers and how it is left must be as is expected, which
/// is the tile where it is done.
pub fn correct_owned(
    owned: &mut mattuliyan::Tile,
    call: &Correcting,
    expected: &Result<Tile, u8>,
) -> Result<(), Difference> {
    let placement = placements::for_library(call.placement);
    let lent_points = Guarded::new(&call.points);
    let lent_marks = call.marks.as_ref().map(|marks| Guarded::new(marks));
    let answer = match (call.correction, &lent_marks) {
        (Correction::PutIn, None) => owned.put(lent_points.get(), placement),
        (Correction::TakeOut, None) => owned.take(lent_points.get(), placement),
        (Correction::PutIn, Some(marks)) => owned.put_curves(lent_points.get(), marks.get(), placement),
        (Correction::TakeOut, Some(marks)) => owned.take_curves(lent_points.get(), marks.get(), placement),
    };
    lent_points.same("the points after a tile's own call", &call.points)?;
    if let (Some(lent), Some(marks)) = (&lent_marks, &call.marks) {
        lent.same("the marks after a tile's own call", marks)?;
    }
    let answered = expected.as_ref().map(|_| ()).map_err(|&number| number);
    same("what a tile's own call answers", &answer.map_err(Refusal::number), &answered)?;
    same_owned(owned, call.ground, expected.as_ref().unwrap_or(&call.tile))
}

/// Is a tile of the library's own type this one?
pub fn same_owned(owned: &mattuliyan::Tile, ground: Ground, expected: &Tile) -> Result<(), Difference> {
    let place = match ground {
        Ground::Tile(_) => None,
        Ground::Sheet(place) => Some(sheets::for_library(place)),
    };
    same("the side of a tile", &owned.side(), &ground.side())?;
    same("the place of a tile", &owned.place(), &place)?;
    same("the edge count of a tile", &owned.edges(), &expected.record)?;
    same_list("the table of a tile", owned.table(), &expected.table)
}

/// A picture of figures: what the library answers and leaves, which the reference says too.
pub fn figures(
    rules: &dyn Rules,
    side: u32,
    level: u32,
    table: &[i64],
    held: &[i64],
) -> Result<Result<Vec<i64>, u8>, Difference> {
    let expected = reference::figures(rules, side, level, table, held.len());
    picture("figures", table, held, expected, |table, picture| mattuliyan::figures(side, level, table, picture))
}

/// A picture of greys, likewise.
pub fn greys(
    rules: &dyn Rules,
    side: u32,
    level: u32,
    table: &[i64],
    held: &[u8],
) -> Result<Result<Vec<u8>, u8>, Difference> {
    let expected = reference::greys(rules, side, level, table, held.len());
    picture("greys", table, held, expected, |table, picture| mattuliyan::greys(side, level, table, picture))
}

/// The greys of every level, likewise.
pub fn pyramid(rules: &dyn Rules, side: u32, table: &[i64], held: &[u8]) -> Result<Result<Vec<u8>, u8>, Difference> {
    let expected = reference::pyramid(rules, side, table, held.len());
    picture("pyramid", table, held, expected, |table, pictures| mattuliyan::pyramid(side, table, pictures))
}

/// One cell: what the library answers, which the reference says too.
pub fn cell(
    rules: &dyn Rules,
    side: u32,
    level: u32,
    cx: u32,
    cy: u32,
    table: &[i64],
) -> Result<Result<i64, u8>, Difference> {
    let expected = reference::cell(rules, side, level, cx, cy, table);
    let lent = Guarded::new(table);
    let answer = mattuliyan::cell(side, level, cx, cy, lent.get()).map_err(Refusal::number);
    lent.same("the table after cell", table)?;
    same("what cell answers", &answer, &expected)?;
    Ok(answer)
}

fn picture<T: Element>(
    name: &str,
    table: &[i64],
    held: &[T],
    expected: Result<Vec<T>, u8>,
    call: impl FnOnce(&[i64], &mut [T]) -> Result<(), Refusal>,
) -> Result<Result<Vec<T>, u8>, Difference> {
    let (lent, mut picture) = (Guarded::new(table), Guarded::new(held));
    let answer = call(lent.get(), picture.get_mut()).map_err(Refusal::number);
    lent.same(&format!("the table after {name}"), table)?;
    same(&format!("what {name} answers"), &answer, &expected.as_ref().map(|_| ()).map_err(|&number| number))?;
    picture.same(&format!("the picture after {name}"), expected.as_ref().map_or(held, |picture| picture))?;
    Ok(answer.map(|()| picture.get().to_vec()))
}

/// Elements of the buffers that are lent.
trait Element: Copy + Debug {
    /// What stands around a buffer. No call writes it as its answer; and where a coordinate, a count, a mark, an entry or a number of a placement can
    /// be refused, it is one that is, so that reading it shows.
    const MARK: Self;
    /// Elements are compared by their bits: a float that is not a number is not equal to itself.
    fn bits(self) -> u64;
}

impl Element for u8 {
    const MARK: u8 = 0xa5;
    fn bits(self) -> u64 {
        self.into()
    }
}

impl Element for u32 {
    const MARK: u32 = u32::MAX;
    fn bits(self) -> u64 {
        self.into()
    }
}

impl Element for i64 {
    const MARK: i64 = i64::MIN;
    fn bits(self) -> u64 {
        self as u64
    }
}

impl Element for f64 {
    const MARK: f64 = f64::NAN;
    fn bits(self) -> u64 {
        self.to_bits()
    }
}

/// Elements on each side of a buffer, at the least. The widest store of a processor is 64 bytes, so one that begins in the buffer or at its end
/// does not reach past the margin.
const MARGIN: usize = 64;
/// There are up to 2^4 − 1 more before it, told from what is in it, so that buffers have every alignment.
const SHIFT_BITS: u32 = 4;
/// Odd, with its bits well mixed: the highest bits of a product with it depend on all bits of the other factor.
const MIXER: u64 = 0x9e37_79b9_7f4a_7c15;

/// A copy of a list, to be lent between two margins: a write past its ends shows, and a read that is made use of.
struct Guarded<T> {
    all: Vec<T>,
    first: usize,
    length: usize,
}

impl<T: Element> Guarded<T> {
    fn new(list: &[T]) -> Guarded<T> {
        let mixed =
            list.iter().take(8).fold(list.len() as u64, |sum, element| (sum ^ element.bits()).wrapping_mul(MIXER));
        let first = MARGIN + (mixed >> (u64::BITS - SHIFT_BITS)) as usize;
        let all = [&vec![T::MARK; first], list, &[T::MARK; MARGIN]].concat();
        Guarded { all, first, length: list.len() }
    }

    fn get(&self) -> &[T] {
        &self.all[self.first..self.first + self.length]
    }

    fn get_mut(&mut self) -> &mut [T] {
        &mut self.all[self.first..self.first + self.length]
    }

    /// Is this the list now, and is nothing written around it?
    fn same(&self, what: &str, expected: &[T]) -> Result<(), Difference> {
        let after = &self.all[self.first + self.length..];
        if self.all[..self.first].iter().chain(after).any(|&element| element.bits() != T::MARK.bits()) {
            return Err(Difference(format!("{what}: something is written outside it")));
        }
        same_list(what, self.get(), expected)
    }
}

fn same<T: PartialEq + Debug>(what: &str, found: &T, expected: &T) -> Result<(), Difference> {
    if found == expected {
        Ok(())
    } else {
        different(what, found, expected)
    }
}

fn different<T: Debug>(what: &str, found: &T, expected: &T) -> Result<(), Difference> {
    Err(Difference(format!("{what}: {found:?}, where the reference has {expected:?}")))
}

fn same_list<T: Element>(what: &str, found: &[T], expected: &[T]) -> Result<(), Difference> {
    same(&format!("the length of {what}"), &found.len(), &expected.len())?;
    // without a way out of the loop, several are compared at once
    let pairs = || found.iter().zip(expected).map(|(one, other)| one.bits() ^ other.bits());
    if pairs().fold(0, |bits, more| bits | more) == 0 {
        return Ok(());
    }
    let i = pairs().position(|bits| bits != 0).expect("some bit differs");
    different(&format!("{what}, entry {i}"), &found[i], &expected[i])
}

#[cfg(test)]
mod tests {
    use super::*;

    #[test]
    fn writes_outside_a_buffer_are_seen() {
        let mut guarded = Guarded::new(&[1u8, 2, 3]);
        guarded.get_mut()[2] = 9;
        assert!(guarded.same("inside", &[1, 2, 9]).is_ok());
        assert!(guarded.same("inside", &[1, 2, 3]).is_err());
        let end = guarded.first + guarded.length;
        for outside in [0, guarded.first - 1, end, guarded.all.len() - 1] {
            let mut guarded = Guarded::new(&[1u8, 2, 3]);
            guarded.all[outside] = 0; // what a wrong library would do
            assert!(guarded.same("outside", &[1, 2, 3]).is_err());
        }
    }

    #[test]
    fn buffers_have_every_alignment() {
        let begins: std::collections::BTreeSet<usize> = (0..=255u8).map(|byte| Guarded::new(&[byte]).first).collect();
        assert_eq!(begins.len(), 1 << SHIFT_BITS);
        // numbers of a placement have no low bits
        let begins: std::collections::BTreeSet<usize> =
            (0..=255).map(|n| Guarded::new(&[f64::from(n)]).first).collect();
        assert_eq!(begins.len(), 1 << SHIFT_BITS);
    }

    #[test]
    fn different_lists_are_seen() {
        assert!(same_list("lists", &[1u8, 2], &[1, 2]).is_ok());
        assert!(same_list("lists", &[1u8, 2], &[1, 3]).is_err());
        assert!(same_list("lists", &[1u8, 2], &[1, 2, 3]).is_err());
        assert!(same_list("lists", &[f64::NAN], &[f64::NAN]).is_ok());
        assert!(same_list("lists", &[f64::NAN], &[-f64::NAN]).is_err());
        assert!(same_list("lists", &[0.0], &[-0.0]).is_err());
    }
}

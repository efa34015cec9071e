//! The questions that decide whether a call is answered or refused.
//!
//! Each question is answered on its own, for any input at all, so that the
//! order in which they are asked is a mere list.

use crate::correction::Correction;
use crate::curve::{placed_chords, wanted, without_controls, Curves};
use crate::placement::{moved, numbers, Placement};
use crate::rules::Rules;
use crate::sheet::SheetTile;
use crate::{PARTS, STEPS};
use std::borrow::Cow;

/// 01's ten questions about a call, 02's about a placement, which is 12, 02's
/// about taking out, which is 13, 02's two about a tile of a sheet, and 02's about
/// the marks of curved edges, which is 16; each one's number is the refusal's. 11
/// is the tile program's alone.
#[derive(Clone, Copy, Debug, PartialEq, Eq)]
pub enum Question {
    /// Is the side 1, 2, 4, 8, 16, 32 or 64?
    Side = 1,
    /// Does the table have exactly side × side entries? On a sheet, the side is
    /// the tile's.
    TableLength = 2,
    /// Are the points exactly twice as many numbers as the counts' sum? With
    /// marks, are they two for each straight edge and four for each curved one?
    PointsLength = 3,
    /// Is every count from 3 to 1,024?
    EachCount = 4,
    /// Is the counts' sum at most 1,024? For putting in, is the record's count
    /// plus the contour's? With marks, it is the chords that are counted.
    CountSum = 5,
    /// Is every coordinate, as placed, from 0 to 256 × side? On a sheet, the
    /// side is the sheet's. With marks, the control points' are asked about too.
    Coordinates = 6,
    /// Is the level at most the depth?
    Level = 7,
    /// Has the picture exactly 4^level places? Of every level in one list, has it
    /// exactly 1 + 4 + .. + 4^depth?
    Places = 8,
    /// Is every entry of the table from −2^40 to 2^40? For putting in and taking
    /// out, of the table before the call and of the one it would leave?
    Entries = 9,
    /// Are both cell numbers below 2^level?
    CellNumbers = 10,
    /// Is every float handed in a multiple of 1/65,536 within its limits, and
    /// every coordinate to be moved from −32,768 to 32,767?
    Placing = 12,
    /// Does the record count as many edges as are taken out, or more?
    EnoughRecorded = 13,
    /// Is the sheet's side 1, 2, 4, 8, 16, 32, 64 or 128, is the tile's 1, 2, 4,
    /// 8, 16 or 32, and is the tile no larger than the sheet?
    SheetSides = 14,
    /// Is the tile's place on the sheet?
    TilePlace = 15,
    /// Is every mark 0 or 1, and are the marks as many as the counts' sum?
    Marks = 16,
}

/// The limits that the questions compare with.
#[derive(Clone, Copy, Debug, PartialEq, Eq)]
pub struct Limits {
    /// The greatest side of a tile.
    pub greatest_side: u32,
    /// The greatest side of a sheet.
    pub greatest_sheet: u32,
    /// The greatest side of a tile on a sheet.
    pub greatest_on_sheet: u32,
    /// The fewest points of a contour.
    pub least_count: u32,
    /// The most points of a contour.
    pub most_count: u32,
    /// The most edges of an outline, the counts' sum.
    pub most_edges: u32,
    /// The largest table entry that is drawn, and minus it the smallest.
    pub largest_entry: i64,
    /// The largest factor of a placement in 65,536ths, and minus it the
    /// smallest.
    pub largest_factor: i128,
    /// The largest offset of a placement in 65,536ths, and minus it the
    /// smallest.
    pub largest_offset: i128,
    /// The smallest coordinate of a point to be moved.
    pub lowest_moved: i64,
    /// The largest coordinate of a point to be moved.
    pub highest_moved: i64,
    /// The largest k: a curve becomes at most 2^k chords.
    pub most_halvings: u32,
}

impl Limits {
    /// 01's and 02's limits.
    pub const SPEC: Limits = Limits {
        greatest_side: 64,
        greatest_sheet: 128,
        greatest_on_sheet: 32,
        least_count: 3,
        most_count: 1024,
        most_edges: 1024,
        largest_entry: 1 << 40,
        largest_factor: 2 * PARTS,
        largest_offset: 16_384 * PARTS,
        lowest_moved: -32_768,
        highest_moved: 32_767,
        most_halvings: 7,
    };
}

/// What a call was given. What a call does not take stays empty, and no
/// question of that call is about it.
#[derive(Clone, Copy, Default)]
pub(crate) struct Given<'a> {
    pub side: u32,
    /// Of a call on a sheet, the tile with its place; the side is its side too.
    pub place: Option<SheetTile>,
    pub table: &'a [i64],
    pub points: &'a [i64],
    pub counts: &'a [u32],
    /// Of a call with marks, the marks.
    pub marks: Option<&'a [u8]>,
    pub placement: Placement,
    pub level: u32,
    /// Of a call that draws every level, and not one.
    pub every_level: bool,
    pub places: usize,
    pub cell: (u32, u32),
    pub correction: Option<Correction>,
    pub record: u32,
    /// The table that a correction would leave, where it would leave one.
    pub leaves: Option<&'a [i128]>,
}

impl Given<'_> {
    /// "The first 'no' decides": its number, or no refusal. The order is that of
    /// the call without a sheet and without marks.
    pub fn ask(&self, order: &[Question], rules: &dyn Rules) -> Result<(), u8> {
        let order = match self.marks {
            Some(_) => rules.with_marks(order),
            None => order.to_vec(),
        };
        let order = match self.place {
            Some(_) => rules.on_sheet(&order),
            None => order,
        };
        match order.iter().find(|&&question| !self.yes(question, rules)) {
            Some(&no) => Err(no as u8),
            None => Ok(()),
        }
    }

    fn yes(&self, question: Question, rules: &dyn Rules) -> bool {
        let limits = rules.limits();
        match question {
            Question::Side => is_side(self.side, limits.greatest_side),
            Question::TableLength => {
                let side = self.place.map_or(self.side, |place| rules.table_side(place));
                self.table.len() as u128 == u128::from(side) * u128::from(side)
            }
            Question::PointsLength => {
                let numbers = self.marks.map_or(2 * sum(self.counts), |marks| wanted(rules, self.counts, marks));
                self.points.len() as u128 == numbers
            }
            Question::EachCount => {
                self.counts.iter().all(|count| (limits.least_count..=limits.most_count).contains(count))
            }
            Question::CountSum => self.edges(rules) <= u128::from(limits.most_edges),
            Question::Coordinates => {
                let far = STEPS * i64::from(self.place.map_or(self.side, |place| rules.coordinate_side(place)));
                match moved(rules, self.placement, self.points) {
                    Some(placed) => {
                        let judged = rules.judged(self.points, &placed);
                        let judged = self.covered(rules, judged, rules.coordinates_cover_controls());
                        judged.iter().all(|x| (0..=far).contains(x))
                    }
                    // A float that is refused places no point, so that there
                    // is none to find off the tile.
                    None => true,
                }
            }
            Question::Level => self.level <= depth(self.side),
            Question::Places if self.every_level => rules.all_places(depth(self.side)) == self.places as u128,
            Question::Places => power(4, self.level) == Some(self.places as u128),
            Question::Entries => {
                let largest = limits.largest_entry;
                match (self.correction, self.leaves) {
                    (Some(correction), Some(after)) => {
                        let drawn = |entry: i128| entry.abs() <= largest.into();
                        rules.asked_entries(correction, self.table, after).into_iter().all(drawn)
                    }
                    _ => self.table.iter().all(|entry| (-largest..=largest).contains(entry)),
                }
            }
            Question::CellNumbers => {
                // A power past 2^127 is above any cell number.
                let cells = power(2, self.level).unwrap_or(u128::MAX);
                u128::from(self.cell.0) < cells && u128::from(self.cell.1) < cells
            }
            Question::Placing => {
                let movable = limits.lowest_moved..=limits.highest_moved;
                let floats = || !rules.asks_floats(self.points) || numbers(rules, self.placement).is_some();
                let covered = || self.covered(rules, self.points, rules.placing_covers_controls());
                let points = || covered().iter().all(|x| movable.contains(x));
                !rules.moves_points(self.placement) || (floats() && points())
            }
            Question::EnoughRecorded => {
                let (marked, chords) = (sum(self.counts), self.chords(rules));
                rules.enough_recorded(self.record, chords.map_or(marked, |chords| rules.taken_edges(marked, chords)))
            }
            Question::SheetSides => self.place.is_none_or(|place| rules.are_sheet_sides(place)),
            Question::TilePlace => self.place.is_none_or(|place| rules.is_on_sheet(place)),
            Question::Marks => self.marks.is_none_or(|marks| {
                let enough = rules.are_enough_marks(marks.len() as u128, sum(self.counts));
                enough && marks.iter().all(|&mark| rules.is_mark(mark))
            }),
        }
    }

    /// The edges that question 5 is about.
    fn edges(&self, rules: &dyn Rules) -> u128 {
        let (marked, chords) = (sum(self.counts), self.chords(rules));
        let edges = chords.map_or(marked, |chords| rules.summed_edges(marked, chords));
        match self.correction {
            Some(correction) => rules.asked_edges(correction, self.record, edges),
            None => edges,
        }
    }

    /// Of a call with marks, how many chords there are. Where there are none to be
    /// had, because numbers are missing or a float is refused, it is no chord.
    fn chords(&self, rules: &dyn Rules) -> Option<u128> {
        let curves = Curves { points: self.points, marks: self.marks? };
        let contours = placed_chords(rules, self.placement, curves, self.counts).unwrap_or_default();
        Some(contours.iter().map(|contour| contour.len() as u128).sum())
    }

    /// These points, the control points with them or not.
    fn covered<'b>(&self, rules: &dyn Rules, points: &'b [i64], controls: bool) -> Cow<'b, [i64]> {
        match self.marks {
            Some(marks) if !controls => Cow::Owned(without_controls(rules, points, self.counts, marks)),
            _ => Cow::Borrowed(points),
        }
    }
}

/// Whether a number is a side: "exactly one bit of it is set", and it is at most
/// the greatest.
pub(crate) fn is_side(number: u32, greatest: u32) -> bool {
    number <= greatest && number.count_ones() == 1
}

/// "The depth is the number of noughts below that bit."
pub(crate) const fn depth(side: u32) -> u32 {
    side.trailing_zeros()
}

/// The counts' sum; 128 bits hold it for any list that fits in memory.
fn sum(counts: &[u32]) -> u128 {
    counts.iter().map(|&count| u128::from(count)).sum()
}

/// A power, or none where it does not fit: no number that a caller can name
/// is then equal to it or above it.
fn power(base: u128, exponent: u32) -> Option<u128> {
    base.checked_pow(exponent)
}

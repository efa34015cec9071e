//! A tile that keeps its table and the record of its edge count together.
use crate::{Placement, Refusal, SheetTile, Site};

/// The greatest side of a tile.
const GREATEST_SIDE: u32 = 64;

/// A tile that owns its table and the record of its edge count. A letter is corrected in it, contour by contour.
///
/// ```
/// # fn main() -> Result<(), Box<dyn std::error::Error>> {
/// use mattuliyan::{Placement, Tile};
///
/// // an i without its dot on a tile of 4 pixels, and a speck beside it
/// let stroke = [256, 512, 512, 512, 512, 1024, 256, 1024];
/// let speck = [900, 900, 930, 900, 930, 930];
/// let points = [&stroke[..], &speck].concat();
/// let mut tile = Tile::build(4, &points, &[4, 3], Placement::None)?;
///
/// // the speck is taken out, and the dot put back
/// tile.take(&speck, Placement::None)?;
/// let dot = [0, 0, 256, 0, 256, 256, 0, 256];
/// tile.put(&dot, Placement::Shift(256.0, 0.0))?;
///
/// // it is the tile that building the corrected letter makes
/// let placed_dot = [256, 0, 512, 0, 512, 256, 256, 256];
/// let points = [placed_dot, stroke].concat();
/// assert_eq!(tile, Tile::build(4, &points, &[4, 4], Placement::None)?);
/// assert_eq!(tile.edges(), 8);
/// assert_eq!(tile.greys(2)?, [0, 255, 0, 0, 0, 0, 0, 0, 0, 255, 0, 0, 0, 255, 0, 0]);
/// # Ok(())
/// # }
/// ```
///
/// No field is public, so nothing but [`put`](Tile::put) and [`take`](Tile::take), and [`put_curves`](Tile::put_curves) and
/// [`take_curves`](Tile::take_curves), writes to a tile once it is made. So for every tile, after any series of calls in which each contour that was
/// taken out had been put in, or built, and not yet taken out, table and edge count are those of building the contours that remain, in any order,
/// and what is drawn is as near to the ink as what is drawn afresh. A call that is refused changes nothing.
///
/// What cannot be told is whether a contour is in, for a tile does not keep its contours. One that is not in is taken out like any other, if it has
/// no more edges than are in; after that, table and edge count need not be those of any outline, until that contour is put in.
///
/// A tile of a sheet ([`on_sheet`](Tile::on_sheet), [`build_on_sheet`](Tile::build_on_sheet)) keeps its place too. Its contours lie on the sheet,
/// and every correction of it is of the same sheet's side and the same place, as it has to be.
///
/// Tiles are equal where side, place on a sheet, edge count and table are: then every picture is the same, and stays so if both are corrected alike.
#[derive(Clone, Debug, PartialEq, Eq)]
pub struct Tile {
    side: u32,
    /// Of a tile of a sheet, where it is; the side is its side.
    place: Option<SheetTile>,
    edges: u32,
    table: Vec<i64>,
}

impl Tile {
    /// A tile with nothing in it. It is refused (1) where the side is none that a tile has.
    pub fn new(side: u32) -> Result<Tile, Refusal> {
        Tile::build(side, &[], &[], Placement::None)
    }

    /// The tile of an outline as placed: `points` has x and y of each point in turn, in steps, and `counts` how many points each contour has.
    pub fn build(side: u32, points: &[i64], counts: &[u32], placement: Placement) -> Result<Tile, Refusal> {
        let mut table = table(side);
        let edges = crate::build_placed(side, points, counts, placement, &mut table)?;
        Ok(Tile { side, place: None, edges, table })
    }

    /// A tile of a sheet with nothing in it. It is refused where the sides are none that sheet and tile have (14), or the place is off the sheet
    /// (15).
    pub fn on_sheet(place: SheetTile) -> Result<Tile, Refusal> {
        Tile::build_on_sheet(place, &[], &[], Placement::None)
    }

    /// The tile of a sheet on which this outline lies, as placed: as [`build`](Tile::build), with coordinates of the sheet.
    ///
    /// ```
    /// # fn main() -> Result<(), Box<dyn std::error::Error>> {
    /// use mattuliyan::{Placement, SheetTile, Tile};
    ///
    /// // a bar through the middle of a sheet of 4 pixels, in its lower left tile of 2, and a speck on another tile
    /// let place = SheetTile { sheet: 4, side: 2, column: 0, row: 1 };
    /// let bar = [0, 384, 1024, 384, 1024, 640, 0, 640];
    /// let speck = [900, 100, 930, 100, 930, 130];
    /// let mut tile = Tile::build_on_sheet(place, &[&bar[..], &speck].concat(), &[4, 3], Placement::None)?;
    /// assert_eq!(tile.greys(1)?, [128, 128, 0, 0]);
    ///
    /// // what is corrected on a sheet is corrected in each of its tiles
    /// tile.take(&speck, Placement::None)?;
    /// assert_eq!(tile, Tile::build_on_sheet(place, &bar, &[4], Placement::None)?);
    /// assert_eq!((tile.edges(), tile.place()), (4, Some(place)));
    /// # Ok(())
    /// # }
    /// ```
    pub fn build_on_sheet(
        place: SheetTile,
        points: &[i64],
        counts: &[u32],
        placement: Placement,
    ) -> Result<Tile, Refusal> {
        let mut table = table(place.side);
        let edges = crate::build_on_sheet(place, points, counts, placement, &mut table)?;
        Ok(Tile { side: place.side, place: Some(place), edges, table })
    }

    /// The tile of an outline that may have curved edges, as placed, alone or of a sheet: points, counts and marks are as for the call
    /// [`build_curves`](crate::build_curves).
    ///
    /// ```
    /// # fn main() -> Result<(), Box<dyn std::error::Error>> {
    /// use mattuliyan::{Placement, Site, Tile};
    ///
    /// // a round letter on a tile of 2 pixels and a speck in it, which is straight
    /// let round = [256, 0, 512, 0, 512, 256, 512, 512, 256, 512, 0, 512, 0, 256, 0, 0];
    /// let speck = [200, 200, 230, 200, 230, 230];
    /// let points = [&round[..], &speck].concat();
    /// let mut tile = Tile::build_curves(Site::Alone(2), &points, &[4, 3], &[1, 1, 1, 1, 0, 0, 0], Placement::None)?;
    /// assert_eq!(tile.edges(), 32 + 3);
    ///
    /// // straight contours and curved ones are corrected in one tile
    /// tile.take(&speck, Placement::None)?;
    /// assert_eq!(tile.greys(1)?, [211; 4]);
    /// tile.take_curves(&round, &[1; 4], Placement::None)?;
    /// assert_eq!(tile, Tile::new(2)?);
    /// # Ok(())
    /// # }
    /// ```
    pub fn build_curves(
        site: Site,
        points: &[i64],
        counts: &[u32],
        marks: &[u8],
        placement: Placement,
    ) -> Result<Tile, Refusal> {
        let (side, place) = match site {
            Site::Alone(side) => (side, None),
            Site::OnSheet(place) => (place.side, Some(place)),
        };
        let mut table = table(side);
        let edges = crate::build_curves(site, points, counts, marks, placement, &mut table)?;
        Ok(Tile { side, place, edges, table })
    }

    /// Puts a contour in: its points as placed, `points` having x and y of each in turn, in steps.
    ///
    /// It has a point for every two numbers, from 3 to 1,024 points (else 4), and the edges that are in and its own are at most 1,024 (else 5).
    /// A last x without a y is refused (3). The call [`put`](crate::put) says which way round it should go.
    pub fn put(&mut self, points: &[i64], placement: Placement) -> Result<(), Refusal> {
        let (count, edges, table) = (count(points.len()), &mut self.edges, &mut self.table);
        match self.place {
            None => crate::put(self.side, points, count, placement, edges, table),
            Some(place) => crate::put_on_sheet(place, points, count, placement, edges, table),
        }
    }

    /// Takes a contour out again, as [`put`](Tile::put) put it in. It is known by its points as placed, in their order, so it may be taken out
    /// under another placement that leads to the same points; its reverse is another contour, as the call [`take`](crate::take) says. More edges
    /// than are in are refused (13); a contour that is not in is not.
    pub fn take(&mut self, points: &[i64], placement: Placement) -> Result<(), Refusal> {
        let (count, edges, table) = (count(points.len()), &mut self.edges, &mut self.table);
        match self.place {
            None => crate::take(self.side, points, count, placement, edges, table),
            Some(place) => crate::take_on_sheet(place, points, count, placement, edges, table),
        }
    }

    /// Puts a contour in that may have curved edges: `marks` has 0 for each straight edge and 1 for each curved one, and `points` has x and y of its
    /// start and, where it is curved, of its control point right after.
    ///
    /// It has an edge for every mark, from 3 to 1,024 edges (else 4). A mark is 0 or 1 (else 16), the points are as many as the marks say (else 3), and
    /// the edges that are in and the contour's chords are at most 1,024 (else 5).
    pub fn put_curves(&mut self, points: &[i64], marks: &[u8], placement: Placement) -> Result<(), Refusal> {
        let (site, count) = (self.site(), edges_marked(marks.len()));
        crate::put_curves(site, points, count, marks, placement, &mut self.edges, &mut self.table)
    }

    /// Takes a contour out again, as [`put_curves`](Tile::put_curves) put it in. It is known by its points as placed and its marks, so it may be taken out
    /// under another placement that leads to the same points. More chords than are in are refused (13), and more than 1,024 (5); a contour that is not in
    /// is not.
    pub fn take_curves(&mut self, points: &[i64], marks: &[u8], placement: Placement) -> Result<(), Refusal> {
        let (site, count) = (self.site(), edges_marked(marks.len()));
        crate::take_curves(site, points, count, marks, placement, &mut self.edges, &mut self.table)
    }

    /// What the tile is: one alone or one of a sheet.
    fn site(&self) -> Site {
        self.place.map_or(Site::Alone(self.side), Site::OnSheet)
    }

    /// Pixels a side.
    pub fn side(&self) -> u32 {
        self.side
    }

    /// Where it is on its sheet, if it is a tile of one.
    pub fn place(&self) -> Option<SheetTile> {
        self.place
    }

    /// How many edges are in: at most 1,024.
    pub fn edges(&self) -> u32 {
        self.edges
    }

    /// The table of Haar coefficients, side × side entries, as [`figures`](crate::figures) and its like take it.
    pub fn table(&self) -> &[i64] {
        &self.table
    }

    /// The figures of a level, 2^level rows and columns, as [`figures`](crate::figures) draws them. A level that the tile does not have is
    /// refused (7), and no other is.
    pub fn figures(&self, level: u32) -> Result<Vec<i64>, Refusal> {
        let mut picture = vec![0; self.places(level)];
        crate::figures(self.side, level, &self.table, &mut picture)?;
        Ok(picture)
    }

    /// The greys of a level, likewise, as [`greys`](crate::greys) draws them.
    pub fn greys(&self, level: u32) -> Result<Vec<u8>, Refusal> {
        let mut picture = vec![0; self.places(level)];
        crate::greys(self.side, level, &self.table, &mut picture)?;
        Ok(picture)
    }

    /// The figure of one cell, column `cx` and row `cy` of the level.
    pub fn cell(&self, level: u32, cx: u32, cy: u32) -> Result<i64, Refusal> {
        crate::cell(self.side, level, cx, cy, &self.table)
    }

    /// The places of a picture: 4^level. The level is asked for before them, so one that the tile does not have needs no more than the deepest.
    fn places(&self, level: u32) -> usize {
        let depth = self.side.trailing_zeros();
        1 << (2 * level.min(depth))
    }
}

/// A table for a tile of this side. The side is asked for before the table's length, so one that is too great needs no table of its own.
fn table(side: u32) -> Vec<i64> {
    let across = side.min(GREATEST_SIDE);
    vec![0; (across * across) as usize]
}

/// The count of a contour with so many coordinates: its whole points. Where one coordinate is left over, that many points are not twice as many
/// numbers, and the call is refused. What 32 bits do not hold stays at their end, where it is no count just the same.
fn count(coordinates: usize) -> u32 {
    u32::try_from(coordinates / 2).unwrap_or(u32::MAX)
}

/// The count of a contour with so many marks: an edge for each. What 32 bits do not hold stays at their end, likewise.
fn edges_marked(marks: usize) -> u32 {
    u32::try_from(marks).unwrap_or(u32::MAX)
}

#[cfg(test)]
mod tests {
    use super::*;

    #[test]
    fn counts_of_coordinates() {
        for (coordinates, expected) in
            [(0, 0), (1, 0), (5, 2), (6, 3), (7, 3), (2048, 1024), (2049, 1024), (2050, 1025)]
        {
            assert_eq!(count(coordinates), expected);
        }
        // cut to 32 bits, these would be 0, 3 and 3
        for coordinates in [1 << 33, (1 << 33) + 6, (1 << 33) + 7, usize::MAX] {
            assert_eq!(count(coordinates), u32::MAX);
        }
        assert_eq!(count((1 << 33) - 1), u32::MAX);
    }

    #[test]
    fn counts_of_marks() {
        for (marks, expected) in [(0, 0), (3, 3), (1025, 1025), ((1 << 32) - 1, u32::MAX)] {
            assert_eq!(edges_marked(marks), expected);
        }
        // cut to 32 bits, these would be 0 and 3
        for marks in [1 << 32, (1 << 32) + 3, usize::MAX] {
            assert_eq!(edges_marked(marks), u32::MAX);
        }
    }
}

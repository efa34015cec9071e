//! Pseudo-random outlines, curved ones too, placements and tiles of sheets for the
//! tests, the same at each run, and calls that draw a tile or correct it.
#![allow(dead_code)] // each test file uses a part of this

use reference::{build_curves, figures, greys, put, put_curves, put_on_sheet, take, take_curves, take_on_sheet};
use reference::{Correction, Curves, Placement, Rules, SheetTile, Site, Spec};

/// An outline that building accepts.
#[derive(Clone, Debug)]
pub struct Outline {
    /// The side of its tile, or of its sheet.
    pub side: u32,
    pub points: Vec<i64>,
    pub counts: Vec<u32>,
    /// Whether every edge is level, upright or at 45 degrees.
    pub straight: bool,
}

impl Outline {
    pub fn depth(&self) -> u32 {
        self.side.trailing_zeros()
    }

    pub fn edges(&self) -> u32 {
        self.counts.iter().sum()
    }

    pub fn noughts(&self) -> Vec<i64> {
        vec![0; (self.side * self.side) as usize]
    }

    /// The outline with each contour run the other way.
    pub fn reversed(&self) -> Outline {
        self.with_each_contour(reverse)
    }

    /// The outline with each contour begun at some point of it.
    pub fn begun_anywhere(&self, random: &mut Random) -> Outline {
        self.with_each_contour(|contour| contour.rotate_left(2 * random.below(contour.len() as i64 / 2) as usize))
    }

    fn with_each_contour(&self, mut change: impl FnMut(&mut [i64])) -> Outline {
        let mut other = self.clone();
        let mut rest = &mut other.points[..];
        for &count in &self.counts {
            let (contour, after) = rest.split_at_mut(2 * count as usize);
            change(contour);
            rest = after;
        }
        other
    }
}

/// An outline with curved edges that building accepts but for the chords, of which
/// there may be too many.
#[derive(Clone, Debug)]
pub struct Curved {
    pub points: Vec<i64>,
    pub counts: Vec<u32>,
    pub marks: Vec<u8>,
}

impl Curved {
    pub fn curves(&self) -> Curves<'_> {
        Curves { points: &self.points, marks: &self.marks }
    }

    /// Building it: the edge count and the table, or the refusal's number.
    pub fn built(&self, rules: &dyn Rules, site: Site, placement: Placement) -> Result<(u32, Vec<i64>), u8> {
        let held = vec![7; (site.side() * site.side()) as usize];
        build_curves(rules, site, self.curves(), &self.counts, placement, &held)
    }
}

/// A 64-bit linear congruence, of which the upper half is used.
pub struct Random(pub u64);

impl Random {
    /// A number from 0 up to below `below`.
    pub fn below(&mut self, below: i64) -> i64 {
        self.0 = self.0.wrapping_mul(6_364_136_223_846_793_005).wrapping_add(1_442_695_040_888_963_407);
        (self.0 >> 33) as i64 % below
    }

    /// A random outline of some side from 1 to 64, with few edges.
    pub fn outline(&mut self) -> Outline {
        let side = 1 << self.below(7);
        self.outline_of(side)
    }

    pub fn outline_of(&mut self, side: u32) -> Outline {
        let far = 256 * i64::from(side);
        let kind = self.below(5);
        let (mut points, mut counts) = (Vec::new(), Vec::new());
        for _ in 0..1 + self.below(3) {
            let before = points.len();
            match kind {
                // Anywhere on the tile.
                0 => (0..2 * (3 + self.below(6))).for_each(|_| points.push(self.below(far + 1))),
                // Close together, mostly across a few cells.
                1 => {
                    let reach = 1 + self.below(far.min(600));
                    let corner = [self.below(far + 1 - reach), self.below(far + 1 - reach)];
                    for _ in 0..3 + self.below(6) {
                        points.extend(corner.map(|c| c + self.below(reach + 1)));
                    }
                }
                // On the corners of cells, some of them the border's, with
                // repeated points.
                2 => (0..2 * (3 + self.below(6))).for_each(|_| points.push(256 * self.below(far / 256 + 1))),
                // Long thin slivers, nearly level or nearly upright.
                3 => {
                    let (a, b) = (self.below(far), self.below(far));
                    let sliver = [0, a, far, a + 1, b, a];
                    let turned = self.below(2) as usize;
                    points.extend((0..6).map(|i| sliver[i ^ turned]));
                }
                // A square on its corner or on its side: straight edges only.
                _ => {
                    let r = 1 + self.below(far / 2);
                    let [x, y] = [0; 2].map(|_: i64| r + self.below(far + 1 - 2 * r));
                    let on_corner = [x, y - r, x + r, y, x, y + r, x - r, y];
                    let on_side = [x - r, y - r, x + r, y - r, x + r, y + r, x - r, y + r];
                    points.extend(if self.below(2) == 0 { on_corner } else { on_side });
                }
            }
            counts.push(((points.len() - before) / 2) as u32);
            if self.below(3) == 0 {
                reverse(&mut points[before..]);
            }
        }
        Outline { side, points, counts, straight: kind == 4 }
    }

    /// A random outline of one to three contours with curved edges on a tile or a
    /// sheet of some side, mostly of few chords, the control points anywhere, near
    /// the edge or on the border.
    pub fn curved_outline_of(&mut self, side: u32) -> Curved {
        let far = 256 * i64::from(side);
        let mut outline = Curved { points: vec![], counts: vec![], marks: vec![] };
        for _ in 0..1 + self.below(3) {
            let reach = if self.below(2) == 0 { far } else { far.min(1 + self.below(2000)) };
            let corner = [0; 2].map(|_: i64| self.below(far + 1 - reach));
            let more = if self.below(6) == 0 { 40 } else { 4 };
            let count = 3 + self.below(more);
            for _ in 0..count {
                let start = corner.map(|c| c + self.below(reach + 1));
                outline.points.extend(start);
                let mark = self.below(2);
                outline.marks.push(mark as u8);
                let control = match self.below(4) {
                    0 => [self.below(far + 1), self.below(far + 1)],
                    1 => [far * self.below(2), self.below(far + 1)],
                    _ => corner.map(|c| c + self.below(reach + 1)),
                };
                if mark == 1 {
                    outline.points.extend(control);
                }
            }
            outline.counts.push(count as u32);
        }
        outline
    }

    /// A tile alone or a tile of a sheet, and the side of what an outline lies on
    /// there.
    pub fn site(&mut self) -> (Site, u32) {
        if self.below(2) == 0 {
            let side = 1 << self.below(7);
            return (Site::Alone(side), side);
        }
        let place = self.sheet_tile();
        (Site::OnSheet(place), place.sheet)
    }

    /// A random tile of a sheet, all sides as often as one another.
    pub fn sheet_tile(&mut self) -> SheetTile {
        let sides = sheet_sides();
        let (sheet, side) = sides[self.below(sides.len() as i64) as usize];
        let [column, row] = [0; 2].map(|_: u32| self.below((sheet / side).into()) as u32);
        SheetTile { sheet, side, column, row }
    }

    /// A random placement that lies far from every limit. It leaves points
    /// whose coordinates are from 300 to 600 on the tile of side 4: at most 600
    /// × 5/4 + 600 × 1/4 + 40, and at least 300 × 3/4 − 600 × 1/4 − 40. Half of
    /// the placements are quarters, so that halves are met.
    pub fn placement(&mut self) -> Placement {
        let kind = self.below(3);
        let grain = if self.below(2) == 0 { 16_384 } else { 1 };
        // A multiple of 1/65,536, the ends given in quarters.
        let mut float = |low: i64, high: i64| {
            let parts = low * 16_384 + grain * self.below((high - low) * 16_384 / grain + 1);
            parts as f64 / 65_536.0
        };
        match kind {
            0 => Placement::Shift(float(-800, 800), float(-800, 800)),
            1 => Placement::Scale(float(3, 5)),
            _ => Placement::Turn([
                float(3, 5),
                float(-1, 1),
                float(-160, 160),
                float(-1, 1),
                float(3, 5),
                float(-160, 160),
            ]),
        }
    }
}

/// The sides of sheets, each with the sides of the tiles on it.
pub fn sheet_sides() -> Vec<(u32, u32)> {
    let all = (0..=7).flat_map(|sheet| (0..=5).map(move |side| (1 << sheet, 1 << side)));
    all.filter(|(sheet, side)| side <= sheet).collect()
}

/// The figures and greys of a level.
pub fn drawn(side: u32, level: u32, table: &[i64]) -> (Vec<i64>, Vec<u8>) {
    let places = 4usize.pow(level);
    let figures = figures(&Spec, side, level, table, places).unwrap();
    (figures, greys(&Spec, side, level, table, places).unwrap())
}

/// A call that puts a contour in or takes it out.
#[derive(Clone, Debug)]
pub struct Call {
    pub correction: Correction,
    pub side: u32,
    /// The tile's place, which has its own side, where it is one of a sheet.
    pub place: Option<SheetTile>,
    pub points: Vec<i64>,
    /// The marks of a call that has them.
    pub marks: Option<Vec<u8>>,
    pub count: u32,
    pub placement: Placement,
    pub record: u32,
    pub table: Vec<i64>,
}

/// What a call answers, and the record and the table that it leaves.
pub type Outcome = (Result<(), u8>, u32, Vec<i64>);

impl Call {
    /// A contour that is not moved.
    pub fn of(correction: Correction, side: u32, points: &[i64], record: u32, table: &[i64]) -> Call {
        let (points, table) = (points.to_vec(), table.to_vec());
        let (count, placement, place, marks) = (points.len() as u32 / 2, Placement::None, None, None);
        Call { correction, side, place, points, marks, count, placement, record, table }
    }

    /// A contour with marks, an edge for each of them.
    pub fn marked(
        correction: Correction,
        site: Site,
        points: &[i64],
        marks: &[u8],
        record: u32,
        table: &[i64],
    ) -> Call {
        let place = match site {
            Site::Alone(_) => None,
            Site::OnSheet(place) => Some(place),
        };
        let (count, marks) = (marks.len() as u32, Some(marks.to_vec()));
        Call { place, count, marks, ..Call::of(correction, site.side(), points, record, table) }
    }

    /// The same, of a tile of a sheet.
    pub fn on_sheet(correction: Correction, place: SheetTile, points: &[i64], record: u32, table: &[i64]) -> Call {
        Call { place: Some(place), ..Call::of(correction, place.side, points, record, table) }
    }

    pub fn outcome(&self, rules: &dyn Rules) -> Outcome {
        let Call { side, count, placement, mut record, .. } = *self;
        let (points, mut table) = (&self.points, self.table.clone());
        if let Some(marks) = &self.marks {
            let site = self.place.map_or(Site::Alone(side), Site::OnSheet);
            let correct = match self.correction {
                Correction::PutIn => put_curves,
                Correction::TakeOut => take_curves,
            };
            let curves = Curves { points, marks };
            let answer = correct(rules, site, curves, count, placement, &mut record, &mut table);
            return (answer, record, table);
        }
        let answer = match (self.correction, self.place) {
            (Correction::PutIn, None) => put(rules, side, points, count, placement, &mut record, &mut table),
            (Correction::TakeOut, None) => take(rules, side, points, count, placement, &mut record, &mut table),
            (Correction::PutIn, Some(place)) => {
                put_on_sheet(rules, place, points, count, placement, &mut record, &mut table)
            }
            (Correction::TakeOut, Some(place)) => {
                take_on_sheet(rules, place, points, count, placement, &mut record, &mut table)
            }
        };
        (answer, record, table)
    }

    /// The outcome of a call that is refused with this number.
    pub fn refused(&self, number: u8) -> Outcome {
        (Err(number), self.record, self.table.clone())
    }
}

/// The contour run the other way.
pub fn reverse(contour: &mut [i64]) {
    contour.reverse();
    contour.chunks_mut(2).for_each(|pair| pair.swap(0, 1));
}

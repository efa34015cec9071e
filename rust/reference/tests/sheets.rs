//! 02's P5, letters that cross the tile: what is refused, values worked by hand,
//! and exact laws that tie the tiles of a sheet to one another and to a tile
//! alone, on pseudo-random outlines.

mod common;

use common::{drawn, reverse, sheet_sides, Call, Outcome, Outline, Random};
use reference::Correction::{PutIn, TakeOut};
use reference::{build, build_on_sheet, cell, exact_areas, exact_areas_on_sheet, exact_details_on_sheet, placed};
use reference::{signed_area, Correction, Exact, Placement, Question, Rules, SheetTile, Spec};

/// A pixel's area in units.
const PIXEL: i64 = 131_072;

/// The largest entry that question 9 lets pass.
const LARGEST: i64 = 1 << 40;

/// 01's letters F, G and H.
const F: [i64; 6] = [0, 0, 384, 1, 0, 1];
const G: [i64; 6] = [255, 0, 259, 1, 255, 1];
const H: [i64; 6] = [255, 1, 259, 1, 255, 0];

fn at(sheet: u32, side: u32, column: u32, row: u32) -> SheetTile {
    SheetTile { sheet, side, column, row }
}

fn noughts(place: SheetTile) -> Vec<i64> {
    vec![0; (place.side * place.side) as usize]
}

/// The table of an outline that is not moved.
fn table_of(place: SheetTile, points: &[i64], counts: &[u32]) -> Vec<i64> {
    let built = build_on_sheet(&Spec, place, points, counts, Placement::None, &noughts(place));
    let (edges, table) = built.expect("an accepted outline");
    assert_eq!(edges, counts.iter().sum());
    table
}

/// The table of one contour.
fn table(place: SheetTile, points: &[i64]) -> Vec<i64> {
    table_of(place, points, &[points.len() as u32 / 2])
}

/// The roots of all tiles of a sheet for one contour, row by row.
fn roots(sheet: u32, side: u32, points: &[i64]) -> Vec<i64> {
    SheetTile::all(sheet, side).map(|place| table(place, points)[0]).collect()
}

/// The exact areas of all tiles of a sheet, in decimal.
fn exact_roots(sheet: u32, side: u32, points: &[i64]) -> Vec<String> {
    let area = |place| exact_areas_on_sheet(place, points, &[points.len() as u32 / 2], 0)[0].decimal(3);
    SheetTile::all(sheet, side).map(area).collect()
}

fn reversed(points: &[i64]) -> Vec<i64> {
    let mut points = points.to_vec();
    reverse(&mut points);
    points
}

fn opposite(numbers: &[i64]) -> Vec<i64> {
    numbers.iter().map(|number| -number).collect()
}

#[test]
fn tiles_row_by_row() {
    let tiles: Vec<SheetTile> = SheetTile::all(4, 2).collect();
    assert_eq!(tiles, [at(4, 2, 0, 0), at(4, 2, 1, 0), at(4, 2, 0, 1), at(4, 2, 1, 1)]);
    assert_eq!(sheet_sides().len(), 33);
    for (sheet, side) in sheet_sides() {
        assert_eq!(SheetTile::all(sheet, side).count() as u32, (sheet / side).pow(2));
        assert!(SheetTile::all(sheet, side).all(|place| table_of(place, &[], &[]) == noughts(place)));
    }
}

/// Letters of which every tile's part is whole.
#[test]
fn whole_roots() {
    // A pixel in each place of a sheet of 2.
    for (i, [x, y]) in [[0, 0], [256, 0], [0, 256], [256, 256]].into_iter().enumerate() {
        let pixel = [x, y, x + 256, y, x + 256, y + 256, x, y + 256];
        let mut expected = [0; 4];
        expected[i] = PIXEL;
        assert_eq!(roots(2, 1, &pixel), expected);
        assert_eq!(roots(2, 1, &reversed(&pixel)), expected.map(|root| -root));
    }
    // E: its slanted edge goes through the corners of two tiles.
    assert_eq!(roots(2, 1, &[0, 0, 512, 0, 0, 512]), [PIXEL, PIXEL / 2, PIXEL / 2, 0]);
    // From the middle of the first tile to the end of the sheet. The right edge
    // lies off all tiles but the last, and counts in each with its whole width.
    let stroke = [128, 0, 1024, 0, 1024, 256, 128, 256];
    let mut expected = [0; 16];
    expected[..4].copy_from_slice(&[PIXEL / 2, PIXEL, PIXEL, PIXEL]);
    assert_eq!(roots(4, 1, &stroke), expected);
    // Half the largest sheet, on tiles of the largest side, 2^27 units each: the
    // largest numerator that there is.
    let half = [0, 0, 32_768, 0, 0, 32_768];
    let share = |place: SheetTile| [2, 2, 2, 1, 0, 0, 0][(place.column + place.row) as usize];
    let expected: Vec<i64> = SheetTile::all(128, 32).map(|place| share(place) << 26).collect();
    assert_eq!(roots(128, 32, &half), expected);
    assert_eq!(expected.iter().sum::<i64>(), signed_area(&half, &[3]));
    // Round the sheet 256 times: the largest root, 2^35.
    let round = [0, 0, 32_768, 0, 32_768, 32_768, 0, 32_768].repeat(256);
    assert_eq!(table(at(128, 32, 3, 2), &round)[0], 1 << 35);
}

/// "The root is now rounded for each edge too", halves away from zero.
#[test]
fn rounded_roots() {
    assert_eq!(exact_roots(2, 1, &F), ["341.333", "42.667", "0.000", "0.000"]);
    assert_eq!(roots(2, 1, &F), [341, 43, 0, 0]);
    // G's slanted edge has 511 3/4 and 2 1/4, and its upright one −510 and 0.
    assert_eq!(exact_roots(2, 1, &G), ["1.750", "2.250", "0.000", "0.000"]);
    assert_eq!((roots(2, 1, &G), roots(2, 1, &H)), (vec![2, 2, 0, 0], vec![-2, -2, 0, 0]));
    // A slanted edge that has 511 1/2 and 1/2: the roots do not add up to 2.
    let half = [255, 0, 257, 1, 255, 1];
    assert_eq!(exact_roots(2, 1, &half), ["1.500", "0.500", "0.000", "0.000"]);
    assert_eq!((roots(2, 1, &half), signed_area(&half, &[3])), (vec![2, 1, 0, 0], 2));
    assert_eq!(roots(2, 1, &reversed(&half)), [-2, -1, 0, 0]);
    // Two such edges, each of them rounded: 512 + 512 − 1020, where the sum is 3.
    let twice = [255, 0, 257, 1, 255, 2];
    assert_eq!(exact_roots(2, 1, &twice), ["3.000", "1.000", "0.000", "0.000"]);
    assert_eq!(roots(2, 1, &twice), [4, 2, 0, 0]);
}

/// Tables of tiles of side 2 on a sheet of 4.
#[test]
fn tables_at_their_place() {
    // D, one tile to the right and one down.
    let pixel = [512, 512, 768, 512, 768, 768, 512, 768];
    assert_eq!(table(at(4, 2, 1, 1), &pixel), [PIXEL; 4]);
    assert_eq!(table(at(4, 2, 0, 1), &pixel), [0; 4]);
    // Half the sheet: a full tile, two of E, and one that is blank.
    let half = [0, 0, 1024, 0, 0, 1024];
    assert_eq!(table(at(4, 2, 0, 0), &half), [4 * PIXEL, 0, 0, 0]);
    assert_eq!(table(at(4, 2, 1, 0), &half), [262_144, 131_072, 131_072, 0]);
    assert_eq!(table(at(4, 2, 0, 1), &half), [262_144, 131_072, 131_072, 0]);
    assert_eq!(table(at(4, 2, 1, 1), &half), [0; 4]);
    // F and G, one tile to the right: all of them is on the tile, where their
    // roots are the signed areas.
    let moved = |letter: [i64; 6]| letter.map(|c| c + 512).into_iter().enumerate();
    let moved = |letter| moved(letter).map(|(i, c)| if i % 2 == 0 { c } else { c - 512 }).collect::<Vec<i64>>();
    assert_eq!(table(at(4, 2, 1, 0), &moved(F)), [384, 299, 384, 299]);
    assert_eq!(table(at(4, 2, 1, 0), &moved(G)), [4, 0, 4, 0]);
    // A sliver like F over two tiles. In the first, h is 170 2/3: 426 2/3 in its
    // left pixel less 256 in its right one.
    let sliver = [0, 0, 768, 1, 0, 1];
    assert_eq!(exact_roots(4, 2, &sliver)[..2], ["682.667", "85.333"]);
    let [first, second] = [0, 1].map(|column| table(at(4, 2, column, 0), &sliver));
    assert_eq!((first.clone(), second[0]), (vec![683, 171, 683, 171], 85));
    assert_eq!(drawn(2, 1, &first), (vec![1708, 1024, 0, 0], vec![1, 0, 0, 0]));
}

#[test]
fn sides_of_sheets_and_tiles() {
    let numbers: Vec<u32> =
        (0..=260).chain([511, 512, 1 << 16, (1 << 16) + 2, 1 << 31, (1 << 31) + 32, u32::MAX]).collect();
    let mut accepted = 0;
    for &sheet in &numbers {
        for &side in &numbers {
            let good =
                [1, 2, 4, 8, 16, 32, 64, 128].contains(&sheet) && [1, 2, 4, 8, 16, 32].contains(&side) && side <= sheet;
            let refused = build_on_sheet(&Spec, at(sheet, side, 0, 0), &[], &[], Placement::None, &[]);
            assert_eq!(refused, Err(if good { 2 } else { 14 }), "a tile of {side} on a sheet of {sheet}");
            accepted += u32::from(good);
        }
    }
    assert_eq!(accepted, 33);
}

/// Columns and rows past the sheet by little and by much, among them those that
/// are on it where they are counted in pixels or cut to 32 bits.
#[test]
fn places_off_the_sheet() {
    for (sheet, side) in sheet_sides() {
        let across = sheet / side;
        let beyond = [across, across + 1, sheet, 2 * sheet, 1 << 16, 1 << 31, u32::MAX - 1, u32::MAX];
        let round = (1..=side.ilog2()).map(|bits| 1 << (32 - bits));
        let beyond: Vec<u32> = beyond.into_iter().chain(round).filter(|&number| number >= across).collect();
        for off in beyond {
            for on in [0, across - 1] {
                for (column, row) in [(off, on), (on, off), (off, off)] {
                    let place = at(sheet, side, column, row);
                    let answer = |table: &[i64]| build_on_sheet(&Spec, place, &[], &[], Placement::None, table);
                    assert_eq!((answer(&noughts(place)), answer(&[])), (Err(15), Err(15)), "{place:?}");
                }
            }
        }
    }
}

#[test]
fn question_2_reads_the_tiles_side() {
    for (sheet, side) in sheet_sides() {
        let place = at(sheet, side, 0, 0);
        for length in [0, side * side - 1, side * side, side * side + 1, sheet * sheet, (sheet / side).pow(2)] {
            let answer = build_on_sheet(&Spec, place, &[], &[], Placement::None, &vec![0; length as usize]);
            let right = length == side * side;
            assert_eq!(answer, if right { Ok((0, noughts(place))) } else { Err(2) }, "{place:?}, {length}");
        }
    }
}

/// "Question 6 reads the sheet's side", and is asked of the points as placed.
#[test]
fn question_6_reads_the_sheets_side() {
    for (sheet, side) in sheet_sides() {
        let far = 256 * i64::from(sheet);
        let place = at(sheet, side, 0, 0);
        let with = |place: SheetTile, x, placement| {
            build_on_sheet(&Spec, place, &[x, 0, x, 0, x, 0], &[3], placement, &noughts(place)).map(|(edges, _)| edges)
        };
        for (x, expected) in [(0, Ok(3)), (far, Ok(3)), (far + 1, Err(6)), (-1, Err(6)), (i64::MAX, Err(6))] {
            assert_eq!(with(place, x, Placement::None), expected, "{place:?}, {x}");
        }
        assert_eq!(with(place, far / 2, Placement::Scale(2.0)), Ok(3));
        assert_eq!(with(place, far / 2 + 1, Placement::Scale(2.0)), Err(6));
        // Half a step goes to the larger.
        assert_eq!(with(place, -1, Placement::Scale(0.5)), Ok(3));
        assert_eq!(with(place, 3, Placement::Shift(-3.5, 0.0)), Ok(3));
        assert_eq!(with(place, 3, Placement::Shift(-3.75, 0.0)), Err(6));
    }
    // The largest sheet ends one step past what may be moved.
    let largest = at(128, 1, 127, 0);
    let ask = |x, placement| build_on_sheet(&Spec, largest, &[x, 0, 0, 0, 0, 0], &[3], placement, &[0]);
    assert_eq!(ask(32_767, Placement::Shift(1.0, 0.0)).map(|(edges, _)| edges), Ok(3));
    assert_eq!(ask(32_767, Placement::Shift(2.0, 0.0)), Err(6));
    assert_eq!(ask(32_768, Placement::None).map(|(edges, _)| edges), Ok(3));
    assert_eq!(ask(32_768, Placement::Scale(1.0)), Err(12));
}

#[test]
fn building_asks_14_15_2_4_5_3_12_6() {
    let (bad, good) = (Placement::Scale(f64::NAN), Placement::Scale(1.0));
    let ask = |place, points: &[i64], counts: &[u32], placement, length| {
        build_on_sheet(&Spec, place, points, counts, placement, &vec![0; length]).map(|(edges, _)| edges)
    };
    let off = at(4, 2, 2, 0);
    let on = at(4, 2, 1, 1);
    // From a call with every fault, one fault less at a time.
    assert_eq!(ask(at(3, 2, 2, 0), &[-40_000], &[2, 1024], bad, 1), Err(14));
    assert_eq!(ask(off, &[-40_000], &[2, 1024], bad, 1), Err(15));
    assert_eq!(ask(on, &[-40_000], &[2, 1024], bad, 1), Err(2));
    assert_eq!(ask(on, &[-40_000], &[2, 1024], bad, 4), Err(4));
    assert_eq!(ask(on, &[-40_000], &[3, 1024], bad, 4), Err(5));
    assert_eq!(ask(on, &[-40_000], &[3], bad, 4), Err(3));
    assert_eq!(ask(on, &[-40_000, 0, 0, 0, 0, 1025], &[3], bad, 4), Err(12));
    assert_eq!(ask(on, &[-40_000, 0, 0, 0, 0, 1025], &[3], good, 4), Err(12));
    assert_eq!(ask(on, &[0, 0, 0, 0, 0, 1025], &[3], good, 4), Err(6));
    assert_eq!(ask(on, &[0, 0, 0, 0, 0, 1024], &[3], good, 4), Ok(3));
    // 14 is in place of 1: no side of a tile of a sheet is 1.
    for side in [0, 3, 64, 65, u32::MAX] {
        assert_eq!(ask(at(128, side, 0, 0), &[], &[], Placement::None, 0), Err(14));
    }
}

/// E in the second tile of a sheet of 4, by a scale of 1, and each of these
/// faults and no other.
fn with_faults(correction: Correction, faults: &[u8]) -> Call {
    let mut call = Call::on_sheet(correction, at(4, 2, 1, 0), &[512, 0, 1024, 0, 512, 512], 3, &[7; 4]);
    call.placement = Placement::Scale(1.0);
    for fault in faults {
        let place = call.place.as_mut().expect("a call on a sheet");
        match fault {
            14 => place.sheet = 5,
            15 => place.row = 2,
            2 => call.table.push(7),
            4 => call.count = 1025,
            5 => call.record = 1022,
            3 => call.points.push(0),
            12 => call.placement = Placement::Scale(2.0 + 1.0 / 65_536.0),
            6 => call.points[3] = -1,
            13 => call.record = 2,
            // h after the call, or the root before it.
            9 if faults.len() % 2 == 1 => call.table[1] = if correction == PutIn { LARGEST } else { -LARGEST },
            _ => call.table[0] = LARGEST + 1,
        }
    }
    call
}

/// Putting in asks 14, 15, 2, 4, 5, 3, 12, 6, 9, and taking out 14, 15, 2, 4, 3,
/// 12, 6, 13, 9: 4 has answered 5. Whatever faults a call has, the first in the
/// order decides, and nothing is changed.
#[test]
fn the_first_no_decides() {
    let orders = [(PutIn, [14, 15, 2, 4, 5, 3, 12, 6, 9]), (TakeOut, [14, 15, 2, 4, 3, 12, 6, 13, 9])];
    for (correction, order) in orders {
        for chosen in 0..1u32 << order.len() {
            let chosen = |&(place, _): &(usize, &u8)| chosen >> place & 1 == 1;
            let faults: Vec<u8> = order.iter().enumerate().filter(chosen).map(|(_, &fault)| fault).collect();
            let call = with_faults(correction, &faults);
            match faults.first() {
                Some(&number) => assert_eq!(call.outcome(&Spec), call.refused(number), "{call:?}"),
                None => assert_eq!(call.outcome(&Spec).0, Ok(()), "{call:?}"),
            }
        }
    }
}

/// Each question has an answer of its own: here 15 alone, of sides that are
/// none, and 14 of a place that is none.
#[test]
fn questions_in_any_order() {
    struct One(Question);
    impl Rules for One {
        fn on_sheet(&self, _order: &[Question]) -> Vec<Question> {
            vec![self.0]
        }
        // So that a call is not worked out that would be refused.
        fn square(&self, _place: SheetTile) -> reference::Cell {
            Spec.square(at(1, 1, 0, 0))
        }
        fn table_side(&self, _place: SheetTile) -> u32 {
            1
        }
    }
    let ask = |question, place| build_on_sheet(&One(question), place, &[], &[], Placement::None, &[0]);
    let most = u32::MAX;
    let accepted = Ok((0, vec![0]));
    assert_eq!(ask(Question::TilePlace, at(most, most, 0, 0)), accepted);
    assert_eq!(ask(Question::TilePlace, at(most, most, 1, 0)), Err(15));
    assert_eq!(ask(Question::TilePlace, at(most, 1, most, most)), Err(15));
    assert_eq!(ask(Question::TilePlace, at(most, 1, most - 1, most - 1)), accepted);
    assert_eq!(ask(Question::TilePlace, at(0, most, most, most)), Err(15));
    assert_eq!(ask(Question::TilePlace, at(96, 32, 2, 2)), accepted);
    assert_eq!(ask(Question::TilePlace, at(96, 32, 3, 2)), Err(15));
    assert_eq!(ask(Question::SheetSides, at(64, 32, most, most)), accepted);
    assert_eq!(ask(Question::SheetSides, at(most, most, most, most)), Err(14));
    // A call without a sheet has neither.
    assert_eq!(Spec.building()[0], Question::Side);
}

/// "Calls without a sheet stay as they were, side 64 too."
#[test]
fn no_sheet_no_change() {
    let pixel = [0, 0, 256, 0, 256, 256, 0, 256];
    assert_eq!(build(&Spec, 64, &pixel, &[4], &[0; 4096]).map(|(edges, table)| (edges, table[0])), Ok((4, PIXEL)));
    assert_eq!(build(&Spec, 128, &pixel, &[4], &[0; 128 * 128]), Err(1));
    assert_eq!(build(&Spec, 2, &F, &[3], &[0; 4]), Ok((3, vec![384, 299, 384, 299])));
}

/// With a sheet as large as the tile, entry for entry the table of a tile alone:
/// each edge's part of the root is another, and the differences cancel.
#[test]
fn a_sheet_as_large_as_the_tile() {
    let mut random = Random(41);
    for number in 0..300 {
        let side = 1 << (number % 6);
        let outline = random.outline_of(side);
        let alone = build(&Spec, side, &outline.points, &outline.counts, &outline.noughts()).unwrap().1;
        assert_eq!(table_of(at(side, side, 0, 0), &outline.points, &outline.counts), alone, "{outline:?}");
    }
}

/// An outline that lies on the tile wholly, wherever that is on the sheet, has
/// the table of a tile alone, as seen from the tile's corner. In every other tile
/// there is nothing of it, unless it lies to their right: there its edges' parts
/// are whole, and cancel.
#[test]
fn an_outline_wholly_on_its_tile() {
    let mut random = Random(42);
    for _ in 0..300 {
        let place = random.sheet_tile();
        let outline = random.outline_of(place.side);
        let alone = build(&Spec, place.side, &outline.points, &outline.counts, &outline.noughts()).unwrap().1;
        let corner = [place.column, place.row].map(|number| 256 * i64::from(place.side * number));
        let moved: Vec<i64> = outline.points.iter().enumerate().map(|(i, c)| c + corner[i % 2]).collect();
        assert_eq!(table_of(place, &moved, &outline.counts), alone, "{place:?}, {outline:?}");
        assert_eq!(alone[0], signed_area(&moved, &outline.counts));
        if place.sheet / place.side <= 4 {
            for other in SheetTile::all(place.sheet, place.side).filter(|&other| other != place) {
                assert_eq!(table_of(other, &moved, &outline.counts), noughts(other), "{other:?}, {place:?}");
            }
        }
    }
}

/// The details of a sheet's tiles are those that one tile as large as the sheet
/// has in the same squares. Only the roots are new.
#[test]
fn details_are_those_of_one_large_tile() {
    let mut random = Random(43);
    let first = |j: u32, cx: u32, cy: u32| (1usize << (2 * j)) + 3 * (((cy as usize) << j) + cx as usize);
    let mut compared = 0;
    for number in 0..60 {
        let sheet = 1 << (1 + number % 6);
        let outline = random.outline_of(sheet);
        let large = build(&Spec, sheet, &outline.points, &outline.counts, &outline.noughts()).unwrap().1;
        for (_, side) in sheet_sides().into_iter().filter(|&(of, side)| of == sheet && 1 < side) {
            let below = (sheet / side).trailing_zeros();
            for place in SheetTile::all(sheet, side) {
                let table = table_of(place, &outline.points, &outline.counts);
                for j in 0..side.trailing_zeros() {
                    for cy in 0..1 << j {
                        for cx in 0..1 << j {
                            let (here, there) =
                                (first(j, cx, cy), first(j + below, (place.column << j) + cx, (place.row << j) + cy));
                            assert_eq!(table[here..here + 3], large[there..there + 3], "{place:?}, {outline:?}");
                            compared += 1;
                        }
                    }
                }
            }
        }
    }
    assert!(compared > 10_000, "{compared} cells");
}

/// Without any rounding: each cell's area is the sum of its quarters', h, v and d
/// are the differences that 01 says, and the tiles of a sheet add up to the signed
/// area, at every level.
#[test]
fn exact_areas_of_a_sheet() {
    let mut random = Random(44);
    let mut fractions = 0;
    for (number, &(sheet, side)) in sheet_sides().iter().cycle().take(99).enumerate() {
        if sheet / side > 16 && number >= 33 {
            continue;
        }
        let outline = random.outline_of(sheet);
        let Outline { points, counts, .. } = &outline;
        let mut total = Exact::default();
        for place in SheetTile::all(sheet, side) {
            let areas: Vec<Vec<Exact>> =
                (0..=side.trailing_zeros()).map(|level| exact_areas_on_sheet(place, points, counts, level)).collect();
            for level in 0..side.trailing_zeros() {
                let details = exact_details_on_sheet(place, points, counts, level);
                let (coarse, fine) = (&areas[level as usize], &areas[level as usize + 1]);
                for (i, (area, [h, v, d])) in coarse.iter().zip(&details).enumerate() {
                    let (wide, cx, cy) = (2usize << level, i & ((1 << level) - 1), i >> level);
                    let ul = 2 * cy * wide + 2 * cx;
                    let [ul, ur, ll, lr] = [ul, ul + 1, ul + wide, ul + wide + 1].map(|place| &fine[place]);
                    let (upper, lower, left, right) = (ul.plus(ur), ll.plus(lr), ul.plus(ll), ur.plus(lr));
                    assert_eq!(area, &upper.plus(&lower), "area {i} of level {level} at {place:?} of {outline:?}");
                    assert_eq!(h, &left.minus(&right), "h {i} of level {level} at {place:?} of {outline:?}");
                    assert_eq!(v, &upper.minus(&lower), "v {i} of level {level} at {place:?} of {outline:?}");
                    assert_eq!(d, &ul.plus(lr).minus(&ur.plus(ll)), "d {i} of level {level} at {place:?}");
                }
            }
            fractions += usize::from(!areas[0][0].is_whole());
            total = total.plus(&areas[0][0]);
        }
        assert_eq!(total, Exact::from_whole(signed_area(points, counts).into()), "{sheet}, {side}: {outline:?}");
    }
    assert!(fractions > 500, "too few fractions: {fractions}");
}

/// The exact areas of the deepest cells are those of one tile as large as the
/// sheet.
#[test]
fn exact_areas_are_those_of_one_large_tile() {
    let mut random = Random(45);
    for number in 0..30 {
        let sheet: u32 = 1 << (1 + number % 6);
        let outline = random.outline_of(sheet);
        let large = exact_areas(sheet, &outline.points, &outline.counts, outline.depth());
        for (_, side) in sheet_sides().into_iter().filter(|&(of, _)| of == sheet) {
            for place in SheetTile::all(sheet, side) {
                let areas = exact_areas_on_sheet(place, &outline.points, &outline.counts, side.trailing_zeros());
                for (i, area) in areas.iter().enumerate() {
                    let (x, y) = (place.column * side + i as u32 % side, place.row * side + i as u32 / side);
                    assert_eq!(area, &large[(y * sheet + x) as usize], "{place:?}, {outline:?}");
                }
            }
        }
    }
}

/// "A figure may miss by 4^L × edges / 2 and a tile's figures add up to 4^L times
/// its own rounded root." It misses by nothing where every edge is level, upright
/// or at 45 degrees; there "the tiles' roots add up to the outline's area." Each
/// grey is at most one from the exact area's, and one cell is as the picture has
/// it.
#[test]
fn near_the_ink() {
    let mut random = Random(46);
    let (mut inexact, mut past_the_tiles_own, mut straight, mut off) = (0, 0, 0, 0);
    for number in 0..200 {
        let (sheet, side) = sheet_sides()[number % 33];
        if sheet / side > 16 && number >= 66 {
            continue;
        }
        let outline = random.outline_of(sheet);
        let (points, counts, edges) = (&outline.points, &outline.counts, outline.edges());
        let mut sum = 0;
        for place in SheetTile::all(sheet, side) {
            let table = table_of(place, points, counts);
            sum += table[0];
            for level in 0..=side.trailing_zeros() {
                let (figures, greys) = drawn(side, level, &table);
                assert_eq!(figures.iter().sum::<i64>(), table[0] << (2 * level));
                for (i, area) in exact_areas_on_sheet(place, points, counts, level).iter().enumerate() {
                    let what = format!("figure {i} of level {level} at {place:?} of {outline:?}");
                    let miss = area.miss(figures[i], level);
                    assert!(miss.within_on_sheet(level, edges), "{what}");
                    assert!(miss.ratio_on_sheet(level, edges) <= 1.0, "{what}");
                    assert!(miss.is_zero() || !outline.straight, "{what}");
                    assert!(area.grey(side, level).abs_diff(greys[i]) <= 1, "{what}");
                    inexact += usize::from(!miss.is_zero());
                    past_the_tiles_own += usize::from(!miss.within(level, edges));
                    straight += usize::from(outline.straight && figures[i] != 0);
                }
                let (cx, cy) = (random.below(1 << level) as u32, random.below(1 << level) as u32);
                let figure = figures[((cy << level) + cx) as usize];
                assert_eq!(cell(&Spec, side, level, cx, cy, &table), Ok(figure));
            }
        }
        let (area, tiles) = (signed_area(points, counts), i64::from((sheet / side).pow(2)));
        assert!(2 * (sum - area).abs() <= i64::from(edges) * tiles, "{sheet}, {side}, {outline:?}");
        assert!(sum == area || !outline.straight, "{sheet}, {side}, {outline:?}");
        off += usize::from(sum != area);
    }
    assert!(inexact > 1000 && straight > 1000, "{inexact} inexact figures, {straight} of straight edges");
    // A tile's own bound, of 4^L − 1, is too narrow here, and roots need not add up.
    assert!(past_the_tiles_own > 100 && off > 20, "{past_the_tiles_own} past it, {off} sums off");
}

/// Halves go away from zero, so an outline run the other way has the opposite
/// table in every tile; and overlaps add up.
#[test]
fn reversed_and_added_up() {
    let mut random = Random(47);
    for _ in 0..200 {
        let place = random.sheet_tile();
        let outline = random.outline_of(place.sheet);
        let table = table_of(place, &outline.points, &outline.counts);
        let reversed = outline.reversed().begun_anywhere(&mut random);
        assert_eq!(table_of(place, &reversed.points, &reversed.counts), opposite(&table), "{place:?}, {outline:?}");
        let mut sum = noughts(place);
        let mut rest = &outline.points[..];
        for &count in &outline.counts {
            let (contour, after) = rest.split_at(2 * count as usize);
            rest = after;
            sum.iter_mut().zip(table_of(place, contour, &[count])).for_each(|(total, entry)| *total += entry);
        }
        assert_eq!(table, sum, "{place:?}, {outline:?}");
    }
}

/// The outline on the sheet is the points as placed.
#[test]
fn outlines_are_placed_on_the_sheet() {
    let mut random = Random(48);
    for _ in 0..200 {
        // These stay on a sheet of 4 whatever the placement.
        let points: Vec<i64> = (0..10).map(|_| 300 + random.below(301)).collect();
        let (placement, side) = (random.placement(), 1 << random.below(3));
        let after = placed(&Spec, placement, &points);
        for place in SheetTile::all(4, side) {
            let with = build_on_sheet(&Spec, place, &points, &[5], placement, &noughts(place));
            assert_eq!(with, Ok((5, table(place, &after))), "{place:?}, {placement:?}");
        }
    }
    // A pixel from the last tile to the first, and a mirror.
    let pixel = [256, 256, 512, 256, 512, 512, 256, 512];
    let root = |column, row, placement| build_on_sheet(&Spec, at(2, 1, column, row), &pixel, &[4], placement, &[0]);
    assert_eq!(root(0, 0, Placement::Shift(-256.0, -256.0)), Ok((4, vec![PIXEL])));
    assert_eq!(root(1, 1, Placement::Shift(-256.0, -256.0)), Ok((4, vec![0])));
    assert_eq!(root(0, 1, Placement::Turn([-1.0, 0.0, 512.0, 0.0, 1.0, 0.0])), Ok((4, vec![-PIXEL])));
}

/// A contour that lies to the right of a tile, put in and taken out: nothing of
/// it is on the tile, and its root is what rounding leaves.
#[test]
fn corrected_by_hand() {
    let outcome = |correction, points: &[i64], record, table: &[i64]| {
        Call::on_sheet(correction, at(2, 1, 0, 0), points, record, table).outcome(&Spec)
    };
    let done = |record, table: &[i64]| -> Outcome { (Ok(()), record, table.to_vec()) };
    let right = [256, 0, 512, 0, 512, 256, 256, 256];
    assert_eq!(outcome(PutIn, &right, 0, &[0]), done(4, &[0]));
    assert_eq!(outcome(TakeOut, &right, 4, &[7]), done(0, &[7]));
    // Half of the tile and half of the next.
    let middle = [128, 0, 384, 0, 384, 256, 128, 256];
    assert_eq!(outcome(PutIn, &middle, 3, &[5]), done(7, &[5 + PIXEL / 2]));
    assert_eq!(outcome(TakeOut, &middle, 7, &[5 + PIXEL / 2]), done(3, &[5]));
    // F: 341 1/3, rounded before it is added, and two of it are 682.
    assert_eq!(outcome(PutIn, &F, 0, &[0]), done(3, &[341]));
    assert_eq!(outcome(PutIn, &F, 3, &[341]), done(6, &[682]));
    assert_eq!(outcome(TakeOut, &F, 6, &[682]), done(3, &[341]));
    // Question 9, of the table before and of the one that would be left.
    assert_eq!(outcome(PutIn, &F, 0, &[LARGEST - 341]), done(3, &[LARGEST]));
    assert_eq!(outcome(PutIn, &F, 0, &[LARGEST - 340]), (Err(9), 0, vec![LARGEST - 340]));
    assert_eq!(outcome(TakeOut, &F, 3, &[LARGEST + 1]), (Err(9), 3, vec![LARGEST + 1]));
    assert_eq!(outcome(TakeOut, &F, 2, &[0]), (Err(13), 2, vec![0]));
    assert_eq!(outcome(PutIn, &F, 1022, &[0]), (Err(5), 1022, vec![0]));
}

/// P3's law, with "one sheet side and one place through the whole of P3's
/// series": table and count are those of building what remains, in any order.
#[test]
fn the_law_of_corrections() {
    let mut random = Random(49);
    let (mut puts, mut takes, mut refused) = (0, 0, 0);
    for _ in 0..80 {
        let place = random.sheet_tile();
        let (mut record, mut table) = (0, noughts(place));
        let mut contours: Vec<Vec<i64>> = Vec::new();
        for _ in 0..10 {
            let call = if !contours.is_empty() && random.below(5) < 2 {
                let gone = contours.swap_remove(random.below(contours.len() as i64) as usize);
                takes += 1;
                Call::on_sheet(TakeOut, place, &gone, record, &table)
            } else {
                let outline = random.outline_of(place.sheet);
                let new = outline.points[..2 * outline.counts[0] as usize].to_vec();
                puts += 1;
                contours.push(new.clone());
                Call::on_sheet(PutIn, place, &new, record, &table)
            };
            // The same call for another tile, or with a point off the sheet.
            let off = Call { place: Some(SheetTile { row: place.sheet / place.side, ..place }), ..call.clone() };
            let mut far = call.clone();
            far.points[0] = 256 * i64::from(place.sheet) + 1;
            assert_eq!((off.outcome(&Spec), far.outcome(&Spec)), (call.refused(15), call.refused(6)));
            refused += 2;
            let (answer, after, left) = call.outcome(&Spec);
            assert_eq!(answer, Ok(()));
            (record, table) = (after, left);
            let mut order = contours.clone();
            if !order.is_empty() {
                order.rotate_left(random.below(contours.len() as i64) as usize);
            }
            let counts: Vec<u32> = order.iter().map(|contour| contour.len() as u32 / 2).collect();
            assert_eq!((record, &table), (counts.iter().sum(), &table_of(place, &order.concat(), &counts)));
        }
    }
    assert!(puts > 400 && takes > 200 && refused == 1600, "{puts} puts, {takes} takes, {refused} refused");
}

//! Lists as C takes them, in every length near the right ones. A placement of another length than 0, 1, 2 and 6 is 12, in that question's place;
//! points, marks and tables have one right length each, and what is refused for them is the first of these. On a sheet that has no other tile, calls
//! are answered as without one; and with a mark of 0 for each edge, as without marks.
use mattuliyan::{build_by_numbers, build_placed, put, put_by_numbers, take, take_by_numbers, Placement, Refusal};
use mattuliyan::{build_curves, build_curves_by_numbers, put_curves, put_curves_by_numbers, take_curves};
use mattuliyan::{build_on_sheet, build_on_sheet_by_numbers, put_on_sheet, put_on_sheet_by_numbers, take_on_sheet};
use mattuliyan::{take_curves_by_numbers, take_on_sheet_by_numbers, SheetTile, Site};

/// On a tile of 1 pixel, 01's letter C.
const POINTS: [i64; 6] = [0, 0, 256, 0, 0, 256];

/// The only tile of a sheet.
fn only(side: u32) -> SheetTile {
    SheetTile { sheet: side, side, column: 0, row: 0 }
}

/// A tile alone, and the only tile of a sheet.
fn sites(side: u32) -> [Site; 2] {
    [Site::Alone(side), Site::OnSheet(only(side))]
}

fn answered(points: &[i64], numbers: &[f64]) -> (Result<u32, u8>, [i64; 1]) {
    let mut table = [7];
    let answer = build_by_numbers(1, points, &[3], numbers, &mut table);
    let mut on_sheet = [7];
    assert_eq!(build_on_sheet_by_numbers(only(1), points, &[3], numbers, &mut on_sheet), answer);
    assert_eq!(on_sheet, table);
    for site in sites(1) {
        let mut marked = [7];
        assert_eq!(build_curves_by_numbers(site, points, &[3], &[0; 3], numbers, &mut marked), answer);
        assert_eq!(marked, table);
    }
    (answer.map_err(|refusal| refusal.number()), table)
}

/// Putting the letter in, with a record of 3 and an entry of 7, and taking it out: number, record and entry.
type Corrected = (Result<(), u8>, u32, [i64; 1]);

fn corrected(points: &[i64], numbers: &[f64]) -> [Corrected; 2] {
    let calls: [(ByNumbers, ByNumbersOnSheet, ByNumbersOfCurves); 2] = [
        (put_by_numbers, put_on_sheet_by_numbers, put_curves_by_numbers),
        (take_by_numbers, take_on_sheet_by_numbers, take_curves_by_numbers),
    ];
    calls.map(|(alone, on_sheet, of_curves)| {
        let (mut edges, mut table) = (3, [7]);
        let answer = alone(1, points, 3, numbers, &mut edges, &mut table);
        let (mut edges_there, mut table_there) = (3, [7]);
        assert_eq!(on_sheet(only(1), points, 3, numbers, &mut edges_there, &mut table_there), answer);
        assert_eq!((edges_there, table_there), (edges, table));
        for site in sites(1) {
            let (mut edges_marked, mut table_marked) = (3, [7]);
            let marked = of_curves(site, points, 3, &[0; 3], numbers, &mut edges_marked, &mut table_marked);
            assert_eq!((marked, edges_marked, table_marked), (answer, edges, table));
        }
        (answer.map_err(Refusal::number), edges, table)
    })
}

fn refused(number: u8) -> [Corrected; 2] {
    [(Err(number), 3, [7]); 2]
}

#[test]
fn lengths_of_no_placement_are_refused() {
    for length in 0..=8 {
        // as a scale half the size; as a turn half the size and upside down
        let numbers = &[0.5, 0.0, 0.0, 0.0, -0.5, 128.0, 0.0, 0.0][..length];
        let expected = match length {
            0 => (Ok(3), [65_536]),
            1 => (Ok(3), [16_384]),
            2 => (Err(6), [7]), // 256 and a half is off the tile
            6 => (Ok(3), [-16_384]),
            _ => (Err(12), [7]),
        };
        assert_eq!(answered(&POINTS, numbers), expected, "{length} numbers");
        // the same values are added and taken off, and the same is refused
        let expected = match expected {
            (Ok(count), [value]) => [(Ok(()), 3 + count, [7 + value]), (Ok(()), 3 - count, [7 - value])],
            (Err(number), _) => refused(number),
        };
        assert_eq!(corrected(&POINTS, numbers), expected, "{length} numbers");
    }
    // a length whose low byte is right
    for numbers in [&[0.0; 256][..], &[0.0; 256 + 6]] {
        assert_eq!(answered(&POINTS, numbers), (Err(12), [7]));
        assert_eq!(corrected(&POINTS, numbers), refused(12));
    }
}

#[test]
fn a_wrong_length_is_asked_for_after_3_and_before_6() {
    let off_the_tile = [0, 0, 300, 0, 0, 256];
    assert_eq!(answered(&off_the_tile, &[]), (Err(6), [7]));
    assert_eq!(answered(&off_the_tile, &[1.0; 3]), (Err(12), [7]));
    assert_eq!(answered(&POINTS[..5], &[1.0; 3]), (Err(3), [7]));
    assert_eq!(corrected(&off_the_tile, &[]), refused(6));
    assert_eq!(corrected(&off_the_tile, &[1.0; 3]), refused(12));
    assert_eq!(corrected(&POINTS[..5], &[1.0; 3]), refused(3));
}

#[test]
fn contours_and_tables_of_every_length() {
    let points: Vec<i64> = POINTS.repeat(3);
    let on_sheet = [
        (|side, points, count, placement, edges, table| {
            put_on_sheet(only(side), points, count, placement, edges, table)
        }) as Typed,
        |side, points, count, placement, edges, table| {
            take_on_sheet(only(side), points, count, placement, edges, table)
        },
    ];
    for call in [put as Typed, take].into_iter().chain(on_sheet) {
        for length in 0..=points.len() {
            for count in 0..=points.len() as u32 {
                for entries in 0..3 {
                    let (mut edges, mut table) = (100, vec![7; entries]);
                    let answer = call(1, &points[..length], count, Placement::None, &mut edges, &mut table);
                    let expected = match (entries, count, length) {
                        (0 | 2, _, _) => Err(2),
                        (_, 0..3, _) => Err(4),
                        _ if length != 2 * count as usize => Err(3),
                        _ => Ok(()),
                    };
                    assert_eq!(answer.map_err(Refusal::number), expected, "{length}, {count}, {entries}");
                    assert!(expected.is_ok() || (edges, table) == (100, vec![7; entries]));
                }
            }
        }
    }
    // nothing at all
    for (side, count, expected) in [(0, 0, 1), (1, 0, 2), (64, u32::MAX, 2)] {
        for call in [put, take] {
            let mut edges = 0;
            let answer = call(side, &[], count, Placement::None, &mut edges, &mut []);
            assert_eq!((answer.map_err(Refusal::number), edges), (Err(expected), 0));
        }
    }
}

#[test]
fn marks_and_points_of_every_length() {
    // the first edge is curved, or none is; its points are all one, so that there is a chord for each edge
    for curved in [0, 1] {
        let marks: Vec<u8> = [&[curved][..], &[0; 9]].concat();
        for site in sites(1) {
            for length in 0..=24 {
                for number in 0..=marks.len() {
                    for count in 0..=9 {
                        let expected = match count {
                            0..3 => Err(4),
                            _ if number != count => Err(16),
                            _ if length != 2 * (count + usize::from(curved)) => Err(3),
                            _ => Ok(count as u32),
                        };
                        let (points, marks, mut table) = (&[5; 24][..length], &marks[..number], [7]);
                        let built = build_curves(site, points, &[count as u32], marks, Placement::None, &mut table);
                        assert_eq!(built.map_err(Refusal::number), expected, "{length}, {number}, {count}");
                        assert_eq!(table, if expected.is_ok() { [0] } else { [7] });
                        for (call, sign) in [(put_curves as OfCurves, 1), (take_curves, -1)] {
                            let (mut edges, mut table) = (100, [7]);
                            let answer =
                                call(site, points, count as u32, marks, Placement::None, &mut edges, &mut table);
                            assert_eq!(answer.map_err(Refusal::number), expected.map(|_| ()));
                            let counted = expected.map_or(0, i64::from);
                            assert_eq!((i64::from(edges), table), (100 + sign * counted, [7]));
                        }
                    }
                }
            }
        }
    }
    // a number of marks whose low bits are right
    for marks in [vec![0; 256 + 3], vec![0; (1 << 16) + 3]] {
        let built = build_curves(Site::Alone(1), &[5; 6], &[3], &marks, Placement::None, &mut [7]);
        assert_eq!(built.map_err(Refusal::number), Err(16));
    }
    // nothing at all, in any list
    for site in sites(1) {
        let mut table = [7];
        assert_eq!(build_curves(site, &[], &[], &[], Placement::None, &mut table), Ok(0));
        assert_eq!(table, [0]);
        assert_eq!(build_curves(site, &[], &[], &[], Placement::None, &mut []).map_err(Refusal::number), Err(2));
    }
}

#[test]
fn every_mark() {
    for mark in 0..=u8::MAX {
        for place in 0..3 {
            let mut marks = [0; 3];
            marks[place] = mark;
            let points = &[5; 8][..if mark == 1 { 8 } else { 6 }];
            let expected = if mark <= 1 { Ok(3) } else { Err(16) };
            for site in sites(2) {
                let built = build_curves(site, points, &[3], &marks, Placement::None, &mut [7; 4]);
                assert_eq!(built.map_err(Refusal::number), expected, "{marks:?}");
                for call in [put_curves as OfCurves, take_curves] {
                    let answer = call(site, points, 3, &marks, Placement::None, &mut 3, &mut [7; 4]);
                    assert_eq!(answer.map_err(Refusal::number), expected.map(|_| ()), "{marks:?}");
                }
            }
        }
    }
}

type Typed = fn(u32, &[i64], u32, Placement, &mut u32, &mut [i64]) -> Result<(), Refusal>;
type ByNumbers = fn(u32, &[i64], u32, &[f64], &mut u32, &mut [i64]) -> Result<(), Refusal>;
type ByNumbersOnSheet = fn(SheetTile, &[i64], u32, &[f64], &mut u32, &mut [i64]) -> Result<(), Refusal>;
type OfCurves = fn(Site, &[i64], u32, &[u8], Placement, &mut u32, &mut [i64]) -> Result<(), Refusal>;
type ByNumbersOfCurves = fn(Site, &[i64], u32, &[u8], &[f64], &mut u32, &mut [i64]) -> Result<(), Refusal>;

#[test]
fn each_placement_has_its_length() {
    let placements = [
        (Placement::None, &[][..]),
        (Placement::Scale(0.75), &[0.75]),
        (Placement::Shift(-3.0, 5.0), &[-3.0, 5.0]),
        (Placement::Turn([0.25, 0.125, 9.0, -0.125, 0.25, 80.0]), &[0.25, 0.125, 9.0, -0.125, 0.25, 80.0]),
    ];
    // about the middle of the tile, so that its table tells the placements apart
    let points = [200, 220, 310, 230, 270, 290];
    let mut tables = Vec::new();
    for (placement, numbers) in placements {
        let (mut table, mut expected) = ([7; 4], [8; 4]);
        assert_eq!(build_placed(2, &points, &[3], placement, &mut table), Ok(3));
        assert_eq!(build_by_numbers(2, &points, &[3], numbers, &mut expected), Ok(3));
        assert_eq!(table, expected, "{placement:?}");
        let mut on_sheet = [9; 4];
        assert_eq!(build_on_sheet(only(2), &points, &[3], placement, &mut on_sheet), Ok(3));
        assert_eq!(table, on_sheet, "{placement:?}");
        for site in sites(2) {
            let mut marked = [9; 4];
            assert_eq!(build_curves(site, &points, &[3], &[0; 3], placement, &mut marked), Ok(3));
            assert_eq!(table, marked, "{placement:?}");
        }
        for (call, by_numbers, sign) in [(put as Typed, put_by_numbers as ByNumbers, 1), (take, take_by_numbers, -1)] {
            let (mut tile, mut other) = ((3, [0; 4]), (3, [0; 4]));
            assert_eq!(call(2, &points, 3, placement, &mut tile.0, &mut tile.1), Ok(()));
            assert_eq!(by_numbers(2, &points, 3, numbers, &mut other.0, &mut other.1), Ok(()));
            assert_eq!((tile, tile.0), (other, if sign == 1 { 6 } else { 0 }), "{placement:?}");
            assert_eq!(tile.1, table.map(|entry| sign * entry), "{placement:?}");
        }
        tables.push(table);
    }
    assert!((0..4).all(|i| !tables[..i].contains(&tables[i])), "placements that are not told apart: {tables:?}");
}

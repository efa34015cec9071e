//! Each wrong variant of a sheet is wrong where its one rule reaches, and nowhere
//! else. All expected values are worked by hand.

mod common;

use common::{Call, Random};
use reference::wrong::{self, *};
use reference::Correction::{PutIn, TakeOut};
use reference::{build_on_sheet, build_placed, exact_areas_on_sheet, figures, Placement, Rules, SheetTile, Spec};

/// A pixel's area in units.
const PIXEL: i64 = 131_072;

/// A stroke on a sheet of 4, from the middle of its first pixel to its end.
const STROKE: [i64; 8] = [128, 0, 1024, 0, 1024, 256, 128, 256];

/// Two slanted edges, each with a half in both tiles that they cross.
const HALVES: [i64; 6] = [255, 0, 257, 1, 255, 2];

/// A float that question 12 refuses.
const BAD: Placement = Placement::Scale(f64::NAN);

fn at(sheet: u32, side: u32, column: u32, row: u32) -> SheetTile {
    SheetTile { sheet, side, column, row }
}

/// The table of one contour by some rules.
fn table(rules: &dyn Rules, place: SheetTile, points: &[i64]) -> Vec<i64> {
    let held = vec![0; (place.side * place.side) as usize];
    build_on_sheet(rules, place, points, &[points.len() as u32 / 2], Placement::None, &held).unwrap().1
}

/// The roots of the first four tiles of a sheet of 4 with tiles of 1.
fn roots(rules: &dyn Rules, points: &[i64]) -> [i64; 4] {
    [0, 1, 2, 3].map(|column| table(rules, at(4, 1, column, 0), points)[0])
}

/// The answer to no contour at all, with a table for the tile's side: of 0, if
/// that is no side of a tile.
fn answer(rules: &dyn Rules, place: SheetTile) -> Result<(), u8> {
    let side = if place.side <= 64 { place.side } else { 0 };
    build_on_sheet(rules, place, &[], &[], Placement::None, &vec![0; (side * side) as usize]).map(|_| ())
}

/// The answers by the papers' rules and by another's.
fn both(rules: &dyn Rules, place: SheetTile) -> (Result<(), u8>, Result<(), u8>) {
    (answer(&Spec, place), answer(rules, place))
}

#[test]
fn roots_by_other_rules() {
    let half = PIXEL / 2;
    assert_eq!(roots(&Spec, &STROKE), [half, PIXEL, PIXEL, PIXEL]);
    assert_eq!(roots(&ShoelaceRoot, &STROKE), [7 * half; 4]);
    // The left edge alone, and then nothing: the right one is on the border.
    assert_eq!(roots(&OffTileSkipped, &STROKE), [-half, 0, 0, 0]);
    // The right edge as far as it is: 4, 3, 2 and 1 pixels.
    assert_eq!(roots(&RightNotHeld, &STROKE), [4 * PIXEL - half, 3 * PIXEL, 2 * PIXEL, PIXEL]);
    assert_eq!(roots(&RootRoundedOnce, &STROKE), roots(&Spec, &STROKE));
    assert_eq!(roots(&Spec, &HALVES), [4, 2, 0, 0]);
    assert_eq!(roots(&RootRoundedOnce, &HALVES), [3, 1, 0, 0]);
    // On a sheet as large as the tile, the signed area is right, and nothing is
    // past the right side.
    let whole = at(2, 2, 0, 0);
    for rules in [&ShoelaceRoot as &dyn Rules, &RightNotHeld] {
        assert_eq!(table(rules, whole, &HALVES), table(&Spec, whole, &HALVES));
    }
    // Corrections have the same roots: F's part of the first tile is 341 1/3, of
    // the second 42 2/3.
    let f = [0, 0, 384, 1, 0, 1];
    let put = |rules: &dyn Rules| Call::on_sheet(PutIn, at(2, 1, 1, 0), &f, 0, &[7]).outcome(rules);
    assert_eq!((put(&Spec), put(&ShoelaceRoot)), ((Ok(()), 3, vec![50]), (Ok(()), 3, vec![391])));
    let taken = |rules: &dyn Rules| Call::on_sheet(TakeOut, at(2, 1, 0, 0), &HALVES, 3, &[4]).outcome(rules);
    assert_eq!((taken(&Spec), taken(&RootRoundedOnce)), ((Ok(()), 0, vec![0]), (Ok(()), 0, vec![1])));
}

#[test]
fn places_by_other_rules() {
    // A pixel that is column 2, row 0 of a sheet of 8.
    let pixel = [512, 0, 768, 0, 768, 256, 512, 256];
    let root = |rules: &dyn Rules, column, row| table(rules, at(8, 2, column, row), &pixel)[0];
    assert_eq!([root(&Spec, 1, 0), root(&Spec, 2, 0), root(&Spec, 0, 1)], [PIXEL, 0, 0]);
    assert_eq!([root(&PlaceInPixels, 1, 0), root(&PlaceInPixels, 2, 0)], [PIXEL, PIXEL]);
    assert_eq!([root(&PlaceExchanged, 1, 0), root(&PlaceExchanged, 0, 1)], [0, PIXEL]);
    // The details of the first tile, where there is nothing.
    assert_eq!(table(&Spec, at(8, 2, 1, 0), &pixel), [PIXEL; 4]);
    assert_eq!(table(&PlaceInRootAlone, at(8, 2, 1, 0), &pixel), [PIXEL, 0, 0, 0]);
    // Nothing of this shows in the first tile, nor of the second in any on the
    // diagonal, nor of the first with tiles of a pixel.
    for rules in [&PlaceInPixels as &dyn Rules, &PlaceExchanged, &PlaceInRootAlone] {
        assert_eq!(table(rules, at(8, 2, 0, 0), &pixel), table(&Spec, at(8, 2, 0, 0), &pixel));
    }
    let diagonal = [0, 0, 2048, 0, 0, 2048];
    assert_eq!(table(&PlaceExchanged, at(8, 2, 1, 1), &diagonal), table(&Spec, at(8, 2, 1, 1), &diagonal));
    assert_eq!(roots(&PlaceInPixels, &STROKE), roots(&Spec, &STROKE));
}

#[test]
fn far_border_let_in() {
    for (column, row, other) in [(4, 0, Ok(())), (0, 4, Ok(())), (4, 4, Ok(())), (5, 0, Err(15)), (0, 5, Err(15))] {
        assert_eq!(both(&FarBorderLetIn, at(128, 32, column, row)), (Err(15), other), "{column}, {row}");
    }
    assert_eq!(both(&FarBorderLetIn, at(128, 32, 3, 3)), (Ok(()), Ok(())));
}

#[test]
fn place_multiplied() {
    // 32 × 2^27 is 2^32, and 2 × 2^31.
    for place in [at(64, 32, 1 << 27, 0), at(64, 32, 1, (1 << 27) + 1), at(2, 2, 1 << 31, 0), at(4, 2, 1, 1 << 31)] {
        assert_eq!(both(&PlaceMultiplied, place), (Err(15), Ok(())), "{place:?}");
    }
    for place in [at(64, 32, 2, 0), at(64, 32, 0, u32::MAX), at(64, 1, 1 << 31, 0), at(64, 32, (1 << 27) + 2, 0)] {
        assert_eq!(both(&PlaceMultiplied, place), (Err(15), Err(15)), "{place:?}");
    }
}

#[test]
fn row_not_asked() {
    assert_eq!(both(&RowNotAsked, at(4, 2, 1, 2)), (Err(15), Ok(())));
    assert_eq!(both(&RowNotAsked, at(4, 2, 2, 2)), (Err(15), Err(15)));
    assert_eq!(both(&RowNotAsked, at(4, 2, 1, 1)), (Ok(()), Ok(())));
}

#[test]
fn other_orders() {
    // No sheet and no place on it; a place alone; a sheet alone.
    let (neither, no_place, no_sheet) = (at(3, 2, 7, 0), at(4, 2, 7, 0), at(5, 2, 1, 1));
    assert_eq!(both(&PlaceBeforeSides, neither), (Err(14), Err(15)));
    assert_eq!(both(&PlaceBeforeSides, no_place), (Err(15), Err(15)));
    assert_eq!(both(&PlaceBeforeSides, no_sheet), (Err(14), Err(14)));
    let no_table = |rules: &dyn Rules, place| build_on_sheet(rules, place, &[], &[2], BAD, &[]).map(|_| ());
    assert_eq!((no_table(&Spec, no_place), no_table(&PlaceAfterTable, no_place)), (Err(15), Err(2)));
    assert_eq!((no_table(&Spec, neither), no_table(&PlaceAfterTable, neither)), (Err(14), Err(14)));
    assert_eq!(both(&PlaceAfterTable, no_place), (Err(15), Err(15)));
    // Before 4 and all others.
    let no_count = |rules: &dyn Rules| build_on_sheet(rules, no_place, &[], &[2], BAD, &[0; 4]).map(|_| ());
    assert_eq!((no_count(&Spec), no_count(&PlaceAfterTable)), (Err(15), Err(15)));
    // A side that no tile has, and one that only a tile alone has.
    assert_eq!(both(&SideAskedFirst, at(4, 3, 0, 0)), (Err(14), Err(1)));
    assert_eq!(both(&SideAskedFirst, at(128, 64, 0, 0)), (Err(14), Err(14)));
    assert_eq!(both(&SideAskedFirst, no_sheet), (Err(14), Err(14)));
    // Corrections ask in the same order.
    for correction in [PutIn, TakeOut] {
        let call = |place| Call::on_sheet(correction, place, &[0; 6], 3, &[]);
        let number = |rules: &dyn Rules, place| call(place).outcome(rules).0;
        assert_eq!((number(&Spec, neither), number(&PlaceBeforeSides, neither)), (Err(14), Err(15)));
        assert_eq!((number(&Spec, no_place), number(&PlaceAfterTable, no_place)), (Err(15), Err(2)));
        assert_eq!((number(&Spec, at(4, 3, 0, 0)), number(&SideAskedFirst, at(4, 3, 0, 0))), (Err(14), Err(1)));
    }
}

#[test]
fn other_sides() {
    let accepted = |rules: &dyn Rules, sides: [(u32, u32); 8]| {
        sides.map(|(sheet, side)| match answer(rules, at(sheet, side, 0, 0)) {
            Ok(()) => true,
            Err(number) => {
                assert_eq!(number, 14);
                false
            }
        })
    };
    let sides = [(64, 32), (64, 64), (96, 32), (128, 1), (128, 32), (128, 64), (256, 32), (512, 1)];
    assert_eq!(accepted(&Spec, sides), [true, false, false, true, true, false, false, false]);
    assert_eq!(accepted(&LargerSheet, sides), [true, false, false, true, true, false, true, false]);
    assert_eq!(accepted(&LargestSheetRefused, sides), [true, false, false, false, false, false, false, false]);
    assert_eq!(accepted(&LargerTileOnSheet, sides), [true, true, false, true, true, true, false, false]);
    assert_eq!(accepted(&LargestTileRefused, sides), [false, false, false, true, false, false, false, false]);
    assert_eq!(accepted(&AnySheetSide, sides), [true, false, true, true, true, false, false, false]);
    assert_eq!(accepted(&LargerThanSheet, sides), accepted(&Spec, sides));
    // A sheet of 0 has no tile.
    assert_eq!(both(&AnySheetSide, at(0, 1, 0, 0)), (Err(14), Err(14)));
    // No tile that is larger than its sheet has a place on it.
    assert_eq!(both(&LargerThanSheet, at(16, 32, 0, 0)), (Err(14), Err(15)));
    assert_eq!(both(&LargerThanSheet, at(1, 2, 0, 0)), (Err(14), Err(15)));
}

#[test]
fn sheet_table() {
    let with =
        |rules: &dyn Rules, length| build_on_sheet(rules, at(4, 2, 1, 1), &[], &[], Placement::None, &vec![7; length]);
    assert_eq!((with(&Spec, 4), with(&SheetTable, 4)), (Ok((0, vec![0; 4])), Err(2)));
    assert_eq!((with(&Spec, 16), with(&SheetTable, 16)), (Err(2), Ok((0, vec![0; 16]))));
    let put = |rules: &dyn Rules| Call::on_sheet(PutIn, at(4, 2, 1, 1), &STROKE, 0, &[7; 16]).outcome(rules);
    assert_eq!((put(&Spec), put(&SheetTable)), ((Err(2), 0, vec![7; 16]), (Ok(()), 4, vec![7; 16])));
    assert_eq!(both(&SheetTable, at(2, 2, 0, 0)), (Ok(()), Ok(())));
}

#[test]
fn tile_coordinates() {
    let with = |rules: &dyn Rules, place, x| {
        let table = vec![0; 4];
        build_on_sheet(rules, place, &[x, 0, 0, 0, 0, 0], &[3], Placement::None, &table).map(|(edges, _)| edges)
    };
    let place = at(4, 2, 1, 0);
    assert_eq!((with(&Spec, place, 513), with(&TileCoordinates, place, 513)), (Ok(3), Err(6)));
    assert_eq!((with(&Spec, place, 512), with(&TileCoordinates, place, 512)), (Ok(3), Ok(3)));
    assert_eq!((with(&Spec, place, 1025), with(&TileCoordinates, place, 1025)), (Err(6), Err(6)));
    let whole = at(2, 2, 0, 0);
    assert_eq!((with(&Spec, whole, 513), with(&TileCoordinates, whole, 513)), (Err(6), Err(6)));
}

/// The bound of a tile alone, (4^L − 1) × edges / 2, is no bound on a sheet: at
/// level 0 it is nothing, and a root is rounded.
#[test]
fn the_bound_of_a_tile_alone() {
    let exact = exact_areas_on_sheet(at(4, 1, 0, 0), &HALVES, &[3], 0).remove(0);
    let miss = exact.miss(roots(&Spec, &HALVES)[0], 0);
    assert!(!miss.within(0, 3) && miss.within_on_sheet(0, 3));
    // The sheet's bound for three edges is 1 1/2, and for four 2.
    assert!(exact.miss(5, 0).within_on_sheet(0, 4) && !exact.miss(5, 0).within_on_sheet(0, 3));
}

/// Variants of drawing, and those that ask another side of every call, show on
/// random tiles; the others of refusing do not, for these are accepted. None of
/// them panics.
#[test]
fn random_tiles_tell_the_variants_of_drawing() {
    let seen = [
        "the signed area as the root on a sheet",
        "edges off the tile left out of the root",
        "x past the tile's right side not held in the root",
        "the root on a sheet rounded once",
        "the place in pixels",
        "column and row exchanged",
        "the place in the root alone",
        "a sheet of 128 refused",
        "a tile of 32 on a sheet refused",
        "question 2 with the sheet's side",
        "question 6 with the tile's side",
    ];
    for (name, rules) in wrong::of_sheet() {
        let mut random = Random(51);
        let mut differ = 0;
        for _ in 0..200 {
            let place = random.sheet_tile();
            let outline = random.outline_of(place.sheet);
            let held = vec![0; (place.side * place.side) as usize];
            let built = |rules: &dyn Rules| {
                build_on_sheet(rules, place, &outline.points, &outline.counts, Placement::None, &held)
            };
            assert!(built(&Spec).is_ok());
            differ += usize::from(built(&*rules) != built(&Spec));
        }
        assert_eq!(differ > 0, seen.contains(&name), "{name}: {differ} tiles of 200");
    }
}

/// A random call on a sheet, most of them with one fault or with none.
fn random_call(random: &mut Random) -> Call {
    let correction = [PutIn, TakeOut][random.below(2) as usize];
    let place = random.sheet_tile();
    let SheetTile { sheet, side, .. } = place;
    let points: Vec<i64> = (0..8).map(|_| random.below(256 * i64::from(sheet) + 1)).collect();
    let table: Vec<i64> = (0..side * side).map(|_| random.below(1 << 20)).collect();
    let mut call = Call::on_sheet(correction, place, &points, 500, &table);
    for _ in 0..random.below(3) {
        let near = random.below(5) as usize;
        let on = call.place.as_mut().unwrap();
        let number = [sheet / side, u32::MAX, 1 << 31, 1 << 27, 0][near];
        match random.below(8) {
            0 => on.sheet = [0, 3, 96, 256, 512][near],
            1 => on.side = [0, 3, 12, 64, 128][near],
            2 => on.sheet = on.side / 2,
            3 => on.column = number,
            4 => on.row = number,
            5 => call.table.resize([0, 1, (sheet * sheet) as usize, 16, 4][near], 0),
            6 => call.count = [0, 2, 3, 1024, 1025][near],
            _ => call.points[near] = [-1, 256 * i64::from(sheet) + 1, 256 * i64::from(side) + 1, 0, 1][near],
        }
    }
    call
}

/// Each variant shows on random calls, and none of them panics.
#[test]
fn random_calls_tell_every_variant() {
    for (name, rules) in wrong::of_sheet() {
        let mut random = Random(52);
        let mut differ = 0;
        for _ in 0..2000 {
            let call = random_call(&mut random);
            differ += usize::from(call.outcome(&*rules) != call.outcome(&Spec));
        }
        assert!(differ > 0, "{name}: no call of 2,000");
        println!("{name}: {differ} calls of 2,000");
    }
}

/// The variants of 01, of P1, of P3 and of P4 that reach sheets do not panic there.
#[test]
fn other_variants_are_answered() {
    let lists = [wrong::all(), wrong::of_placement(), wrong::of_correction(), wrong::of_magnitude()];
    for (_, rules) in lists.into_iter().flatten() {
        let mut random = Random(53);
        for _ in 0..200 {
            let _ = random_call(&mut random).outcome(&*rules);
        }
    }
}

/// Calls without a sheet cannot tell these variants.
#[test]
fn calls_without_a_sheet_tell_none() {
    for (name, rules) in wrong::of_sheet() {
        let mut random = Random(54);
        for _ in 0..30 {
            let outline = random.outline();
            let (side, points, held) = (outline.side, &outline.points, outline.noughts());
            let built =
                |rules: &dyn Rules, placement| build_placed(rules, side, points, &outline.counts, placement, &held);
            for placement in [Placement::None, Placement::Scale(0.5), BAD] {
                assert_eq!(built(&*rules, placement), built(&Spec, placement), "{name}");
            }
            let table = built(&Spec, Placement::None).unwrap().1;
            assert_eq!(figures(&*rules, side, 0, &table, 1), figures(&Spec, side, 0, &table, 1), "{name}");
            let put = Call::of(PutIn, side, points, 0, &table);
            assert_eq!(put.outcome(&*rules), put.outcome(&Spec), "{name}");
        }
        for side in [0, 3, 64, 65, 128] {
            let alone = |rules: &dyn Rules| build_placed(rules, side, &[], &[], Placement::None, &[]);
            assert_eq!(alone(&*rules), alone(&Spec), "{name}");
        }
    }
}

//! `Tile`: what it refuses, that a refused call leaves it as it was, and that it is drawn as its table is.
use mattuliyan::{Placement, Refusal, SheetTile, Site, Tile};

/// On a tile of 2 pixels, 01's letters A, F and G.
const A: [i64; 8] = [0, 0, 256, 0, 256, 256, 0, 256];
const F: [i64; 6] = [0, 0, 384, 1, 0, 1];
const G: [i64; 6] = [255, 0, 259, 1, 255, 1];

fn number<T>(answer: Result<T, Refusal>) -> Result<T, u8> {
    answer.map_err(Refusal::number)
}

#[test]
fn sides() {
    for side in [1, 2, 4, 8, 16, 32, 64] {
        let tile = Tile::new(side).unwrap();
        assert_eq!((tile.side(), tile.edges(), tile.table()), (side, 0, &vec![0; (side * side) as usize][..]));
    }
    // 65,536 squared is 2^32, of which 32 bits hold nothing; a table for u32::MAX would be larger than any memory
    for side in [0, 3, 5, 63, 65, 100, 128, 256 + 2, 1 << 16, (1 << 16) + 2, 1 << 31, u32::MAX] {
        assert_eq!(number(Tile::new(side)), Err(1), "side {side}");
        assert_eq!(number(Tile::build(side, &[1], &[2], Placement::Scale(f64::NAN))), Err(1), "side {side}");
    }
}

#[test]
fn built_as_the_call_builds() {
    let points = [&F[..], &A].concat();
    let placement = Placement::Shift(3.0, 5.0);
    let tile = Tile::build(2, &points, &[3, 4], placement).unwrap();
    let mut table = [7; 4];
    assert_eq!(mattuliyan::build_placed(2, &points, &[3, 4], placement, &mut table), Ok(tile.edges()));
    assert_eq!((tile.side(), tile.edges(), tile.table()), (2, 7, &table[..]));
    for (points, counts, placement, expected) in [
        (&points[..], &[3, 2][..], Placement::None, 4),
        (&points, &[3, 1024], Placement::None, 5),
        (&points[1..], &[3, 4], Placement::None, 3),
        (&points, &[3, 4], Placement::Scale(3.0), 12),
        (&points, &[3, 4], Placement::Shift(0.0, -1.0), 6),
    ] {
        assert_eq!(number(Tile::build(2, points, counts, placement)), Err(expected));
    }
}

#[test]
fn corrected_letters() {
    let mut tile = Tile::new(2).unwrap();
    tile.put(&F, Placement::None).unwrap();
    assert_eq!((tile.edges(), tile.table()), (3, &[384, 299, 384, 299][..]));
    // G from points that are off the tile
    tile.put(&[0, 7, 4, 8, 0, 8], Placement::Shift(254.5, -7.5)).unwrap();
    assert_eq!((tile.edges(), tile.table()), (6, &[388, 299, 388, 299][..]));
    tile.put(&A, Placement::Scale(1.0)).unwrap();
    assert_eq!(tile.edges(), 10);

    tile.take(&A, Placement::None).unwrap();
    tile.take(&G, Placement::None).unwrap();
    assert_eq!(tile, Tile::build(2, &F, &[3], Placement::None).unwrap());
    tile.take(&F, Placement::Turn([1.0, 0.0, 0.0, 0.0, 1.0, 0.0])).unwrap();
    assert_eq!(tile, Tile::new(2).unwrap());

    // a contour that is not in: nothing tells, and it may be put in later
    tile.put(&F, Placement::None).unwrap();
    tile.take(&G, Placement::None).unwrap();
    assert_eq!((tile.edges(), tile.table()), (0, &[380, 299, 380, 299][..]));
    tile.put(&G, Placement::None).unwrap();
    assert_eq!(tile, Tile::build(2, &F, &[3], Placement::None).unwrap());

    // the reverse of the one that is in: its ink is there twice
    tile.take(&[0, 1, 384, 1, 0, 0], Placement::None).unwrap();
    assert_eq!((tile.edges(), tile.table()), (0, &[768, 598, 768, 598][..]));
}

#[test]
fn refused_calls_change_nothing() {
    let far = Placement::Shift(0.0, -1.0);
    let endless = Placement::Scale(f64::INFINITY);
    let tile = Tile::build(2, &[F, F].concat(), &[3, 3], Placement::None).unwrap();
    for (points, placement, put, taken) in [
        // whole points, and a coordinate more
        (&[][..], Placement::None, Err(4), Err(4)),
        (&[0], Placement::None, Err(4), Err(4)),
        (&[0; 4], Placement::None, Err(4), Err(4)),
        (&[0; 5], Placement::None, Err(4), Err(4)),
        (&[0; 6], Placement::None, Ok(9), Ok(3)),
        (&[0; 7], Placement::None, Err(3), Err(3)),
        (&[0; 7], endless, Err(3), Err(3)),
        (&[0; 2 * 1018], Placement::None, Ok(1024), Err(13)),
        (&[0; 2 * 1018 + 1], Placement::None, Err(3), Err(3)),
        (&[0; 2 * 1019], Placement::None, Err(5), Err(13)),
        (&[0; 2 * 1024 + 1], Placement::None, Err(5), Err(3)),
        (&[0; 2 * 1025], Placement::None, Err(4), Err(4)),
        (&A, endless, Err(12), Err(12)),
        (&A, far, Err(6), Err(6)),
        (&[0; 12], Placement::None, Ok(12), Ok(0)),
        (&[0; 14], Placement::None, Ok(13), Err(13)),
    ] {
        for (call, expected) in [(Tile::put as fn(&mut Tile, &[i64], Placement) -> _, put), (Tile::take, taken)] {
            let mut corrected = tile.clone();
            let answer = call(&mut corrected, points, placement);
            let expected_edges = expected.unwrap_or(tile.edges());
            assert_eq!(number(answer.map(|()| corrected.edges())), expected, "{} numbers", points.len());
            // points that are all one have no values, so the table is the same in any case
            assert_eq!((corrected.edges(), corrected.table()), (expected_edges, tile.table()));
        }
    }
}

#[test]
fn tables_stay_in_range() {
    // The border 256 times round is 2^37 units. It is put in again and again, each time with as many edges that have no values taken out, or the
    // other way round, so that there is always room in the record.
    let round = [0, 0, 16384, 0, 16384, 16384, 0, 16384].repeat(256);
    let nothing = [0; 2 * 1024];
    for (put, taken, end) in [(&round[..], &nothing[..], 1 << 40), (&nothing, &round, -1 << 40)] {
        let mut tile = Tile::new(64).unwrap();
        for _ in 0..8 {
            tile.put(put, Placement::None).unwrap();
            tile.take(taken, Placement::None).unwrap();
        }
        let full = tile.clone();
        assert_eq!((tile.edges(), tile.table()[0]), (0, end));
        let answer = tile.put(put, Placement::None);
        if answer.is_ok() {
            assert_eq!(number(tile.take(taken, Placement::None)), Err(9));
            tile.take(put, Placement::None).unwrap();
        } else {
            assert_eq!(number(answer), Err(9));
        }
        assert_eq!(tile, full);
        // and it is still drawn
        assert_eq!(number(tile.cell(0, 0, 0)), Ok(end));
        assert_eq!(number(tile.greys(6)), Ok(vec![255; 4096]));
    }
}

#[test]
fn drawn_as_the_table_is() {
    for side in [1, 2, 16, 64] {
        let edge = 256 * i64::from(side);
        let tile = Tile::build(side, &[0, 0, edge, 7, edge - 9, edge], &[3], Placement::None).unwrap();
        let depth = side.trailing_zeros();
        for level in 0..=depth {
            let places = 1 << (2 * level);
            let (mut figures, mut greys) = (vec![1; places], vec![1; places]);
            mattuliyan::figures(side, level, tile.table(), &mut figures).unwrap();
            mattuliyan::greys(side, level, tile.table(), &mut greys).unwrap();
            let last = (1 << level) - 1;
            assert_eq!(tile.cell(level, last, 0).unwrap(), figures[last as usize]);
            assert_eq!(tile.cell(level, 0, last).unwrap(), figures[places - 1 - last as usize]);
            assert_eq!(number(tile.cell(level, last + 1, 0)), Err(10));
            assert_eq!(tile.figures(level).unwrap(), figures);
            assert_eq!(tile.greys(level).unwrap(), greys);
        }
        // 4^level places are not made for these: of the last there would be more than any memory has
        for level in [depth + 1, 7, 16, 31, 32, 33, 64, u32::MAX] {
            assert_eq!(number(tile.figures(level)), Err(7), "side {side}, level {level}");
            assert_eq!(number(tile.greys(level)), Err(7), "side {side}, level {level}");
            assert_eq!(number(tile.cell(level, 0, 0)), Err(7), "side {side}, level {level}");
        }
    }
}

fn at(sheet: u32, side: u32, column: u32, row: u32) -> SheetTile {
    SheetTile { sheet, side, column, row }
}

#[test]
fn tiles_of_sheets() {
    for sheet in [1u32, 2, 4, 8, 16, 32, 64, 128] {
        for side in [1, 2, 4, 8, 16, 32] {
            let last = (sheet / side).saturating_sub(1);
            let place = at(sheet, side, 0, last);
            let made = number(Tile::on_sheet(place));
            if side > sheet {
                assert_eq!(made, Err(14), "{place:?}");
                continue;
            }
            let tile = made.unwrap();
            assert_eq!((tile.side(), tile.place(), tile.edges()), (side, Some(place), 0));
            assert_eq!(tile.table(), vec![0; (side * side) as usize]);
            for off in [last + 1, sheet, 1 << 27, 1 << 31, u32::MAX] {
                for place in [at(sheet, side, off, 0), at(sheet, side, 0, off), at(sheet, side, off, off)] {
                    assert_eq!(number(Tile::on_sheet(place)), Err(15), "{place:?}");
                    assert_eq!(number(Tile::build_on_sheet(place, &[1], &[2], Placement::Scale(f64::NAN))), Err(15));
                }
            }
        }
    }
    // no table is made for a side that is too great
    for (sheet, side) in
        [(0, 0), (3, 1), (4, 3), (96, 32), (64, 64), (128, 64), (256, 1), (128, 1 << 16), (u32::MAX, u32::MAX)]
    {
        assert_eq!(number(Tile::on_sheet(at(sheet, side, 0, 0))), Err(14), "a tile of {side} on a sheet of {sheet}");
        assert_eq!(number(Tile::on_sheet(at(sheet, side, u32::MAX, u32::MAX))), Err(14));
    }
}

#[test]
fn corrected_on_a_sheet() {
    // a bar across a sheet of 4, of which each tile of 2 has a half or nothing
    let bar = [0, 128, 1024, 128, 1024, 384, 0, 384];
    let upper = [128, 128, 128, 128];
    for (column, row, greys) in [(0, 0, upper), (1, 0, upper), (0, 1, [0; 4]), (1, 1, [0; 4])] {
        let place = at(4, 2, column, row);
        let mut tile = Tile::on_sheet(place).unwrap();
        tile.put(&bar, Placement::None).unwrap();
        assert_eq!((tile.edges(), tile.greys(1).unwrap()), (4, greys.to_vec()));
        let mut table = [7; 4];
        assert_eq!(mattuliyan::build_on_sheet(place, &bar, &[4], Placement::None, &mut table), Ok(4));
        assert_eq!(tile.table(), table);
        assert_eq!(tile, Tile::build_on_sheet(place, &bar, &[4], Placement::None).unwrap());

        // F over two tiles, in under one placement and out under another
        let f = [0, 0, 768, 1, 0, 1];
        tile.put(&f.map(|c| c - 5), Placement::Shift(5.0, 5.0)).unwrap();
        assert_eq!(tile.edges(), 7);
        assert_eq!(tile, Tile::build_on_sheet(place, &[&f[..], &bar].concat(), &[3, 4], Placement::None).unwrap());
        tile.take(&f, Placement::Scale(1.0)).unwrap();
        tile.take(&bar, Placement::None).unwrap();
        assert_eq!(tile, Tile::on_sheet(place).unwrap());
    }

    // on the sheet, and off a tile alone
    let mut alone = Tile::new(2).unwrap();
    assert_eq!(number(alone.put(&bar, Placement::None)), Err(6));
    // the same side, edges and table, but contours that lie elsewhere
    assert_ne!(Tile::on_sheet(at(2, 2, 0, 0)).unwrap(), alone);
    assert_ne!(Tile::on_sheet(at(4, 2, 0, 0)).unwrap(), Tile::on_sheet(at(4, 2, 0, 1)).unwrap());
    assert_eq!(Tile::on_sheet(at(4, 2, 0, 0)).unwrap().table(), alone.table());
    assert_eq!(alone.place(), None);
}

#[test]
fn refused_on_a_sheet() {
    let tile = Tile::build_on_sheet(at(4, 2, 1, 1), &[F, F].concat(), &[3, 3], Placement::None).unwrap();
    for (points, placement, put, taken) in [
        (&[0; 4][..], Placement::None, Err(4), Err(4)),
        (&[0; 7], Placement::None, Err(3), Err(3)),
        (&[0; 2 * 1018], Placement::None, Ok(1024), Err(13)),
        (&[0; 2 * 1019], Placement::None, Err(5), Err(13)),
        (&A, Placement::Scale(f64::INFINITY), Err(12), Err(12)),
        (&A, Placement::Shift(0.0, 768.0), Ok(10), Ok(2)),
        (&A, Placement::Shift(0.0, 769.0), Err(6), Err(6)),
        (&[0; 14], Placement::None, Ok(13), Err(13)),
    ] {
        for (call, expected) in [(Tile::put as fn(&mut Tile, &[i64], Placement) -> _, put), (Tile::take, taken)] {
            let mut corrected = tile.clone();
            let answer = call(&mut corrected, points, placement);
            assert_eq!(number(answer.map(|()| corrected.edges())), expected, "{} numbers", points.len());
            assert!(expected.is_ok() || corrected == tile);
            assert_eq!(corrected.place(), tile.place());
        }
    }
}

/// A curve from corner to corner of a pixel, of 8 chords, and two straight edges: its points, its chords' ends and the entries that it has on a tile of
/// 2, where all of it is in the first pixel.
const SHELL: [i64; 8] = [0, 0, 256, 0, 256, 256, 0, 256];
const SHELL_MARKS: [u8; 3] = [1, 0, 0];
const SHELL_CHORDS: [i64; 20] =
    [0, 0, 60, 4, 112, 16, 156, 36, 192, 64, 220, 100, 240, 144, 252, 196, 256, 256, 0, 256];
const SHELL_ENTRIES: [i64; 4] = [108_544; 4];

#[test]
fn corrected_curves() {
    for site in [Site::Alone(2), Site::OnSheet(at(2, 2, 0, 0)), Site::OnSheet(at(4, 2, 0, 0))] {
        let empty = Tile::build_curves(site, &[], &[], &[], Placement::None).unwrap();
        let place = match site {
            Site::Alone(_) => None,
            Site::OnSheet(place) => Some(place),
        };
        assert_eq!((empty.side(), empty.place(), empty.edges(), empty.table()), (2, place, 0, &[0; 4][..]));
        let mut tile = empty.clone();
        tile.put_curves(&SHELL, &SHELL_MARKS, Placement::None).unwrap();
        assert_eq!((tile.edges(), tile.table()), (10, &SHELL_ENTRIES[..]));
        assert_eq!(tile, Tile::build_curves(site, &SHELL, &[3], &SHELL_MARKS, Placement::None).unwrap());
        let mut table = [7; 4];
        assert_eq!(mattuliyan::build_curves(site, &SHELL, &[3], &SHELL_MARKS, Placement::None, &mut table), Ok(10));
        assert_eq!(tile.table(), table);

        // with a straight letter in between, and out as the contour of its chords
        tile.put(&F, Placement::None).unwrap();
        let points = [&F[..], &SHELL].concat();
        assert_eq!(tile, Tile::build_curves(site, &points, &[3, 3], &[0, 0, 0, 1, 0, 0], Placement::None).unwrap());
        tile.take(&SHELL_CHORDS, Placement::None).unwrap();
        assert_eq!(tile, Tile::build_curves(site, &F, &[3], &[0; 3], Placement::None).unwrap());
        tile.take_curves(&F, &[0; 3], Placement::None).unwrap();
        assert_eq!(tile, empty);

        // under one placement and another
        tile.put_curves(&SHELL.map(|c| c - 9), &SHELL_MARKS, Placement::Shift(8.5, 8.5)).unwrap();
        tile.take_curves(&SHELL.map(|c| 2 * c), &SHELL_MARKS, Placement::Scale(0.5)).unwrap();
        assert_eq!(tile, empty);
    }
    assert_eq!(Tile::build_curves(Site::Alone(2), &[], &[], &[], Placement::None), Tile::new(2));
}

#[test]
fn refused_curves() {
    let tile = Tile::build_curves(Site::Alone(2), &SHELL, &[3], &SHELL_MARKS, Placement::None).unwrap();
    let far = Placement::Shift(0.0, 257.0);
    // 16 chords, from one corner to the other and back
    let loops = |count: usize| ([0, 0, 512, 512].repeat(count), vec![1; count]);
    let (many, marks) = loops(65);
    for (points, marks, placement, put, taken) in [
        (&[][..], &[][..], Placement::None, Err(4), Err(4)),
        (&SHELL, &SHELL_MARKS[..2], Placement::None, Err(4), Err(4)),
        (&SHELL, &[1; 1025], Placement::None, Err(4), Err(4)),
        (&SHELL, &[2, 0, 0], Placement::Scale(f64::NAN), Err(16), Err(16)),
        (&SHELL, &[0, 0, 255], Placement::None, Err(16), Err(16)),
        (&SHELL, &[0; 3], Placement::None, Err(3), Err(3)),
        (&SHELL, &[1, 1, 0], Placement::None, Err(3), Err(3)),
        (&SHELL[1..], &SHELL_MARKS, Placement::Scale(f64::NAN), Err(3), Err(3)),
        (&SHELL, &SHELL_MARKS, Placement::Scale(f64::INFINITY), Err(12), Err(12)),
        (&SHELL, &SHELL_MARKS, far, Err(6), Err(6)),
        (&many, &marks, far, Err(6), Err(6)),
        (&many, &marks, Placement::None, Err(5), Err(5)),
        (&many[..4 * 64], &marks[..64], Placement::None, Err(5), Err(13)),
        (&many[..4 * 63], &marks[..63], Placement::None, Ok(10 + 63 * 16), Err(13)),
        (&[0; 12], &[1; 3], Placement::None, Ok(13), Ok(7)),
        (&SHELL, &SHELL_MARKS, Placement::None, Ok(20), Ok(0)),
    ] {
        type OfCurves = fn(&mut Tile, &[i64], &[u8], Placement) -> Result<(), Refusal>;
        for (call, expected) in [(Tile::put_curves as OfCurves, put), (Tile::take_curves, taken)] {
            let mut corrected = tile.clone();
            let answer = call(&mut corrected, points, marks, placement);
            let found = number(answer.map(|()| corrected.edges()));
            assert_eq!(found, expected, "{} numbers, {} marks", points.len(), marks.len());
            assert!(expected.is_ok() || corrected == tile);
        }
    }
    // 13 for one chord more than are in, though the edges as marked are fewer
    let mut tile = Tile::build(2, &[0; 18], &[9], Placement::None).unwrap();
    assert_eq!(number(tile.take_curves(&SHELL, &SHELL_MARKS, Placement::None)), Err(13));

    for side in [0, 3, 65, 128, 1 << 16, u32::MAX] {
        assert_eq!(number(Tile::build_curves(Site::Alone(side), &[1], &[2], &[9], Placement::Scale(f64::NAN))), Err(1));
    }
    for (place, expected) in [
        (at(4, 3, 0, 0), 14),
        (at(128, 64, 0, 0), 14),
        (at(u32::MAX, u32::MAX, 0, 0), 14),
        (at(4, 2, 2, 0), 15),
        (at(4, 2, 0, u32::MAX), 15),
    ] {
        let built = Tile::build_curves(Site::OnSheet(place), &[1], &[2], &[9], Placement::Scale(f64::NAN));
        assert_eq!(number(built), Err(expected), "{place:?}");
    }
}

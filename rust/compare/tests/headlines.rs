//! Letters that cross tiles, as a person can look at them: the examples, drawn in one tile and in tiles of a sheet, each beside the exact areas.
use compare::outlines::Outline;
use compare::sheets::{put_together, SIDES_ON_SHEET};
use reference::{exact_areas, exact_areas_on_sheet, Placement, SheetTile};
use std::fs;
use std::path::Path;

/// The frames of a folder of examples, with their names.
fn examples(folder: &str) -> Vec<(String, Outline)> {
    let folder = Path::new(env!("CARGO_MANIFEST_DIR")).join("../../examples").join(folder);
    let mut names: Vec<_> = fs::read_dir(folder).unwrap().map(|entry| entry.unwrap().path()).collect();
    names.sort();
    let read = |path: &Path| {
        let reference::Frame { side, points, counts, .. } = reference::frame(&fs::read(path).unwrap()).unwrap();
        (path.file_stem().unwrap().to_string_lossy().into_owned(), Outline { side, points, counts })
    };
    names.iter().map(|path| read(path)).collect()
}

/// The greys of the exact areas of a sheet's tiles, at a level of the sheet, put together.
fn exact_greys(outline: &Outline, side: u32, level: u32) -> Vec<u8> {
    let tiles = outline.side / side;
    let level = level - tiles.trailing_zeros();
    let (cells, across) = (1 << level, (tiles << level) as usize);
    let mut greys = vec![0; across * across];
    for place in SheetTile::all(outline.side, side) {
        for (i, area) in exact_areas_on_sheet(place, &outline.points, &outline.counts, level).iter().enumerate() {
            let (x, y) = (place.column as usize * cells + i % cells, place.row as usize * cells + i / cells);
            greys[y * across + x] = area.grey(side, level);
        }
    }
    greys
}

/// Every grey at most so far from the other.
fn near(some: &[u8], others: &[u8], most: u8) -> bool {
    some.len() == others.len() && some.iter().zip(others).all(|(one, other)| one.abs_diff(*other) <= most)
}

#[test]
fn tiles_put_together_are_the_letter_in_one_tile() {
    let (headlines, letters) = (examples("headlines"), examples("letters"));
    assert_eq!((headlines.len(), letters.len()), (3, 16));
    for (name, outline) in headlines.iter().chain(&letters).filter(|(_, outline)| outline.side == 64) {
        let Outline { points, counts, .. } = outline;
        let (mut table, area) = (vec![0; 64 * 64], reference::signed_area(points, counts));
        mattuliyan::build(64, points, counts, &mut table).unwrap();
        for level in 1..=6 {
            let mut alone = vec![0; 1 << (2 * level)];
            mattuliyan::greys(64, level, &table, &mut alone).unwrap();
            let exact: Vec<u8> = exact_areas(64, points, counts, level).iter().map(|a| a.grey(64, level)).collect();
            assert!(near(&alone, &exact, 1), "{name}, level {level}");
            for side in SIDES_ON_SHEET.into_iter().filter(|side| 64 / side <= 1 << level) {
                let sheet = put_together(outline, side, level, Placement::None).unwrap();
                assert_eq!((sheet.edges, sheet.across), (outline.edges(), 1 << level));
                // the exact areas of a cell are one, whatever tile it is in
                assert_eq!(exact_greys(outline, side, level), exact, "{name}, tiles of {side}, level {level}");
                assert!(near(&sheet.greys, &exact, 1), "{name}, tiles of {side}, level {level}");
                assert!(near(&sheet.greys, &alone, 2), "{name}, tiles of {side}, level {level}");
                if outline.is_octilinear() {
                    assert_eq!((sheet.roots, &sheet.greys), (area, &alone), "{name}, tiles of {side}, level {level}");
                }
            }
        }
    }
    // the R has slanted edges, and the Q none
    let octilinear: Vec<bool> = headlines.iter().map(|(_, outline)| outline.is_octilinear()).collect();
    let names: Vec<&str> = headlines.iter().map(|(name, _)| &name[..]).collect();
    assert_eq!((names, octilinear), (vec!["q", "r", "rq"], vec![true, false, false]));
}

#[test]
fn a_headline_wider_than_any_tile() {
    let headlines = examples("headlines");
    let (_, outline) = headlines.iter().find(|(_, outline)| outline.side == 128).unwrap();
    for level in 2..=7 {
        for side in SIDES_ON_SHEET.into_iter().filter(|side| 128 / side <= 1 << level) {
            let sheet = put_together(outline, side, level, Placement::None).unwrap();
            assert!(near(&sheet.greys, &exact_greys(outline, side, level), 1), "tiles of {side}, level {level}");
            let off = (sheet.roots - reference::signed_area(&outline.points, &outline.counts)).abs();
            assert!(2 * off <= i64::from(outline.edges() * (128 / side).pow(2)));
        }
    }
    // no tile has it all, and each of the eight in the middle has some of it
    let inked = |place: SheetTile| {
        let exact = exact_areas_on_sheet(place, &outline.points, &outline.counts, 0);
        exact[0].grey(32, 0) > 0
    };
    let inked: Vec<bool> = SheetTile::all(128, 32).map(inked).collect();
    assert_eq!(inked.iter().filter(|&&inked| inked).count(), 8);
    assert!(inked[4..12].iter().all(|&inked| inked));
    // and it is drawn as placed: at half its size it is on the upper left quarter of the sheet
    let half = put_together(outline, 32, 7, Placement::Scale(0.5)).unwrap();
    let whole = put_together(outline, 32, 6, Placement::None).unwrap();
    for (y, row) in half.greys.chunks(128).enumerate() {
        let expected: Vec<u8> = if y < 64 { whole.greys[64 * y..][..64].to_vec() } else { vec![0; 64] };
        assert!(near(&row[..64], &expected, 2) && row[64..].iter().all(|&grey| grey == 0), "row {y}");
    }
}

//! Tiles of sheets: some thousand cases and series of corrections, always the same ones; and what these meet too seldom.
use compare::calls::{build, build_on_sheet, correct, Correcting, Ground, Tile};
use compare::damage::ENTRY_LIMIT;
use compare::outlines::{Outline, MOST_EDGES};
use compare::sheets::{self, MIDDLE, PAIRS, SIDES_ON_SHEET, TO_THE_RIGHT};
use compare::{demand3, series};
use reference::Correction::{PutIn, TakeOut};
use reference::{Edge, Placement, Rules, SheetTile, Spec, STEPS};

/// Any seed will do; it is fixed so that a failure can be seen again.
const SEED: u64 = 1;
/// Rounds of all pairs of a sheet's and a tile's side: as many as take some seconds each.
const CASES: u64 = 80 * PAIRS.len() as u64;
const SERIES: u64 = 60 * PAIRS.len() as u64;

/// The numbers that building, putting in and taking out answer on a sheet, in the order of their questions; 0 is the work done. Where a contour is
/// taken out, question 5 has been answered by question 4.
const BUILDING: &[usize] = &[0, 14, 15, 2, 4, 5, 3, 12, 6];
const NUMBERS: [&[usize]; 2] = [&[0, 14, 15, 2, 4, 5, 3, 12, 6, 9], &[0, 14, 15, 2, 4, 3, 12, 6, 13, 9]];

#[test]
fn library_and_reference_agree_on_sheets() {
    let seen = sheets::run(SEED, 0..CASES)
        .unwrap_or_else(|(number, difference)| panic!("seed {SEED}, case {number} on a sheet: {difference}"));
    println!("sheets: {seen}");
    println!("sheets: edges about tiles, row by row: {:?}", seen.edges_at);
    // The run did what it says: every pair of sides was drawn whole, edges lie on all eight sides of tiles, every number was answered many times,
    // and no other.
    let whole = |(sheet, side): (u32, u32)| seen.whole[sheet.trailing_zeros() as usize][side.trailing_zeros() as usize];
    assert!(PAIRS.iter().all(|&pair| whole(pair) >= 10), "drawn whole: {:?}", seen.whole);
    assert!(seen.edges_at.iter().all(|&edges| edges > 10_000), "edges about tiles: {:?}", seen.edges_at);
    assert!(seen.past_a_corner > 10_000 && seen.edges_at[TO_THE_RIGHT] > 10_000 && seen.edges_at[MIDDLE] > 10_000);
    assert!(seen.octilinear_whole > 100 && seen.sums_off > 20, "{} and {}", seen.octilinear_whole, seen.sums_off);
    assert!(seen.rounded_roots > 5_000, "{} roots are rounded", seen.rounded_roots);
    let drawn = &seen.drawn;
    assert_eq!((drawn.outlines, drawn.placed.iter().sum()), (CASES, CASES));
    assert!(drawn.placed.iter().all(|&outlines| outlines > CASES / 10), "placed: {:?}", drawn.placed);
    assert!(BUILDING.iter().all(|&number| drawn.answered[number] > 500), "answered: {:?}", drawn.answered);
    assert_eq!(BUILDING.iter().map(|&number| drawn.answered[number]).sum::<u64>(), drawn.calls);
}

#[test]
fn library_and_reference_agree_in_series_on_sheets() {
    let seen = series::run_on_sheets(SEED, 0..SERIES)
        .unwrap_or_else(|(number, difference)| panic!("seed {SEED}, series {number} on a sheet: {difference}"));
    println!("series on sheets: {seen}");
    assert_eq!(seen.series.iter().sum::<u64>(), SERIES);
    for (what, numbers, answered) in
        [("putting in", NUMBERS[0], seen.answered[0]), ("taking out", NUMBERS[1], seen.answered[1])]
    {
        assert!(numbers.iter().all(|&number| answered[number] > 100), "{what}: {answered:?}");
        assert_eq!(numbers.iter().map(|&number| answered[number]).sum::<u64>(), answered.iter().sum(), "{what}");
    }
    let [put, taken] = seen.corrected;
    assert!(put > 5 * SERIES && taken > 5 * SERIES, "corrected: {:?}", seen.corrected);
    assert!(seen.under_another > taken * 9 / 10, "{} of {taken} under another placement", seen.under_another);
    assert!(seen.would_leave.iter().all(|&calls| calls > 100), "9 by the table left: {:?}", seen.would_leave);
    assert!(seen.near > SERIES / 10 && seen.emptied > SERIES / 5 && seen.full > 20 && seen.longest > 20);
}

fn at(sheet: u32, side: u32, column: u32, row: u32) -> SheetTile {
    SheetTile { sheet, side, column, row }
}

/// A table that held something, for a tile at this place.
fn held(place: SheetTile) -> Vec<i64> {
    vec![5; (place.side * place.side) as usize]
}

/// Building an outline of one contour that is not moved: the table, or the number that is answered.
fn table(place: SheetTile, points: &[i64]) -> Result<Vec<i64>, u8> {
    let count = points.len() as u32 / 2;
    let built = build_on_sheet(&Spec, place, points, &[count], Placement::None, &held(place)).unwrap();
    built.map(|(edges, table)| {
        assert_eq!(edges, count);
        table
    })
}

/// The answers of building, putting in and taking out a triangle.
fn answers(place: SheetTile) -> [Result<(), u8>; 3] {
    let triangle = [0, 0, 1, 0, 0, 1];
    let table = if place.side <= 64 { held(place) } else { vec![] };
    let corrected = |correction| {
        let tile = Tile { record: 3, table: table.clone() };
        let (ground, points, marks) = (Ground::Sheet(place), triangle.to_vec(), None);
        let call = Correcting { correction, ground, points, marks, count: 3, placement: Placement::None, tile };
        correct(&Spec, &call).unwrap().map(|_| ())
    };
    let built = build_on_sheet(&Spec, place, &triangle, &[3], Placement::None, &table).unwrap().map(|_| ());
    [built, corrected(PutIn), corrected(TakeOut)]
}

#[test]
fn sides_of_every_kind() {
    let numbers = (0..=40).chain([63, 64, 65, 96, 127, 128, 129, 255, 256, 257, 1 << 16, (1 << 16) + 32]);
    let numbers: Vec<u32> = numbers.chain([1 << 31, (1 << 31) + 64, u32::MAX - 127, u32::MAX]).collect();
    for &sheet in &numbers {
        for &side in &numbers {
            let expected = if PAIRS.contains(&(sheet, side)) { Ok(()) } else { Err(14) };
            assert_eq!(answers(at(sheet, side, 0, 0)), [expected; 3], "a tile of {side} on a sheet of {sheet}");
            // a place that is off every sheet is asked for after the sides
            let off = answers(at(sheet, side, u32::MAX, u32::MAX));
            assert_eq!(off, [expected.and(Err(15)); 3], "a tile of {side} on a sheet of {sheet}");
        }
    }
}

#[test]
fn places_at_every_end() {
    for (sheet, side) in PAIRS {
        let across = sheet / side;
        let beyond = [across, across + 1, sheet, 2 * across, 1 << 8, 1 << 16, 1 << 31, u32::MAX - 1, u32::MAX];
        // times the side, these are 0 or more in 32 bits, and less than the sheet's side
        let round = (1..=5).flat_map(|bits| [0, 1].map(|more| (1 << (32 - bits)) + more));
        for off in beyond.into_iter().chain(round).filter(|&off| off >= across) {
            for on in [0, across - 1] {
                for (column, row) in [(off, on), (on, off), (off, off)] {
                    let place = at(sheet, side, column, row);
                    assert_eq!(answers(place), [Err(15); 3], "{place:?}");
                }
            }
        }
        for (column, row) in [(0, 0), (across - 1, 0), (0, across - 1), (across - 1, across - 1)] {
            assert_eq!(answers(at(sheet, side, column, row)), [Ok(()); 3]);
        }
    }
}

#[test]
fn coordinates_reach_to_the_sheets_end() {
    for (sheet, side) in PAIRS {
        let end = STEPS * i64::from(sheet);
        for place in [at(sheet, side, 0, 0), at(sheet, side, sheet / side - 1, 0)] {
            for i in 0..6 {
                for (coordinate, accepted) in [(-1, false), (0, true), (end, true), (end + 1, false)] {
                    let mut points = [0; 6];
                    points[i] = coordinate;
                    assert_eq!(table(place, &points).is_ok(), accepted, "{place:?}, {coordinate}");
                    assert!(accepted || table(place, &points) == Err(6));
                }
            }
        }
    }
}

/// Building with each of these faults and no other: 01's letter E in the second of four tiles.
fn faulty(faults: &[u8]) -> Result<(), u8> {
    let mut place = at(4, 2, 1, 0);
    let (mut points, mut counts, mut held) = (vec![512, 0, 1024, 0, 512, 512], vec![3], vec![7; 4]);
    let mut placement = Placement::Scale(1.0);
    for fault in faults {
        match fault {
            14 => place.sheet = 5,
            15 => place.row = u32::MAX,
            2 => held.push(7),
            4 => counts[0] = 2,
            5 => counts.push(1024),
            3 => points.push(0),
            12 => placement = Placement::Scale(f64::NAN),
            _ => points[3] = -1,
        }
    }
    build_on_sheet(&Spec, place, &points, &counts, placement, &held).unwrap().map(|_| ())
}

#[test]
fn every_fault_with_every_other() {
    let order = [14, 15, 2, 4, 5, 3, 12, 6];
    for chosen in 0..1u32 << order.len() {
        let faults: Vec<u8> =
            order.iter().enumerate().filter(|&(i, _)| chosen >> i & 1 == 1).map(|(_, &fault)| fault).collect();
        let expected = faults.first().map_or(Ok(()), |&fault| Err(fault));
        assert_eq!(faulty(&faults), expected, "{faults:?}");
    }
}

#[test]
fn largest_values() {
    // The largest sheet's border 256 times round is 2^27 × 256 in each tile, either way. Half the sheet, as often: the longest edge there is, at 45
    // degrees, with all or half of a tile under it.
    let end = 128 * STEPS;
    let round = [0, 0, end, 0, end, end, 0, end].repeat(256);
    let half = [0, 0, end, 0, 0, end].repeat(341);
    for place in SheetTile::all(128, 32) {
        let root = |points: &[i64]| table(place, points).unwrap()[0];
        assert_eq!(root(&round), 1 << 35);
        let back: Vec<i64> = round.chunks(2).rev().flatten().copied().collect();
        assert_eq!(root(&back), -1 << 35);
        let share = [2, 2, 2, 1, 0, 0, 0][(place.column + place.row) as usize];
        assert_eq!(root(&half), (341 * share) << 26);
    }
    // A tile of a sheet holds what a tile alone does, from one end of the range to the other: 2^40 is 2^35 32 times.
    let place = at(128, 32, 2, 1);
    let mut table = held(place);
    table[0] = ENTRY_LIMIT - (1 << 35);
    let tile = Tile { record: 0, table };
    let ground = Ground::Sheet(place);
    let call = |correction, tile: &Tile| Correcting {
        correction,
        ground,
        points: round.clone(),
        marks: None,
        count: MOST_EDGES,
        placement: Placement::None,
        tile: tile.clone(),
    };
    let full = correct(&Spec, &call(PutIn, &tile)).unwrap().unwrap();
    assert_eq!((full.record, full.table[0]), (MOST_EDGES, ENTRY_LIMIT));
    assert_eq!(correct(&Spec, &call(TakeOut, &full)).unwrap(), Ok(tile.clone()));
    let past = Tile { table: full.table.clone(), ..tile };
    assert_eq!(correct(&Spec, &call(PutIn, &past)).unwrap(), Err(9));
}

/// Edges on a sheet of 128 whose part of the second tile of 32 in its second row is as near to a half as its denominator allows, or nearly, above it
/// or below: a quotient in floating point goes to the wrong side.
const NEXT_TO_A_HALF: [[i64; 4]; 10] = [
    [26138, 22567, 8567, 1431],
    [10952, 17645, 20214, 3064],
    [24844, 7208, 2792, 26858],
    [64, 29801, 24488, 6740],
    [18005, 12235, 9029, 29810],
    [20831, 31627, 13390, 5499],
    [18943, 3719, 10415, 28348],
    [2612, 855, 18607, 14378],
    [21795, 13492, 547, 4969],
    [9431, 16506, 26119, 1901],
];

#[test]
fn roots_next_to_a_half() {
    let place = at(128, 32, 1, 1);
    for [x0, y0, x1, y1] in NEXT_TO_A_HALF {
        let area = Edge { x0, y0, x1, y1 }.area(Spec.square(place));
        let twice_off = (2 * area.num.rem_euclid(area.den) - area.den).abs();
        assert!(0 < twice_off && twice_off * 100_000_000 < 2 * area.den, "{area:?} is not next to a half");
        for points in [[x0, y0, x1, y1, x1, y0], [x1, y1, x0, y0, x1, y0], [x0, y0, x1, y1, 0, 0]] {
            assert!(table(place, &points).is_ok());
        }
    }
}

#[test]
fn roots_at_a_half() {
    // Two slanted edges that cross the border of two tiles: each has half a unit more than a whole number in the first, and half a unit in the second.
    // Halves go away from zero, so that there is a unit too much in each tile.
    for side in SIDES_ON_SHEET {
        let border = STEPS * i64::from(side);
        let halves = [border - 1, 0, border + 1, 1, border - 1, 2];
        let back = [border - 1, 2, border + 1, 1, border - 1, 0];
        for (points, roots) in [(halves, [4, 2]), (back, [-4, -2])] {
            let found = [0, 1].map(|column| table(at(2 * side, side, column, 0), &points).unwrap()[0]);
            assert_eq!(found, roots, "side {side}");
        }
    }
}

/// Outlines of which a figure misses the exact area by nearly its bound, found by search, at this level of the upper left tile, with that miss as a
/// share of the bound, in ten thousandths.
const NEAR_THE_BOUND: [(u32, u32, u32, &[i64], u32); 4] = [
    (2, 1, 0, &[341, 2, 171, 79, 0, 421], 9994),
    (4, 2, 1, &[511, 508, 533, 649, 444, 427, 948, 722], 9846),
    (64, 32, 0, &[0, 16367, 16070, 0, 3624, 62], 9760),
    (64, 32, 5, &[8139, 8083, 8182, 8200, 8214, 7879], 9690),
];

#[test]
fn misses_near_the_bound() {
    for (sheet, side, level, points, share) in NEAR_THE_BOUND {
        let place = at(sheet, side, 0, 0);
        let table = table(place, points).unwrap();
        let (mut figures, mut greys) = (vec![0; 1 << (2 * level)], vec![0; 1 << (2 * level)]);
        mattuliyan::figures(side, level, &table, &mut figures).unwrap();
        mattuliyan::greys(side, level, &table, &mut greys).unwrap();
        let outline = Outline { side: sheet, points: points.to_vec(), counts: vec![points.len() as u32 / 2] };
        let near =
            |figures: &[i64]| demand3::near_on(&Spec, Ground::Sheet(place), &outline, level, table[0], figures, &greys);
        let worst = near(&figures).unwrap().worst.unwrap();
        assert_eq!((worst.ratio * 10_000.0).round() as u32, share, "{worst}");
        // it is past the bound of a tile alone, (4^level − 1) × edges / 2, but at the level where the two are nearly the same
        let exact = reference::exact_areas_on_sheet(place, points, &outline.counts, level);
        let mut misses = exact.iter().zip(&figures).map(|(area, &figure)| area.miss(figure, level));
        assert_eq!(misses.all(|miss| miss.within(level, outline.edges())), level == 5);
        // a figure that is a little further off is caught
        figures[(worst.cy << level) + worst.cx] += 4i64.pow(level) * i64::from(outline.edges());
        assert!(near(&figures).is_err());
    }
}

#[test]
fn a_sheet_of_one_tile() {
    // each edge has another part of the root than it has of the signed area, and together they are the same
    for side in SIDES_ON_SHEET {
        let end = STEPS * i64::from(side);
        for points in [[0, 0, end, 1, 3, end], [1, 2, end - 1, end, 0, end / 2], [end, end, 0, end - 1, end - 5, 0]] {
            let alone = build(&Spec, side, &points, &[3], &vec![5; (side * side) as usize]).unwrap().unwrap().1;
            assert_eq!(table(at(side, side, 0, 0), &points), Ok(alone));
        }
    }
}

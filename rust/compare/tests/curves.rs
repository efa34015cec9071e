//! Outlines with curved edges: some hundred cases and series of corrections, always the same ones; what these meet too seldom; and the letters of the
//! fonts that are installed.
use compare::calls::{build_curves, correct, correct_owned, Correcting, Ground, Tile};
use compare::curves::{self, Curved, Piece, GROUNDS};
use compare::damage::ENTRY_LIMIT;
use compare::outlines::{MOST_EDGES, SIDES};
use compare::random::Random;
use compare::truetype::{installed, Font};
use compare::{grouped, series, sheets};
use reference::Correction::{PutIn, TakeOut};
use reference::{Correction, Curves, Placement, SheetTile, Spec, STEPS};

/// Any seed will do; it is fixed so that a failure can be seen again.
const SEED: u64 = 1;
/// Rounds of all grounds, the sides of tiles alone and the pairs of a sheet's and a tile's side: as many as take some seconds each.
const CASES: u64 = 20 * GROUNDS;
const SERIES: u64 = 20 * GROUNDS;

/// The numbers that building, putting in and taking out answer, in the order of their questions; 0 is the work done. Some of these calls are on tiles
/// alone and some on tiles of sheets, and some of the corrections without marks.
const BUILDING: &[usize] = &[0, 1, 14, 15, 2, 4, 16, 3, 12, 6, 5];
const NUMBERS: [&[usize]; 2] =
    [&[0, 1, 14, 15, 2, 4, 16, 3, 12, 6, 5, 9], &[0, 1, 14, 15, 2, 4, 16, 3, 12, 6, 5, 13, 9]];

#[test]
fn library_and_reference_agree_on_curves() {
    let seen = curves::run(SEED, 0..CASES)
        .unwrap_or_else(|(number, difference)| panic!("seed {SEED}, case {number} of curves: {difference}"));
    println!("curves: {seen}");
    let drawn = &seen.drawn;
    let times: Vec<String> = BUILDING.iter().map(|&number| format!("{number}: {}", drawn.answered[number])).collect();
    println!("curves: answers to building, and to drawing, which is never refused: {}", times.join(", "));
    // The run did what it says: every side and every pair of sides came, every k with second differences at its limit and one past it, halves that go
    // to even steps and to odd ones, every number was answered many times, and no other.
    assert_eq!(seen.grounds, vec![CASES / GROUNDS; GROUNDS as usize]);
    assert_eq!((drawn.outlines, drawn.placed.iter().sum()), (CASES, CASES));
    assert_eq!((seen.as_chords + seen.placed_crowded, seen.straight), (2 * CASES, CASES));
    assert!(seen.curves.iter().all(|&curves| curves > 200), "curves by k: {:?}", seen.curves);
    assert!(seen.at_the_limit.iter().all(|&curves| curves > 20), "at the limit: {:?}", seen.at_the_limit);
    assert!(seen.past_the_limit[1..].iter().all(|&curves| curves > 20), "past it: {:?}", seen.past_the_limit);
    assert!(seen.marked.iter().all(|&edges| edges > 4 * CASES), "marked: {:?}", seen.marked);
    assert!(seen.closing > CASES / 2 && seen.on_the_border > CASES / 2 && seen.full > 20);
    assert!(seen.halves.iter().all(|&ends| ends > 1_000), "halves: {:?}", seen.halves);
    assert!(seen.rounded.iter().all(|&ends| ends > 10_000), "rounded: {:?}", seen.rounded);
    assert!(drawn.placed.iter().all(|&outlines| outlines > CASES / 16), "placed: {:?}", drawn.placed);
    assert!(drawn.empty > CASES / 64 && drawn.inked_below_zero > drawn.cells / 20);
    assert!(BUILDING.iter().all(|&number| drawn.answered[number] > 50), "answered: {:?}", drawn.answered);
    assert_eq!(BUILDING.iter().map(|&number| drawn.answered[number]).sum::<u64>(), drawn.calls);
}

#[test]
fn library_and_reference_agree_in_series_with_curves() {
    let seen = series::run_with_curves(SEED, 0..SERIES)
        .unwrap_or_else(|(number, difference)| panic!("seed {SEED}, series {number} with curves: {difference}"));
    println!("series with curves: {seen}; {:?} of these contours with marks", seen.marked);
    assert_eq!(seen.series.iter().sum::<u64>(), SERIES);
    for (what, numbers, answered) in
        [("putting in", NUMBERS[0], seen.answered[0]), ("taking out", NUMBERS[1], seen.answered[1])]
    {
        let times: Vec<String> = numbers.iter().map(|&number| format!("{number}: {}", answered[number])).collect();
        println!("series with curves: answers to {what}: {}", times.join(", "));
        assert!(numbers.iter().all(|&number| answered[number] > 20), "{what}: {answered:?}");
        assert_eq!(numbers.iter().map(|&number| answered[number]).sum::<u64>(), answered.iter().sum(), "{what}");
    }
    let [put, taken] = seen.corrected;
    assert!(put > 3 * SERIES && taken > 3 * SERIES, "corrected: {:?}", seen.corrected);
    let [marked_in, marked_out] = seen.marked;
    assert!(marked_in > put / 3 && put - marked_in > put / 3, "{marked_in} of {put} with marks");
    assert!(marked_out > taken / 3 && taken - marked_out > taken / 4, "{marked_out} of {taken} with marks");
    assert!(seen.marked_otherwise.iter().all(|&contours| contours > SERIES / 8), "{:?}", seen.marked_otherwise);
    assert!(seen.under_another > taken / 2, "{} of {taken} under another placement", seen.under_another);
    assert!(seen.would_leave.iter().all(|&calls| calls > 20), "9 by the table left: {:?}", seen.would_leave);
    assert!(seen.near > SERIES / 12 && seen.emptied > SERIES / 6 && seen.full > 5 && seen.undone > SERIES);
}

/// A letter of a font on ground of this side: as large as there is room for, or smaller, y turned downwards. A contour of fewer than three edges gets
/// edges that go nowhere.
fn letter(random: &mut Random, side: u32, contours: &[Vec<Piece>]) -> Curved {
    let points = || contours.iter().flatten().flat_map(|&(start, control)| [Some(start), control]).flatten();
    let (left, right) = (points().map(|at| at.0).min().unwrap_or(0), points().map(|at| at.0).max().unwrap_or(0));
    let (top, bottom) = (points().map(|at| at.1).max().unwrap_or(0), points().map(|at| at.1).min().unwrap_or(0));
    let limit = STEPS * i64::from(side);
    let width = (right - left).max(top - bottom).max(1);
    let room = limit / random.within(1, 4);
    let corner = [0; 2].map(|_: i64| random.within(0, limit - room));
    let there = |(x, y): (i64, i64)| (corner[0] + (x - left) * room / width, corner[1] + (top - y) * room / width);
    let contour = |contour: &Vec<Piece>| {
        let mut pieces: Vec<Piece> =
            contour.iter().map(|&(start, control)| (there(start), control.map(there))).collect();
        while pieces.len() < 3 {
            pieces.insert(0, (pieces[0].0, None));
        }
        pieces
    };
    Curved::of(side, &contours.iter().map(contour).collect::<Vec<_>>())
}

/// Characters of which every font has most.
const CHARACTERS: &str = "aegsoQR@&38ñçßЖфяλΩ§¶©";

#[test]
fn letters_of_fonts() {
    let fonts = installed();
    if fonts.is_empty() {
        println!("fonts: none is installed, so that nothing was compared here");
        return;
    }
    let mut seen = curves::Seen::default();
    let (mut read, mut letters, mut passed_over, mut number) = (0u64, 0u64, 0u64, 0);
    for path in &fonts {
        let bytes = std::fs::read(path).unwrap_or_else(|error| panic!("{}: {error}", path.display()));
        let Some(font) = Font::read(bytes) else {
            println!("fonts: {} has no outlines of this kind", path.display());
            continue;
        };
        read += 1;
        for character in CHARACTERS.chars() {
            let Some(contours) = font.glyph_of(character).and_then(|glyph| font.contours(glyph)) else {
                passed_over += 1;
                continue;
            };
            // one ground after the other, so that a character comes with many of them
            let random = &mut Random::of_case(SEED, number);
            let ground = curves::ground(random, number);
            let curved = letter(random, ground.reach(), &contours);
            let points = curved.outline.points.clone();
            curves::one_outline(&Spec, random, ground, &curved, &points, Placement::None, &mut seen)
                .unwrap_or_else(|difference| panic!("{character} of {}: {difference}", path.display()));
            letters += 1;
            number += 1;
        }
    }
    println!(
        "fonts: {} letters of {} fonts, {} with too many chords, {} chords; {} characters that no simple glyph stands for; {} cells; {} calls",
        grouped(letters),
        grouped(read),
        grouped(seen.placed_crowded),
        grouped(seen.drawn.edges),
        grouped(passed_over),
        grouped(seen.drawn.cells),
        grouped(seen.drawn.calls)
    );
    assert_eq!(seen.as_chords + seen.placed_crowded, letters);
    assert!(letters >= read, "of {read} fonts that were read, only {letters} letters were compared");
}

fn at(sheet: u32, side: u32, column: u32, row: u32) -> SheetTile {
    SheetTile { sheet, side, column, row }
}

/// A table that held something, for a tile on this ground.
fn held(ground: Ground) -> Vec<i64> {
    vec![5; (ground.side() * ground.side()) as usize]
}

/// Building one contour that is not moved: the number of chords, or the number that is answered.
fn chords(ground: Ground, points: &[i64], marks: &[u8]) -> Result<u32, u8> {
    let (curves, counts) = (Curves { points, marks }, &[marks.len() as u32]);
    build_curves(&Spec, ground, curves, counts, Placement::None, &held(ground)).unwrap().map(|(edges, _)| edges)
}

/// Three coordinates with this second difference, the ends as far apart as they can be or as near.
fn with_difference(difference: i64, apart: bool) -> [i64; 3] {
    let odd = difference.rem_euclid(2);
    match difference {
        0.. if apart && difference <= 32_768 => [difference, 0, 0],
        0.. => [difference / 2 + odd, 0, difference / 2],
        _ => [odd, (odd - difference) / 2, 0],
    }
}

#[test]
fn every_limit_of_every_k() {
    let ground = Ground::Sheet(at(128, 1, 127, 127));
    let mut asked = 0;
    for k in 0..=7 {
        let most = 4 * 4i64.pow(k);
        for (size, chords_there) in [(most - 1, 1 << k), (most, 1 << k), (most + 1, 2 << k)] {
            for (difference, apart) in [(size, false), (size, true), (-size, false)] {
                // the other coordinate is flat, as far from it, or one less
                for other in [0, difference, -difference, difference - difference.signum()] {
                    let (one, two) = (with_difference(difference, apart), with_difference(other, apart));
                    for (x, y) in [(one, two), (two, one)] {
                        let points = [x[0], y[0], x[1], y[1], x[2], y[2], 7, 9];
                        // one past the last limit, some coordinate is off every sheet
                        let expected = if size > 65_536 { Err(6) } else { Ok(chords_there + 2) };
                        assert_eq!(chords(ground, &points, &[1, 0, 0]), expected, "{points:?}");
                        // the same with the curve last, which closes the contour
                        let closing = [x[2], y[2], 7, 9, x[0], y[0], x[1], y[1]];
                        assert_eq!(chords(ground, &closing, &[0, 0, 1]), expected, "{closing:?}");
                        asked += 2;
                    }
                }
            }
        }
    }
    assert_eq!(asked, 8 * 3 * 3 * 4 * 2 * 2);
}

#[test]
fn every_small_curve() {
    // all middles of two chords there are between three small numbers, in x and in y, on a tile of one pixel: a quarter of them are halves
    let ground = Ground::Tile(1);
    let numbers = [0, 1, 2, 3, 5, 8, 11, 14, 17, 20, 253, 254, 255, 256];
    for &start in &numbers {
        for &control in &numbers {
            for &end in &numbers {
                let points = [start, 100, control, 7, end, 3, 50, 200];
                assert!(chords(ground, &points, &[1, 0, 0]).is_ok());
                let points = [100, start, 7, control, 3, end, 50, 200];
                assert!(chords(ground, &points, &[1, 0, 0]).is_ok());
            }
        }
    }
}

#[test]
fn as_many_chords_as_there_may_be() {
    // loops from corner to corner and back, with a straight edge more or less
    let alone = SIDES.map(Ground::Tile);
    let on_sheets = sheets::PAIRS.map(|(sheet, side)| Ground::Sheet(at(sheet, side, 0, sheet / side - 1)));
    for ground in alone.into_iter().chain(on_sheets) {
        let limit = STEPS * i64::from(ground.reach());
        let each = chords(ground, &[&[0, 0, limit, limit][..], &[0; 4]].concat(), &[1, 0, 0]).unwrap() - 2;
        let loops = (MOST_EDGES / each - 1) as usize;
        let with = |straight: usize| {
            let points = [&[0, 0, limit, limit].repeat(loops)[..], &vec![0; 2 * straight]].concat();
            chords(ground, &points, &[&vec![1; loops][..], &vec![0; straight]].concat())
        };
        let room = (MOST_EDGES - each * loops as u32) as usize;
        assert_eq!([with(room - 1), with(room), with(room + 1)], [Ok(MOST_EDGES - 1), Ok(MOST_EDGES), Err(5)]);
        // as many as question 4 lets through
        let most = [0, 0, limit, limit].repeat(MOST_EDGES as usize);
        assert_eq!(chords(ground, &most, &[1; MOST_EDGES as usize]), Err(5));
    }
    // 1,024 curves of a chord each, and one edge more
    let ground = Ground::Tile(2);
    assert_eq!(chords(ground, &[9; 4 * MOST_EDGES as usize], &[1; MOST_EDGES as usize]), Ok(MOST_EDGES));
    assert_eq!(chords(ground, &[9; 4 * 1025], &[1; 1025]), Err(4));
}

#[test]
fn counts_are_summed_in_more_than_32_bits() {
    // question 5 is not asked before question 16, so that marks are held to a sum of any size: here 2^32, and three edges more
    let mut counts = vec![1024; 1 << 22];
    for ground in [Ground::Tile(1), Ground::Sheet(at(2, 1, 1, 0))] {
        let built = |numbers: usize, counts: &[u32], marks: usize| {
            let curves = Curves { points: &[5; 6][..numbers], marks: &[0; 3][..marks] };
            build_curves(&Spec, ground, curves, counts, Placement::None, &held(ground)).unwrap().map(|(edges, _)| edges)
        };
        assert_eq!((built(0, &[], 0), built(6, &[3], 3)), (Ok(0), Ok(3)));
        assert_eq!(built(0, &counts, 0), Err(16));
        counts.push(3);
        assert_eq!(built(6, &counts, 3), Err(16));
        counts.pop();
    }
}

#[test]
fn every_mark_and_every_coordinate_is_asked_for() {
    for ground in [Ground::Tile(1), Ground::Sheet(at(2, 1, 1, 0))] {
        let limit = STEPS * i64::from(ground.reach());
        let count = 300;
        let (mut points, mut marks) = (vec![3; 4 * count], vec![1; count]);
        for place in 0..count {
            for mark in [2, 3, 128, 255] {
                marks[place] = mark;
                assert_eq!(chords(ground, &points, &marks), Err(16), "mark {mark} at {place}");
            }
            marks[place] = 1;
        }
        for place in 0..points.len() {
            for coordinate in [-1, limit + 1, i64::MIN, i64::MAX] {
                points[place] = coordinate;
                assert_eq!(chords(ground, &points, &marks), Err(6), "{coordinate} at {place}");
            }
            points[place] = 3;
        }
    }
}

/// A curve from corner to corner of a pixel, of 8 chords, and two straight edges; and so many loops that there are too many chords.
fn correcting(correction: Correction, ground: Ground, crowded: bool) -> Correcting {
    let (points, marks) = if crowded {
        ([0, 0, 512, 512].repeat(65), vec![1; 65])
    } else {
        (vec![0, 0, 256, 0, 256, 256, 0, 256], vec![1, 0, 0])
    };
    let tile = Tile { record: if correction == PutIn { 0 } else { 2000 }, table: vec![7; 4] };
    let count = marks.len() as u32;
    Correcting { correction, ground, points, marks: Some(marks), count, placement: Placement::Scale(1.0), tile }
}

/// A correction with each of these faults and no other.
fn with_faults(correction: Correction, ground: Ground, faults: &[usize]) -> Correcting {
    let mut call = correcting(correction, ground, faults.contains(&5));
    for fault in faults {
        match (fault, &mut call.ground) {
            (1, Ground::Tile(side)) => *side = 3,
            (14, Ground::Sheet(place)) => place.sheet = 5,
            (15, Ground::Sheet(place)) => place.row = u32::MAX,
            _ => (),
        }
        match fault {
            2 => call.tile.table.push(7),
            4 => call.count = 1025,
            16 if faults.len().is_multiple_of(2) => call.marks.iter_mut().for_each(|marks| marks[2] = 2),
            16 => call.marks.iter_mut().for_each(|marks| marks.push(0)),
            3 => call.points.push(0),
            12 => call.placement = Placement::Scale(2.0 + 1.0 / 65_536.0),
            6 => call.points[2] = -1, // of the first edge's control point
            13 => call.tile.record = 9,
            9 => call.tile.table[0] = ENTRY_LIMIT + 1,
            _ => (),
        }
    }
    call
}

#[test]
fn every_fault_with_every_other() {
    let (alone, on_sheet) = (Ground::Tile(2), Ground::Sheet(at(2, 2, 0, 0)));
    for (correction, ground, order) in [
        (PutIn, alone, &[1, 2, 4, 16, 3, 12, 6, 5, 9][..]),
        (TakeOut, alone, &[1, 2, 4, 16, 3, 12, 6, 5, 13, 9]),
        (PutIn, on_sheet, &[14, 15, 2, 4, 16, 3, 12, 6, 5, 9]),
        (TakeOut, on_sheet, &[14, 15, 2, 4, 16, 3, 12, 6, 5, 13, 9]),
    ] {
        for chosen in 0..1u32 << order.len() {
            let faults: Vec<usize> =
                order.iter().enumerate().filter(|&(i, _)| chosen >> i & 1 == 1).map(|(_, &fault)| fault).collect();
            let call = with_faults(correction, ground, &faults);
            let expected = faults.first().map_or(Ok(()), |&fault| Err(fault as u8));
            assert_eq!(correct(&Spec, &call).unwrap().map(|_| ()), expected, "{correction:?} with {faults:?}");
            // building has the faults that are not the tile's
            let Correcting { ref points, ref marks, count, placement, ref tile, .. } = call;
            let first = faults.iter().find(|&&fault| fault != 13 && fault != 9);
            let curves = Curves { points, marks: marks.as_deref().unwrap_or_default() };
            let built = build_curves(&Spec, call.ground, curves, &[count], placement, &tile.table).unwrap();
            assert_eq!(built.map(|_| ()), first.map_or(Ok(()), |&fault| Err(fault as u8)), "building with {faults:?}");
        }
    }
}

#[test]
fn records_about_each_border() {
    let ground = Ground::Tile(2);
    for crowded in [false, true] {
        for record in
            (0..=20).chain(1005..=1030).chain([1039, 1040, 1041, 2000, 1 << 16, 1 << 31, u32::MAX - 9, u32::MAX])
        {
            let edges = 10;
            for correction in [PutIn, TakeOut] {
                let mut call = correcting(correction, ground, crowded);
                call.tile.record = record;
                let expected = match correction {
                    _ if crowded => Err(5),
                    PutIn if u64::from(record) + edges > 1024 => Err(5),
                    TakeOut if u64::from(record) < edges => Err(13),
                    _ => Ok(()),
                };
                assert_eq!(correct(&Spec, &call).unwrap().map(|_| ()), expected, "{correction:?} with {record}");
            }
        }
    }
}

#[test]
fn a_tile_filled_with_curves() {
    // the letter is put in 102 times, and four straight edges fill the tile; then all is taken out again, the letters as their chords
    for ground in [Ground::Tile(2), Ground::Sheet(at(4, 2, 0, 0))] {
        let empty = Tile { record: 0, table: vec![0; 4] };
        let owned = mattuliyan::Tile::build_curves(ground.for_library(), &[], &[], &[], mattuliyan::Placement::None);
        let (mut tile, mut owned) = (empty.clone(), owned.unwrap());
        let mut done = |call: Correcting, tile: &mut Tile| {
            let answer = correct(&Spec, &call).unwrap();
            correct_owned(&mut owned, &call, &answer).unwrap();
            answer.map(|left| *tile = left)
        };
        let letter =
            |correction, tile: &Tile| Correcting { tile: tile.clone(), ..correcting(correction, ground, false) };
        for _ in 0..102 {
            assert_eq!(done(letter(PutIn, &tile), &mut tile), Ok(()));
        }
        assert_eq!((tile.record, &tile.table), (1020, &vec![102 * 108_544; 4]));
        assert_eq!(done(letter(PutIn, &tile), &mut tile), Err(5));
        let straight = |correction, tile: &Tile| Correcting {
            points: vec![0; 8],
            marks: Some(vec![0; 4]),
            count: 4,
            ..letter(correction, tile)
        };
        assert_eq!(done(straight(PutIn, &tile), &mut tile), Ok(()));
        assert_eq!(tile.record, MOST_EDGES);
        assert_eq!(done(straight(TakeOut, &tile), &mut tile), Ok(()));
        let as_chords = |tile: &Tile| {
            let letter = letter(TakeOut, tile);
            let curves = Curves { points: &letter.points, marks: letter.marks.as_deref().unwrap_or_default() };
            let (points, counts) = reference::chords(&Spec, curves, &[3]);
            Correcting { points, marks: None, count: counts[0], ..letter.clone() }
        };
        for _ in 0..102 {
            assert_eq!(done(as_chords(&tile), &mut tile), Ok(()));
        }
        assert_eq!(tile, empty);
        assert_eq!(done(letter(TakeOut, &tile), &mut tile), Err(13));
    }
}

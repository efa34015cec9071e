//! 02's P6, round letters from curves: chords and tables worked by hand, what is
//! refused, how far a chord leaves its curve, and laws that tie curves to the
//! straight edges of their chords, on pseudo-random outlines.

mod common;

use common::{drawn, sheet_sides, Call, Curved, Outcome, Random};
use reference::Correction::{PutIn, TakeOut};
use reference::{build, build_curves, build_on_sheet, chords, exact_areas, exact_areas_on_sheet, placed, signed_area};
use reference::{Correction, Curve, Curves, Fraction, Placement, Question, Rules, SheetTile, Site, Spec};

/// The largest entry that question 9 lets pass.
const LARGEST: i64 = 1 << 40;

/// A letter on a tile of one pixel: a curve from corner to corner, which becomes 8
/// chords, and two straight edges.
const SHELL: [i64; 8] = [0, 0, 256, 0, 256, 256, 0, 256];
const SHELL_MARKS: [u8; 3] = [1, 0, 0];

/// The ends of the shell's chords: (64 i − 4 i², 4 i²).
const SHELL_CHORDS: [i64; 20] =
    [0, 0, 60, 4, 112, 16, 156, 36, 192, 64, 220, 100, 240, 144, 252, 196, 256, 256, 0, 256];

/// Its signed area. A chord has 256 i (i + 1), which add up to 43,008, and the
/// lower edge 65,536.
const SHELL_AREA: i64 = 108_544;

/// A curve on a tile of two pixels that becomes 16 chords: x and y go to the far
/// corner and back.
const LOOP: [i64; 4] = [0, 0, 512, 512];

fn at(sheet: u32, side: u32, column: u32, row: u32) -> SheetTile {
    SheetTile { sheet, side, column, row }
}

fn noughts(site: Site) -> Vec<i64> {
    vec![0; (site.side() * site.side()) as usize]
}

/// Building an outline that is not moved: the edge count and the table.
fn built(site: Site, points: &[i64], counts: &[u32], marks: &[u8]) -> Result<(u32, Vec<i64>), u8> {
    build_curves(&Spec, site, Curves { points, marks }, counts, Placement::None, &noughts(site))
}

/// How many edges building counts, or the number that it answers.
fn edges(site: Site, points: &[i64], counts: &[u32], marks: &[u8]) -> Result<u32, u8> {
    built(site, points, counts, marks).map(|(edges, _)| edges)
}

/// The chords of one contour: the start of each.
fn chords_of(points: &[i64], marks: &[u8]) -> Vec<i64> {
    let (starts, counts) = chords(&Spec, Curves { points, marks }, &[marks.len() as u32]);
    assert_eq!(counts, [starts.len() as u32 / 2]);
    starts
}

/// Three numbers whose second difference is this one, none of them above 32,768.
fn with_difference(difference: i64) -> [i64; 3] {
    let odd = difference.rem_euclid(2);
    match difference {
        0.. => [difference / 2 + odd, 0, difference / 2],
        _ => [odd, (odd - difference) / 2, 0],
    }
}

/// How many chords the curve with these coordinates becomes.
fn chords_between(x: [i64; 3], y: [i64; 3]) -> usize {
    let points = [x[0], y[0], x[1], y[1], x[2], y[2], 0, 0];
    chords_of(&points, &[1, 0, 0]).len() / 2 - 2
}

/// The outcome of a call that is done.
fn done(record: u32, table: &[i64]) -> Outcome {
    (Ok(()), record, table.to_vec())
}

/// "Chord ends are rounded to the nearest step, halves towards the larger."
#[test]
fn chord_ends_by_hand() {
    // x is 0, 0 and 6: 1 1/2 at the middle. y is 0, 6 and 0: 3.
    assert_eq!(chords_of(&[0, 0, 0, 6, 6, 0, 6, 6], &[1, 0, 0]), [0, 0, 2, 3, 6, 0, 6, 6]);
    // x is 0, 0 and 10: 2 1/2. y is 10, 0 and 1: 2 3/4.
    assert_eq!(chords_of(&[0, 10, 0, 0, 10, 1, 6, 6], &[1, 0, 0]), [0, 10, 3, 3, 10, 1, 6, 6]);
    // x is 10, 0 and 5: 3 3/4. y is 10, 1 and 5: 4 1/4.
    assert_eq!(chords_of(&[10, 10, 0, 1, 5, 5, 6, 6], &[1, 0, 0]), [10, 10, 4, 4, 5, 5, 6, 6]);
    // Four chords: x is 32 t², 2 and 8 and 18; y is 32 t (1 − t), 6 and 8 and 6.
    assert_eq!(chords_of(&[0, 0, 0, 16, 32, 0, 6, 6], &[1, 0, 0]), [0, 0, 2, 6, 8, 8, 18, 6, 32, 0, 6, 6]);
    // x is 17 t²: 1 1/16, 4 1/4, 9 9/16. y is 40 t (1 − t): 7 1/2, 10, 7 1/2.
    assert_eq!(chords_of(&[0, 0, 0, 20, 17, 0, 6, 6], &[1, 0, 0]), [0, 0, 1, 8, 4, 10, 10, 8, 17, 0, 6, 6]);
    // The shell's are whole.
    assert_eq!(chords_of(&SHELL, &SHELL_MARKS), SHELL_CHORDS);
    // A curve that is flat is one chord, wherever its control point is.
    assert_eq!(chords_of(&[0, 0, 4, 2, 4, 0, 9, 9], &[1, 0, 0]), [0, 0, 4, 0, 9, 9]);
    assert_eq!(chords_of(&[0, 0, 2, 2, 4, 4, 9, 9], &[1, 0, 0]), [0, 0, 4, 4, 9, 9]);
    // So is one that begins and ends at one point with its control point there.
    assert_eq!(chords_of(&[5, 5, 5, 5, 5, 5, 9, 9], &[1, 0, 0]), [5, 5, 5, 5, 9, 9]);
}

/// A curve runs to the start of the next edge, and the last one to the first.
#[test]
fn curves_of_each_place() {
    // The same curve, first, second and last.
    assert_eq!(chords_of(&[0, 0, 0, 6, 6, 0, 6, 6], &[1, 0, 0]), [0, 0, 2, 3, 6, 0, 6, 6]);
    assert_eq!(chords_of(&[6, 6, 0, 0, 0, 6, 6, 0], &[0, 1, 0]), [6, 6, 0, 0, 2, 3, 6, 0]);
    assert_eq!(chords_of(&[6, 0, 6, 6, 0, 0, 0, 6], &[0, 0, 1]), [6, 0, 6, 6, 0, 0, 2, 3]);
    // All three of a contour, and then another contour with marks of its own.
    let round = [0, 0, 0, 6, 6, 0, 6, 6, 0, 6, 0, 0];
    // x is 6, 6 and 0, and 0, 0 and 0; y is 0, 6 and 6, and 6, 0 and 0.
    assert_eq!(chords_of(&round, &[1, 1, 1]), [0, 0, 2, 3, 6, 0, 5, 5, 0, 6, 0, 2]);
    let two = [&round[..], &[6, 6, 0, 0, 0, 6, 6, 0]].concat();
    let (starts, counts) = chords(&Spec, Curves { points: &two, marks: &[1, 1, 1, 0, 1, 0] }, &[3, 3]);
    assert_eq!(starts, [0, 0, 2, 3, 6, 0, 5, 5, 0, 6, 0, 2, 6, 6, 0, 0, 2, 3, 6, 0]);
    assert_eq!(counts, [6, 4]);
}

/// "k is the least from 0 to 7 for which neither coordinate of p0 − 2 × p1 + p2
/// exceeds 4 × 4^k in magnitude."
#[test]
fn chords_at_each_limit() {
    let flat = [0; 3];
    for k in 0..=7 {
        let most = 4 * 4i64.pow(k);
        for sign in [1, -1] {
            let at_the_limit = with_difference(sign * most);
            assert_eq!(at_the_limit[0] - 2 * at_the_limit[1] + at_the_limit[2], sign * most);
            let past = with_difference(sign * (most + 1));
            assert_eq!(past[0] - 2 * past[1] + past[2], sign * (most + 1));
            for (x, y) in [(at_the_limit, flat), (flat, at_the_limit), (at_the_limit, at_the_limit)] {
                assert_eq!(chords_between(x, y), 1 << k, "{x:?}, {y:?}");
            }
            // Past the last limit there is no coordinate from 0 to 32,768.
            if k == 7 {
                assert!(past.iter().any(|c| !(0..=32_768).contains(c)));
                continue;
            }
            assert!(past.iter().all(|c| (0..=32_768).contains(c)));
            for (x, y) in [(past, flat), (flat, past), (past, at_the_limit), (at_the_limit, past)] {
                assert_eq!(chords_between(x, y), 2 << k, "{x:?}, {y:?}");
            }
        }
    }
    assert_eq!(chords_between(flat, flat), 1);
    // Both coordinates have their own magnitude: neither their sum nor the length of
    // the two together is asked about.
    assert_eq!(chords_between([0, 0, 4], [0, 0, 4]), 1);
    assert_eq!(chords_between([0, 0, 4], [4, 4, 0]), 1);
    assert_eq!(chords_between([0, 0, 12], [0, 0, 13]), 2);
}

/// The most chords that a curve becomes, on the largest sheet and on the largest
/// tile: at 32,768 and at 16,384 k is 7.
#[test]
fn the_most_chords() {
    for (site, far) in [(Site::OnSheet(at(128, 32, 3, 3)), 32_768), (Site::Alone(64), 16_384)] {
        for points in [
            [0, 0, far, 0, 0, 0, 0, 0],
            [0, 0, 0, far, 0, 0, 0, 0],
            [far, far, 0, 0, far, far, far, 0],
            [far, 0, 0, far, far, 0, far, 0],
        ] {
            assert_eq!(edges(site, &points, &[3], &[1, 0, 0]), Ok(128 + 2), "{points:?}");
        }
        // Half as many are enough up to 8,192.
        assert_eq!(edges(site, &[0, 0, 8192, 0, 0, 0, 0, 0], &[3], &[1, 0, 0]), Ok(64 + 2));
        assert_eq!(edges(site, &[0, 0, 8193, 0, 0, 0, 0, 0], &[3], &[1, 0, 0]), Ok(128 + 2));
    }
}

/// The shell, by hand: on a tile of one pixel, and with the pixel in each corner of a
/// tile of two and of a sheet of two.
#[test]
fn tables_by_hand() {
    assert_eq!(signed_area(&SHELL_CHORDS, &[10]), SHELL_AREA);
    let pixel = Site::Alone(1);
    assert_eq!(built(pixel, &SHELL, &[3], &SHELL_MARKS), Ok((10, vec![SHELL_AREA])));
    assert_eq!(drawn(1, 0, &[SHELL_AREA]), (vec![SHELL_AREA], vec![211]));
    for (column, row) in [(0, 0), (1, 0), (0, 1), (1, 1)] {
        let there: Vec<i64> = SHELL.iter().enumerate().map(|(i, c)| c + 256 * [column, row][i % 2]).collect();
        let (count, table) = built(Site::Alone(2), &there, &[3], &SHELL_MARKS).unwrap();
        assert_eq!((count, table[0]), (10, SHELL_AREA));
        for place in SheetTile::all(2, 1) {
            let on = i64::from(place.column) == column && i64::from(place.row) == row;
            let expected = if on { SHELL_AREA } else { 0 };
            assert_eq!(built(Site::OnSheet(place), &there, &[3], &SHELL_MARKS), Ok((10, vec![expected])));
        }
    }
    // A letter o without its hole: four curves about the middle of a tile of two.
    let o = [256, 0, 512, 0, 512, 256, 512, 512, 256, 512, 0, 512, 0, 256, 0, 0];
    let (count, table) = built(Site::Alone(2), &o, &[4], &[1; 4]).unwrap();
    assert_eq!((count, table[0]), (32, 4 * SHELL_AREA));
    assert_eq!(drawn(2, 1, &table).1, [211; 4]);
    // With a hole of half the size, whose curves have second differences of 128 and
    // become 8 chords each as well: their ends are the halves of the others'.
    let hole = [256, 128, 128, 128, 128, 256, 128, 384, 256, 384, 384, 384, 384, 256, 384, 128];
    let (count, table) = built(Site::Alone(2), &[o, hole].concat(), &[4, 4], &[1; 8]).unwrap();
    assert_eq!((count, table[0]), (32 + 32, 4 * SHELL_AREA - SHELL_AREA));
}

/// "All else is as it was" for marks of 0: the tables and refusals of the call
/// without marks.
#[test]
fn straight_edges_alone() {
    let mut random = Random(61);
    for number in 0..210 {
        let outline = random.outline_of(1 << (number % 7));
        let (points, counts, marks) = (&outline.points, &outline.counts, vec![0; outline.edges() as usize]);
        let plain = build(&Spec, outline.side, points, counts, &outline.noughts());
        assert_eq!(built(Site::Alone(outline.side), points, counts, &marks), plain);
        assert_eq!(chords(&Spec, Curves { points, marks: &marks }, counts), (points.clone(), counts.clone()));
        let place = random.sheet_tile();
        let outline = random.outline_of(place.sheet);
        let (points, counts, marks) = (&outline.points, &outline.counts, vec![0; outline.edges() as usize]);
        let site = Site::OnSheet(place);
        let plain = build_on_sheet(&Spec, place, points, counts, Placement::None, &noughts(site));
        assert_eq!(built(site, points, counts, &marks), plain);
    }
    // No contour at all.
    assert_eq!(built(Site::Alone(2), &[], &[], &[]), Ok((0, vec![0; 4])));
}

/// "A placement moves control points like the other points, before the chords are
/// made."
#[test]
fn placed_before_the_chords_are_made() {
    let placed_chords = |points: &[i64], placement| {
        let placed = placed(&Spec, placement, points);
        chords_of(&placed, &[1, 0, 0])
    };
    // By a half: x is 0, 13 and 0, of which the middle becomes 7. The second
    // difference is −14, and the middle of the curve 3 1/2. Before, it is −26.
    let half = Placement::Scale(0.5);
    assert_eq!(placed_chords(&[0, 0, 13, 0, 0, 0, 0, 8], half), [0, 0, 4, 0, 0, 0, 0, 4]);
    assert_eq!(chords_of(&[0, 0, 13, 0, 0, 0, 0, 8], &[1, 0, 0]).len(), 2 * (4 + 2));
    let site = Site::Alone(1);
    let scaled = |points: &[i64], placement| {
        build_curves(&Spec, site, Curves { points, marks: &[1, 0, 0] }, &[3], placement, &[7])
    };
    assert_eq!(scaled(&[0, 0, 13, 0, 0, 0, 0, 8], half), Ok((4, vec![0])));
    // Twice the size: a flat curve is so no more.
    assert_eq!(scaled(&[0, 0, 2, 0, 0, 0, 0, 8], Placement::Scale(2.0)).map(|(edges, _)| edges), Ok(4));
    // The shell from a thousand steps away, and turned by a quarter, where y is x.
    let away = SHELL.map(|c| c - 1000);
    assert_eq!(scaled(&away, Placement::Shift(1000.0, 1000.0)), Ok((10, vec![SHELL_AREA])));
    assert_eq!(scaled(&away, Placement::Shift(999.5, 999.5)), Ok((10, vec![SHELL_AREA])));
    assert_eq!(scaled(&SHELL, Placement::Turn([0.0, -1.0, 256.0, 1.0, 0.0, 0.0])), Ok((10, vec![SHELL_AREA])));
    // A mirror runs it the other way.
    assert_eq!(scaled(&SHELL, Placement::Turn([0.0, 1.0, 0.0, 1.0, 0.0, 0.0])), Ok((10, vec![-SHELL_AREA])));
}

/// Question 4 is about the edges as marked.
#[test]
fn question_4_counts_edges_as_marked() {
    // Two curves are a closed line, and no contour; so are none, and one.
    assert_eq!(edges(Site::Alone(1), &[0, 0, 256, 0, 256, 256, 0, 256], &[2], &[1, 1]), Err(4));
    assert_eq!(edges(Site::Alone(1), &[0, 0, 256, 0], &[1], &[1]), Err(4));
    assert_eq!(edges(Site::Alone(1), &[], &[0], &[]), Err(4));
    // Three are one, however few chords they become.
    assert_eq!(edges(Site::Alone(1), &[0; 12], &[3], &[1; 3]), Ok(3));
    // 1,024 curves of one chord each, and one more.
    assert_eq!(edges(Site::Alone(1), &[0; 4096], &[1024], &[1; 1024]), Ok(1024));
    assert_eq!(edges(Site::Alone(1), &[0; 4100], &[1025], &[1; 1025]), Err(4));
    // 1,025 edges of two contours are for question 5.
    assert_eq!(edges(Site::Alone(1), &[0; 4100], &[1022, 3], &[1; 1025]), Err(5));
    for count in [1 << 16, 1 << 31, u32::MAX] {
        assert_eq!(edges(Site::Alone(1), &[0; 12], &[count], &[1; 3]), Err(4));
        assert_eq!(edges(Site::Alone(1), &[0; 12], &[3, count], &[1; 3]), Err(4));
    }
}

/// "Another mark, or not one mark an edge, gives 16."
#[test]
fn question_16_is_about_the_marks() {
    let site = Site::Alone(1);
    for mark in 0..=255 {
        for place in 0..3 {
            let mut marks = [0; 3];
            marks[place] = mark;
            let points = if mark == 1 { &SHELL[..] } else { &SHELL[..6] };
            let expected = if mark <= 1 { Ok(()) } else { Err(16) };
            assert_eq!(edges(site, points, &[3], &marks).map(|_| ()), expected, "{marks:?}");
            // Whatever the points are.
            assert_eq!(edges(site, &[], &[3], &marks), Err(if mark <= 1 { 3 } else { 16 }));
        }
    }
    // One mark too few or too many, and others, with and without their points.
    for length in [0, 1, 2, 4, 5, 6, 100] {
        for points in [&SHELL[..], &SHELL[..6], &[], &[0; 400]] {
            assert_eq!(edges(site, points, &[3], &vec![0; length]), Err(16));
            assert_eq!(edges(site, points, &[3], &vec![1; length]), Err(16));
        }
    }
    // As many as the counts' sum.
    assert_eq!(edges(site, &[0; 14], &[4, 3], &[0; 7]), Ok(7));
    assert_eq!(edges(site, &[0; 14], &[4, 3], &[0; 4]), Err(16));
    assert_eq!(edges(site, &[0; 14], &[4, 3], &[0; 3]), Err(16));
    assert_eq!(edges(site, &[], &[], &[0]), Err(16));
    // A sum that 32 bits do not hold has not as many marks as it has in them.
    assert_eq!(edges(site, &[], &vec![1024; 1 << 22], &[]), Err(16));
    for correction in [PutIn, TakeOut] {
        for marks in [&[0, 0, 2][..], &[255, 0, 0], &[0; 2], &[0; 4], &[]] {
            let call = Call { count: 3, ..Call::marked(correction, site, &[0; 6], marks, 3, &[5]) };
            assert_eq!(call.outcome(&Spec), call.refused(16));
        }
    }
}

/// "3 wants two numbers for a straight edge, its start, and four for a curved one."
#[test]
fn question_3_reads_the_marks() {
    let site = Site::Alone(1);
    for (marks, numbers) in
        [([0, 0, 0], 6), ([1, 0, 0], 8), ([0, 1, 0], 8), ([0, 0, 1], 8), ([1, 0, 1], 10), ([1, 1, 1], 12)]
    {
        for length in 0..=16 {
            let expected = if length == numbers { Ok(3) } else { Err(3) };
            assert_eq!(edges(site, &vec![0; length], &[3], &marks), expected, "{marks:?}, {length}");
        }
    }
    // A curve whose mark is 0, and a straight edge whose mark is 1.
    assert_eq!(edges(site, &SHELL, &[3], &[0, 0, 0]), Err(3));
    assert_eq!(edges(site, &SHELL[..6], &[3], &[0, 0, 1]), Err(3));
    // Each contour has marks of its own.
    assert_eq!(edges(site, &[0; 16], &[3, 3], &[0, 0, 0, 0, 1, 1]), Ok(6));
    assert_eq!(edges(site, &[0; 12], &[3, 3], &[0, 0, 0, 0, 1, 1]), Err(3));
}

/// "6 covers control points", and so does 12.
#[test]
fn questions_6_and_12_cover_control_points() {
    let points = [10, 10, 20, 10, 20, 20, 10, 20];
    for (site, far) in [(Site::Alone(1), 256), (Site::Alone(64), 16_384), (Site::OnSheet(at(128, 32, 0, 1)), 32_768)] {
        for place in 0..8 {
            for (coordinate, accepted) in [(-1, false), (0, true), (far, true), (far + 1, false)] {
                let mut points = points;
                points[place] = coordinate;
                let expected = if accepted { Ok(()) } else { Err(6) };
                assert_eq!(edges(site, &points, &[3], &[1, 0, 0]).map(|_| ()), expected, "{place}, {coordinate}");
            }
            for end in [i64::MIN, i64::MAX] {
                let mut points = points;
                points[place] = end;
                assert_eq!(edges(site, &points, &[3], &[1, 0, 0]), Err(6));
            }
        }
    }
    // As placed, on the tile; before that, within what may be moved.
    for place in 0..8 {
        let with = |coordinate, placement| {
            let mut points = points;
            points[place] = coordinate;
            let curves = Curves { points: &points, marks: &[1, 0, 0] };
            build_curves(&Spec, Site::Alone(1), curves, &[3], placement, &[0]).map(|_| ())
        };
        assert_eq!(with(512, Placement::Scale(0.5)), Ok(()));
        assert_eq!(with(513, Placement::Scale(0.5)), Err(6));
        assert_eq!(with(-1, Placement::Scale(0.5)), Ok(()));
        assert_eq!(with(-2, Placement::Scale(0.5)), Err(6));
        assert_eq!(with(32_767, Placement::Scale(1.0 / 128.0)), Ok(()));
        assert_eq!(with(32_768, Placement::Scale(1.0 / 128.0)), Err(12));
        assert_eq!(with(-32_769, Placement::Scale(1.0 / 128.0)), Err(12));
        assert_eq!(with(-32_768, Placement::Scale(0.0)), Ok(()));
        assert_eq!(with(32_768, Placement::None), Err(6));
    }
}

/// "5 counts chords": just as many as there may be, and one more.
#[test]
fn question_5_counts_chords() {
    let site = Site::Alone(2);
    let loops = |count: usize| (LOOP.repeat(count), vec![1; count]);
    let (points, marks) = loops(64);
    assert_eq!(edges(site, &points, &[64], &marks), Ok(1024));
    assert_eq!(edges(site, &points, &[61, 3], &marks), Ok(1024));
    let (more, more_marks) = ([&points[..], &[0, 0]].concat(), [&marks[..], &[0]].concat());
    assert_eq!(edges(site, &more, &[65], &more_marks), Err(5));
    assert_eq!(edges(site, &more, &[62, 3], &more_marks), Err(5));
    // 63 of them and 16 straight edges are as many, and 17 too many.
    let (points, marks) = loops(63);
    let with = |straight: usize| {
        edges(
            site,
            &[&points[..], &vec![0; 2 * straight]].concat(),
            &[(63 + straight) as u32],
            &[&marks[..], &vec![0; straight]].concat(),
        )
    };
    assert_eq!((with(16), with(17)), (Ok(1024), Err(5)));
    // The most chords that question 4 lets through: 1,024 times 128.
    let far = [0, 0, 32_768, 32_768];
    let sheet = Site::OnSheet(at(128, 1, 0, 0));
    assert_eq!(edges(sheet, &far.repeat(1024), &[1024], &[1; 1024]), Err(5));
    assert_eq!(edges(sheet, &far.repeat(8), &[8], &[1; 8]), Ok(1024));
    assert_eq!(edges(sheet, &far.repeat(9), &[9], &[1; 9]), Err(5));
}

/// "For putting in with the record's count", and for taking out of the contour
/// alone, before 13.
#[test]
fn questions_5_and_13_of_a_contour() {
    let site = Site::Alone(2);
    // 16 chords, and two straight edges.
    let points = [&LOOP[..], &[0; 4]].concat();
    let call = |correction, record| Call::marked(correction, site, &points, &[1, 0, 0], record, &[5; 4]);
    for (record, expected) in [(0, Ok(18)), (1006, Ok(1024)), (1007, Err(5)), (1021, Err(5)), (u32::MAX, Err(5))] {
        let outcome = call(PutIn, record).outcome(&Spec);
        match expected {
            Ok(record) => assert_eq!(outcome, done(record, &[5; 4])),
            Err(number) => assert_eq!(outcome, call(PutIn, record).refused(number)),
        }
    }
    for (record, expected) in [(0, Err(13)), (3, Err(13)), (17, Err(13)), (18, Ok(0)), (u32::MAX, Ok(u32::MAX - 18))] {
        let outcome = call(TakeOut, record).outcome(&Spec);
        match expected {
            Ok(record) => assert_eq!(outcome, done(record, &[5; 4])),
            Err(number) => assert_eq!(outcome, call(TakeOut, record).refused(number)),
        }
    }
    // 1,024 chords are put into an empty tile and taken out of a full one; 1,040 are
    // refused with 5 by both, whatever the record.
    let loops = |count: usize, correction, record| {
        Call::marked(correction, site, &LOOP.repeat(count), &vec![1; count], record, &[5; 4])
    };
    assert_eq!(loops(64, PutIn, 0).outcome(&Spec).0, Ok(()));
    assert_eq!(loops(64, PutIn, 1).outcome(&Spec).0, Err(5));
    assert_eq!(loops(64, TakeOut, 1024).outcome(&Spec).0, Ok(()));
    assert_eq!(loops(64, TakeOut, 1023).outcome(&Spec).0, Err(13));
    for record in [0, 1, 65, 1024, 1039, 1040, 2000, u32::MAX] {
        for correction in [PutIn, TakeOut] {
            assert_eq!(loops(65, correction, record).outcome(&Spec).0, Err(5), "{correction:?}, {record}");
        }
    }
}

/// What is put in and taken out are the chords' values.
#[test]
fn put_in_and_taken_out() {
    let site = Site::Alone(1);
    let call = |correction, record, entry| Call::marked(correction, site, &SHELL, &SHELL_MARKS, record, &[entry]);
    assert_eq!(call(PutIn, 0, 0).outcome(&Spec), done(10, &[SHELL_AREA]));
    assert_eq!(call(PutIn, 7, -9).outcome(&Spec), done(17, &[SHELL_AREA - 9]));
    assert_eq!(call(TakeOut, 10, SHELL_AREA).outcome(&Spec), done(0, &[0]));
    assert_eq!(call(TakeOut, 12, 3).outcome(&Spec), done(2, &[3 - SHELL_AREA]));
    // Question 9 before the call and after it.
    assert_eq!(call(PutIn, 0, LARGEST - SHELL_AREA).outcome(&Spec), done(10, &[LARGEST]));
    assert_eq!(call(PutIn, 0, LARGEST - SHELL_AREA + 1).outcome(&Spec).0, Err(9));
    assert_eq!(call(TakeOut, 10, LARGEST).outcome(&Spec).0, Ok(()));
    assert_eq!(call(TakeOut, 10, LARGEST + 1).outcome(&Spec).0, Err(9));
    assert_eq!(call(TakeOut, 10, SHELL_AREA - LARGEST).outcome(&Spec), done(0, &[-LARGEST]));
    assert_eq!(call(TakeOut, 10, SHELL_AREA - LARGEST - 1).outcome(&Spec).0, Err(9));
    // Put in as curves and taken out as the chords, and the other way.
    let chords = Call::of(TakeOut, 1, &SHELL_CHORDS, 10, &[SHELL_AREA]);
    assert_eq!(chords.outcome(&Spec), done(0, &[0]));
    let chords = Call::of(PutIn, 1, &SHELL_CHORDS, 0, &[0]);
    assert_eq!(chords.outcome(&Spec), done(10, &[SHELL_AREA]));
    // On a sheet, in the tile where it is and in another.
    for (column, value) in [(0, 0), (1, SHELL_AREA)] {
        let there = [256, 0, 512, 0, 512, 256, 256, 256];
        let site = Site::OnSheet(at(2, 1, column, 0));
        let call = Call::marked(PutIn, site, &there, &SHELL_MARKS, 3, &[11]);
        assert_eq!(call.outcome(&Spec), done(13, &[11 + value]));
    }
}

#[test]
fn building_asks_1_2_4_16_3_12_6_5() {
    let (bad, good) = (Placement::Scale(f64::NAN), Placement::Scale(1.0));
    let sites = [
        [(Site::Alone(3), 1), (Site::Alone(3), 1), (Site::Alone(2), 2)],
        [(Site::OnSheet(at(3, 2, 7, 0)), 14), (Site::OnSheet(at(4, 2, 2, 0)), 15), (Site::OnSheet(at(4, 2, 1, 0)), 2)],
    ];
    for sites in sites {
        let ask = |site, points: &[i64], counts: &[u32], marks: &[u8], placement, length| {
            let curves = Curves { points, marks };
            build_curves(&Spec, site, curves, counts, placement, &vec![0; length]).map(|(edges, _)| edges)
        };
        // From a call with every fault, one fault less at a time.
        for (site, number) in sites {
            assert_eq!(ask(site, &[-40_000], &[2], &[7], bad, 1), Err(number));
        }
        let site = sites[2].0;
        let loops = LOOP.repeat(64);
        let with = |last: [i64; 4]| [&loops[..], &last].concat();
        assert_eq!(ask(site, &[-40_000], &[2], &[7], bad, 4), Err(4));
        assert_eq!(ask(site, &[-40_000], &[65], &[7], bad, 4), Err(16));
        assert_eq!(ask(site, &[-40_000], &[65], &[1; 66], bad, 4), Err(16));
        assert_eq!(ask(site, &[-40_000], &[65], &[1; 65], bad, 4), Err(3));
        assert_eq!(ask(site, &with([0, 0, -40_000, 0]), &[65], &[1; 65], bad, 4), Err(12));
        assert_eq!(ask(site, &with([0, 0, -40_000, 0]), &[65], &[1; 65], good, 4), Err(12));
        assert_eq!(ask(site, &with([0, 0, -1, 0]), &[65], &[1; 65], good, 4), Err(6));
        assert_eq!(ask(site, &with([0, 0, 512, 0]), &[65], &[1; 65], good, 4), Err(5));
        assert_eq!(ask(site, &loops, &[64], &[1; 64], good, 4), Ok(1024));
    }
}

/// A call with each of these faults and no other. With a fault of 5 it is a contour
/// of 1,040 chords, and else one of 18.
fn with_faults(correction: Correction, site: Site, faults: &[u8]) -> Call {
    let (points, marks) = if faults.contains(&5) {
        (LOOP.repeat(65), vec![1; 65])
    } else {
        ([&LOOP[..], &[512, 0, 0, 512]].concat(), vec![1, 0, 0])
    };
    let mut call = Call::marked(correction, site, &points, &marks, if correction == PutIn { 0 } else { 5000 }, &[7; 4]);
    call.placement = Placement::Scale(1.0);
    for fault in faults {
        match fault {
            1 => call.side = 3,
            14 => call.place.as_mut().unwrap().sheet = 5,
            15 => call.place.as_mut().unwrap().row = 2,
            2 => call.table.push(7),
            4 => call.count = 1025,
            16 if faults.len().is_multiple_of(2) => call.marks.as_mut().unwrap()[1] = 2,
            16 => call.marks.as_mut().unwrap().push(0),
            3 => call.points.push(0),
            12 => call.placement = Placement::Scale(2.0 + 1.0 / 65_536.0),
            // The control point of the first edge.
            6 => call.points[2] = -1,
            13 => call.record = 17,
            9 => call.table[0] = LARGEST + 1,
            _ => (),
        }
    }
    call
}

/// Putting in asks 1, 2, 4, 16, 3, 12, 6, 5, 9, and taking out 13 before 9. Whatever
/// faults a call has, the first in the order decides, and nothing is changed.
#[test]
fn the_first_no_decides() {
    let (alone, on_sheet) = (Site::Alone(2), Site::OnSheet(at(2, 2, 0, 0)));
    let orders = [
        (PutIn, alone, vec![1, 2, 4, 16, 3, 12, 6, 5, 9]),
        (TakeOut, alone, vec![1, 2, 4, 16, 3, 12, 6, 5, 13, 9]),
        (PutIn, on_sheet, vec![14, 15, 2, 4, 16, 3, 12, 6, 5, 9]),
        (TakeOut, on_sheet, vec![14, 15, 2, 4, 16, 3, 12, 6, 5, 13, 9]),
    ];
    for (correction, site, order) in orders {
        for chosen in 0..1u32 << order.len() {
            let chosen = |&(place, _): &(usize, &u8)| chosen >> place & 1 == 1;
            let faults: Vec<u8> = order.iter().enumerate().filter(chosen).map(|(_, &fault)| fault).collect();
            let call = with_faults(correction, site, &faults);
            match faults.first() {
                Some(&number) => assert_eq!(call.outcome(&Spec), call.refused(number), "{faults:?}"),
                None => assert_eq!(call.outcome(&Spec).0, Ok(()), "{faults:?}"),
            }
        }
    }
}

/// The order of a call with marks comes from that of the call without them.
#[test]
fn orders_with_marks() {
    use Question::*;
    let building = [Side, TableLength, EachCount, Marks, PointsLength, Placing, Coordinates, CountSum];
    assert_eq!(Spec.with_marks(&Spec.building()), building);
    let taking = [&building[..], &[EnoughRecorded, Entries]].concat();
    assert_eq!(Spec.with_marks(&Spec.taking()), taking);
    assert_eq!(Spec.with_marks(&Spec.putting()), [&building[..], &[Entries]].concat());
    let on_sheet = [&[SheetSides, TilePlace], &taking[1..]].concat();
    assert_eq!(Spec.on_sheet(&Spec.with_marks(&Spec.taking())), on_sheet);
    // Calls without marks ask what they asked.
    assert_eq!(build(&Spec, 1, &[0; 6], &[1022, 3], &[0]), Err(5));
    assert_eq!(build(&Spec, 1, &[-1; 2050], &[1022, 3], &[0]), Err(5));
}

/// The value less another, over their common denominator.
fn minus(a: Fraction, b: Fraction) -> Fraction {
    Fraction { num: a.num * b.den - b.num * a.den, den: a.den * b.den }
}

/// "Before this rounding no chord leaves its curve by more than one step in x or y."
/// At the share s of a chord, it is as far from the curve as s (1 − s) / n² of the
/// second difference, so at most at its middle, by a quarter of that over n².
#[test]
fn no_chord_leaves_its_curve_by_more_than_a_step() {
    let mut random = Random(62);
    let (mut by_a_step, mut curves) = (0, 0);
    let check = |curve: Curve, by_a_step: &mut u32| {
        let k = Spec.halvings(curve);
        let n = 1i128 << k;
        assert!(k <= 7);
        for i in 0..n {
            let (from, to) = (curve.at(i, n), curve.at(i + 1, n));
            // In eighths of the chord.
            for share in 0..=8 {
                let on_curve = curve.at(8 * i + share, 8 * n);
                for c in 0..2 {
                    let num = (8 - share) * from[c].num + share * to[c].num;
                    let miss = minus(on_curve[c], Fraction { num, den: 8 * n * n });
                    assert!(miss.num.abs() <= miss.den, "{curve:?}, chord {i} of {n}, {share} eighths");
                    // Just what the second difference says, exactly.
                    let said = Fraction { num: -share * (8 - share) * curve.second_difference()[c], den: 64 * n * n };
                    assert_eq!(minus(miss, said).num, 0);
                    *by_a_step += u32::from(miss.num.abs() == miss.den);
                }
            }
        }
        // With half as many chords one would, if there may be as few.
        if k > 0 {
            let [x, y] = curve.second_difference();
            assert!(x.abs().max(y.abs()) > 4 * 4i128.pow(k - 1));
        }
    };
    for k in 0..=7 {
        for difference in [4 * 4i64.pow(k), -4 * 4i64.pow(k), 4 * 4i64.pow(k) - 1, 4 * 4i64.pow(k) / 4 + 1] {
            let [x, y] = [difference, random.below(difference.abs()) - 1].map(with_difference);
            check(Curve { start: [x[0], y[0]], control: [x[1], y[1]], end: [x[2], y[2]] }, &mut by_a_step);
        }
    }
    // At each limit, the middle of each chord is a step away, either way.
    assert_eq!(by_a_step, 2 * (1 + 2 + 4 + 8 + 16 + 32 + 64 + 128));
    for far in [4, 20, 256, 4096, 32_768] {
        for _ in 0..200 {
            let mut point = || [random.below(far + 1), random.below(far + 1)];
            check(Curve { start: point(), control: point(), end: point() }, &mut by_a_step);
            curves += 1;
        }
    }
    assert_eq!(curves, 1000);
}

/// Every end is the whole number nearest to its point of the curve, the larger of two
/// that are as near: all curves of small numbers, and larger ones.
#[test]
fn chord_ends_are_the_nearest_steps() {
    let (mut halves, mut ends) = ([0, 0], 0);
    let mut check = |start: i64, control: i64, end: i64| {
        let curve = Curve { start: [start, 0], control: [control, 0], end: [end, 0] };
        let k = Spec.halvings(curve);
        let found = Spec.chord_ends(curve, k);
        let n = 1i128 << k;
        assert_eq!(found.len() as i128, n + 1);
        for (i, [x, y]) in found.into_iter().enumerate() {
            let (i, x) = (i as i128, i128::from(x));
            // The point, times n × n, by Bernstein's form.
            let point =
                (n - i).pow(2) * i128::from(start) + 2 * i * (n - i) * i128::from(control) + i.pow(2) * i128::from(end);
            let twice_off = 2 * (x * n * n - point);
            assert!(-n * n < twice_off && twice_off <= n * n, "{curve:?}, end {i} of {n}: {x}");
            assert_eq!(y, 0);
            ends += 1;
            if twice_off == n * n {
                halves[(x % 2) as usize] += 1;
            }
        }
    };
    for start in 0..=24 {
        for control in 0..=24 {
            for end in 0..=24 {
                check(start, control, end);
            }
        }
    }
    let mut random = Random(63);
    for _ in 0..3000 {
        check(random.below(32_769), random.below(32_769), random.below(32_769));
    }
    assert!(halves.iter().all(|&halves| halves > 2000) && ends > 100_000, "{halves:?} halves of {ends} ends");
}

/// The table of curves is that of building their chords as straight edges, on tiles
/// and on sheets, and it is refused with 5 just where the chords are too many.
#[test]
fn curves_are_their_chords() {
    let mut random = Random(64);
    let (mut accepted, mut refused) = (0, 0);
    for _ in 0..500 {
        let (site, reach) = random.site();
        let outline = random.curved_outline_of(reach);
        let (points, counts) = chords(&Spec, outline.curves(), &outline.counts);
        let found = outline.built(&Spec, site, Placement::None);
        if counts.iter().sum::<u32>() > 1024 {
            assert_eq!(found, Err(5));
            refused += 1;
            continue;
        }
        let plain = match site {
            Site::Alone(side) => build(&Spec, side, &points, &counts, &noughts(site)),
            Site::OnSheet(place) => build_on_sheet(&Spec, place, &points, &counts, Placement::None, &noughts(site)),
        };
        assert_eq!(found, plain);
        accepted += 1;
    }
    assert!(accepted > 300 && refused > 20, "{accepted} and {refused}");
}

/// Demand 3 of the chords: "edge counts and closeness are then those of the chords."
#[test]
fn what_is_drawn_is_near_the_chords() {
    let mut random = Random(65);
    let mut cells = 0;
    for _ in 0..60 {
        let (site, reach) = random.site();
        let outline = random.curved_outline_of(reach);
        let Ok((edges, table)) = outline.built(&Spec, site, Placement::None) else {
            continue;
        };
        let (points, counts) = chords(&Spec, outline.curves(), &outline.counts);
        assert_eq!(edges, counts.iter().sum::<u32>());
        let side = site.side();
        for level in 0..=side.trailing_zeros().min(4) {
            let (figures, greys) = drawn(side, level, &table);
            let exact = match site {
                Site::Alone(_) => exact_areas(side, &points, &counts, level),
                Site::OnSheet(place) => exact_areas_on_sheet(place, &points, &counts, level),
            };
            for ((area, &figure), grey) in exact.iter().zip(&figures).zip(greys) {
                let miss = area.miss(figure, level);
                assert!(match site {
                    Site::Alone(_) => miss.within(level, edges),
                    Site::OnSheet(_) => miss.within_on_sheet(level, edges),
                });
                assert!(area.grey(side, level).abs_diff(grey) <= 1);
                cells += 1;
            }
        }
    }
    assert!(cells > 2000, "{cells}");
}

/// A contour's edges as marked, each with its start and its control point.
fn pieces(points: &[i64], marks: &[u8]) -> Vec<(Vec<i64>, Vec<i64>)> {
    let mut rest = points;
    let mut pieces = Vec::new();
    for &mark in marks {
        let (start, after) = rest.split_at(2);
        let (control, after) = after.split_at(2 * usize::from(mark));
        pieces.push((start.to_vec(), control.to_vec()));
        rest = after;
    }
    pieces
}

fn of_pieces(pieces: &[(Vec<i64>, Vec<i64>)]) -> Curved {
    let points = pieces.iter().flat_map(|(start, control)| [&start[..], control].concat()).collect();
    let marks: Vec<u8> = pieces.iter().map(|(_, control)| control.len() as u8 / 2).collect();
    Curved { points, counts: vec![marks.len() as u32], marks }
}

/// A contour begun elsewhere has the same table, and one run the other way the
/// opposite one: the points of a curve are the same from both its ends.
#[test]
fn begun_anywhere_and_either_way() {
    let mut random = Random(66);
    let mut compared = 0;
    for _ in 0..200 {
        let (site, reach) = random.site();
        let outline = random.curved_outline_of(reach);
        let count = outline.counts[0] as usize;
        let mut edges = pieces(&outline.points, &outline.marks[..count]);
        let first = of_pieces(&edges);
        let Ok((chords, table)) = first.built(&Spec, site, Placement::None) else {
            continue;
        };
        edges.rotate_left(random.below(count as i64) as usize);
        assert_eq!(of_pieces(&edges).built(&Spec, site, Placement::None), Ok((chords, table.clone())));
        // The starts backwards, each with the control point of the edge that ends there.
        let turned: Vec<_> = (0..count).rev().map(|i| (edges[(i + 1) % count].0.clone(), edges[i].1.clone())).collect();
        let opposite: Vec<i64> = table.iter().map(|entry| -entry).collect();
        assert_eq!(of_pieces(&turned).built(&Spec, site, Placement::None), Ok((chords, opposite)));
        compared += 1;
    }
    assert!(compared > 150, "{compared}");
}

/// A contour that is in a tile: its points, its marks if it has any, and its edges in
/// the record.
type Contour = (Vec<i64>, Option<Vec<u8>>);

/// After any series of contours with and without marks, put in and taken out, table
/// and count are those of building what remains.
#[test]
fn series_of_curves_and_straight_contours() {
    let mut random = Random(67);
    let (mut corrected, mut full) = ([0; 4], 0);
    for number in 0..120 {
        let (site, reach) = random.site();
        let (mut record, mut table) = (0, noughts(site));
        let mut contours: Vec<Contour> = Vec::new();
        for _ in 0..random.below(20) {
            let out = random.below(3) == 0 && !contours.is_empty();
            let contour = if out {
                contours.swap_remove(random.below(contours.len() as i64) as usize)
            } else if random.below(2) == 0 {
                let outline = random.curved_outline_of(reach);
                let edges = pieces(&outline.points, &outline.marks[..outline.counts[0] as usize]);
                let outline = of_pieces(&edges);
                (outline.points, Some(outline.marks))
            } else {
                let outline = random.outline_of(reach);
                (outline.points[..2 * outline.counts[0] as usize].to_vec(), None)
            };
            let correction = if out { TakeOut } else { PutIn };
            let call = match &contour {
                (points, Some(marks)) => Call::marked(correction, site, points, marks, record, &table),
                (points, None) => match site {
                    Site::Alone(side) => Call::of(correction, side, points, record, &table),
                    Site::OnSheet(place) => Call::on_sheet(correction, place, points, record, &table),
                },
            };
            let (answer, left, after) = call.outcome(&Spec);
            if answer == Err(5) && !out {
                full += 1;
                continue;
            }
            assert_eq!(answer, Ok(()), "series {number}");
            (record, table) = (left, after);
            corrected[2 * usize::from(contour.1.is_some()) + usize::from(out)] += 1;
            if !out {
                contours.push(contour);
            }
        }
        // What remains, in another order, the straight ones with marks of 0.
        contours.reverse();
        let marks: Vec<Vec<u8>> =
            contours.iter().map(|(points, marks)| marks.clone().unwrap_or(vec![0; points.len() / 2])).collect();
        let rest = Curved {
            points: contours.iter().flat_map(|(points, _)| points.clone()).collect(),
            counts: marks.iter().map(|marks| marks.len() as u32).collect(),
            marks: marks.concat(),
        };
        assert_eq!(rest.built(&Spec, site, Placement::None), Ok((record, table)), "series {number}");
    }
    assert!(corrected.iter().all(|&contours| contours > 50) && full > 20, "{corrected:?}, {full} refused");
}

/// Placed curves are those of the points as placed.
#[test]
fn placed_curves() {
    let mut random = Random(68);
    let mut accepted = 0;
    for _ in 0..200 {
        // These stay on the tile of side 4 whatever the placement.
        let mut outline = random.curved_outline_of(1);
        outline.points.iter_mut().for_each(|c| *c += 300);
        let placement = random.placement();
        let there = Curved { points: placed(&Spec, placement, &outline.points), ..outline.clone() };
        let found = outline.built(&Spec, Site::Alone(4), placement);
        assert_eq!(found, there.built(&Spec, Site::Alone(4), Placement::None), "{placement:?}");
        accepted += u32::from(found.is_ok());
    }
    assert_eq!(accepted, 200);
}

/// On a sheet that is one tile, as without a sheet.
#[test]
fn a_sheet_of_one_tile() {
    let mut random = Random(69);
    for (sheet, side) in sheet_sides().into_iter().filter(|(sheet, side)| sheet == side) {
        for _ in 0..20 {
            let outline = random.curved_outline_of(sheet);
            let on_sheet = outline.built(&Spec, Site::OnSheet(at(sheet, side, 0, 0)), Placement::None);
            assert_eq!(on_sheet, outline.built(&Spec, Site::Alone(side), Placement::None));
        }
    }
}

//! Each wrong variant of curves is wrong where its one rule reaches, and nowhere
//! else. All expected values are worked by hand.

mod common;

use common::{Call, Curved, Outcome, Random};
use reference::wrong::{self, *};
use reference::Correction::{PutIn, TakeOut};
use reference::{build_curves, build_on_sheet, build_placed, chords, figures};
use reference::{Curve, Curves, Placement, Rules, SheetTile, Site, Spec};

/// A curve from corner to corner of a pixel, of 8 chords, and two straight edges.
const SHELL: [i64; 8] = [0, 0, 256, 0, 256, 256, 0, 256];
const SHELL_MARKS: [u8; 3] = [1, 0, 0];

/// A curve on a tile of two pixels that becomes 16 chords.
const LOOP: [i64; 4] = [0, 0, 512, 512];

/// A float that question 12 refuses.
const BAD: Placement = Placement::Scale(f64::NAN);

/// The largest entry that question 9 lets pass.
const LARGEST: i64 = 1 << 40;

/// The starts of the chords of one contour by some rules.
fn starts(rules: &dyn Rules, points: &[i64], marks: &[u8]) -> Vec<i64> {
    chords(rules, Curves { points, marks }, &[marks.len() as u32]).0
}

/// k of the curve whose coordinates have these second differences, from 0 on.
fn k(rules: &dyn Rules, x: i64, y: i64) -> u32 {
    rules.halvings(Curve { start: [0, 0], control: [0, 0], end: [x, y] })
}

/// k by the papers' rules and by another's.
fn both_k(rules: &dyn Rules, x: i64, y: i64) -> [u32; 2] {
    [k(&Spec, x, y), k(rules, x, y)]
}

/// Building on a tile of two pixels: the edge count, or the number of the refusal.
fn edges(rules: &dyn Rules, points: &[i64], counts: &[u32], marks: &[u8], placement: Placement) -> Result<u32, u8> {
    let curves = Curves { points, marks };
    build_curves(rules, Site::Alone(2), curves, counts, placement, &[7; 4]).map(|(edges, _)| edges)
}

/// What building answers by the papers' rules and by another's, of an outline that is
/// not moved.
fn both(rules: &dyn Rules, points: &[i64], counts: &[u32], marks: &[u8]) -> [Result<u32, u8>; 2] {
    [&Spec, rules].map(|rules| edges(rules, points, counts, marks, Placement::None))
}

/// Loops, and then these numbers.
fn loops(count: usize, then: &[i64]) -> Vec<i64> {
    [&LOOP.repeat(count), then].concat()
}

/// The answers of a correction by the papers' rules and by another's.
fn answers(rules: &dyn Rules, call: &Call) -> [Result<(), u8>; 2] {
    [call.outcome(&Spec).0, call.outcome(rules).0]
}

#[test]
fn other_numbers_of_halvings() {
    assert_eq!(both_k(&OneHalvingLess, 17, 0), [2, 1]);
    assert_eq!(both_k(&OneHalvingLess, 4, 4), [0, 0]);
    assert_eq!(both_k(&OneHalvingMore, 17, 0), [2, 3]);
    assert_eq!(both_k(&OneHalvingMore, 4, 4), [0, 1]);
    assert_eq!(both_k(&OneHalvingMore, 32_768, 0), [7, 7]);
    assert_eq!(both_k(&SixHalvings, 32_768, 0), [7, 6]);
    assert_eq!(both_k(&SixHalvings, 16_384, 0), [6, 6]);
    assert_eq!(both_k(&SixHalvings, 16_385, 0), [7, 6]);
    // What is drawn: 128 chords and two edges on the largest sheet.
    let place = SheetTile { sheet: 128, side: 1, column: 0, row: 0 };
    let most = |rules: &dyn Rules| {
        let curves = Curves { points: &[0, 0, 32_768, 0, 0, 0, 0, 0], marks: &[1, 0, 0] };
        build_curves(rules, Site::OnSheet(place), curves, &[3], Placement::None, &[0]).map(|(edges, _)| edges)
    };
    assert_eq!([most(&Spec), most(&SixHalvings), most(&OneHalvingLess)], [Ok(130), Ok(66), Ok(66)]);
}

#[test]
fn other_ways_to_be_flat() {
    for (rules, x, y, expected) in [
        (&FlatInX as &dyn Rules, 5, 300, [4, 1]),
        (&FlatInX, 300, 5, [4, 4]),
        (&FlatInY, 5, 300, [4, 4]),
        (&FlatInY, 300, 5, [4, 1]),
        (&FlatInEither, 5, 300, [4, 1]),
        (&FlatInEither, 300, 5, [4, 1]),
        (&FlatInEither, 300, 300, [4, 4]),
        (&FlatInSum, 4, 1, [0, 1]),
        (&FlatInSum, 3, 1, [0, 0]),
        (&FlatInLength, 4, 1, [0, 1]),
        (&FlatInLength, 3, 1, [0, 0]),
        (&FlatInLength, 13, 13, [1, 2]),
        (&LimitNotFlat, 4, 0, [0, 1]),
        (&LimitNotFlat, 3, 3, [0, 0]),
        (&LimitNotFlat, 0, 16_384, [6, 7]),
        (&LimitDoubled, 5, 0, [1, 1]),
        (&LimitDoubled, 9, 0, [1, 2]),
        (&LimitDoubled, 300, 300, [4, 7]),
        (&LimitDoubled, 4, 4, [0, 0]),
    ] {
        assert_eq!(both_k(rules, x, y), expected, "{x}, {y}");
    }
    // Numbers far off the tile make none of them panic.
    for (_, rules) in wrong::of_curve() {
        let far = Curve { start: [i64::MIN; 2], control: [i64::MAX; 2], end: [i64::MIN; 2] };
        assert!(rules.chord_ends(far, rules.halvings(far)).len() >= 65);
    }
}

#[test]
fn other_chord_ends() {
    let ends = |rules: &dyn Rules, points: &[i64]| starts(rules, points, &[1, 0, 0]);
    // At the middle 1 1/2 and 3, 2 1/2 and 2 3/4.
    let (first, second) = ([0, 0, 0, 6, 6, 0, 6, 6], [0, 10, 0, 0, 10, 1, 6, 6]);
    let expected = |x, y| [0, 0, x, y, 6, 0, 6, 6];
    assert_eq!(ends(&Spec, &first), expected(2, 3));
    assert_eq!(ends(&ChordHalvesSmaller, &first), expected(1, 3));
    assert_eq!(ends(&ChordHalvesEven, &first), expected(2, 3));
    assert_eq!(ends(&ChordEndsCut, &first), expected(1, 3));
    // The control point itself.
    assert_eq!(ends(&OnControlPolygon, &first), expected(0, 6));
    let expected = |x, y| [0, 10, x, y, 10, 1, 6, 6];
    assert_eq!(ends(&Spec, &second), expected(3, 3));
    assert_eq!(ends(&ChordHalvesSmaller, &second), expected(2, 3));
    assert_eq!(ends(&ChordHalvesEven, &second), expected(2, 3));
    assert_eq!(ends(&ChordEndsCut, &second), expected(2, 2));
    assert_eq!(ends(&OnControlPolygon, &second), expected(0, 0));
    // A quarter and three quarters of the way along two lines.
    let four = [0, 0, 0, 16, 32, 0, 6, 6];
    assert_eq!(ends(&Spec, &four), [0, 0, 2, 6, 8, 8, 18, 6, 32, 0, 6, 6]);
    assert_eq!(ends(&OnControlPolygon, &four), [0, 0, 0, 8, 0, 16, 16, 8, 32, 0, 6, 6]);
    // x is 0, 1 and 0: 1/2 at the middle, which is 1. By halving, the two middles are
    // 1 and 1, and theirs is 1. With y it is four chords, and x a quarter of the way is
    // 3/8, which is 0; by halving it is the middle of 0 and 1, which is 1.
    let rounded = [0, 0, 1, 0, 0, 17, 6, 6];
    assert_eq!(ends(&Spec, &rounded), [0, 0, 0, 1, 1, 4, 0, 10, 0, 17, 6, 6]);
    assert_eq!(ends(&RoundedHalving, &rounded)[..4], [0, 0, 1, 2]);
    // Where nothing is rounded, they are the same.
    assert_eq!(ends(&RoundedHalving, &SHELL), ends(&Spec, &SHELL));
}

#[test]
fn chords_left_out() {
    // The root is the signed area: without the last of 8 chords, 256 × 7 × 8 less.
    let root = |rules: &dyn Rules, points: &[i64], marks: &[u8]| {
        build_curves(rules, Site::Alone(1), Curves { points, marks }, &[3], Placement::None, &[7]).unwrap()
    };
    let area = 108_544;
    assert_eq!(root(&Spec, &SHELL, &SHELL_MARKS), (10, vec![area]));
    assert_eq!(root(&LastChordLeftOut, &SHELL, &SHELL_MARKS), (9, vec![area - 256 * 7 * 8]));
    // The diagonal in place of the curve, or in place of a curve that closes.
    assert_eq!(root(&CurvesStraight, &SHELL, &SHELL_MARKS), (3, vec![65_536]));
    assert_eq!(root(&ClosingCurveStraight, &SHELL, &SHELL_MARKS), (10, vec![area]));
    let closing = [256, 256, 0, 256, 0, 0, 256, 0];
    assert_eq!(root(&Spec, &closing, &[0, 0, 1]), (10, vec![area]));
    assert_eq!(root(&ClosingCurveStraight, &closing, &[0, 0, 1]), (3, vec![65_536]));
    // A straight edge has no chord that could be left out.
    assert_eq!(root(&LastChordLeftOut, &SHELL[2..], &[0; 3]), root(&Spec, &SHELL[2..], &[0; 3]));
}

#[test]
fn control_points_placed_otherwise() {
    let moved = |rules: &dyn Rules, points: &[i64], placement| {
        build_curves(rules, Site::Alone(1), Curves { points, marks: &SHELL_MARKS }, &[3], placement, &[7])
    };
    // Some steps to the right: the control point alone is left behind, so that the
    // chords are as many but others.
    let step = Placement::Shift(20.0, 0.0);
    let near = SHELL.map(|c| c / 2);
    let right = moved(&Spec, &near, step).unwrap();
    let left_behind = moved(&ControlNotPlaced, &near, step).unwrap();
    assert_eq!((right.0, left_behind.0), (10, 10));
    assert_eq!(right.1, [108_544 / 4]);
    assert_ne!(left_behind.1, right.1);
    assert_eq!(moved(&ControlNotPlaced, &near, Placement::None), moved(&Spec, &near, Placement::None));
    assert_eq!(moved(&ChordsFirst, &near, step), Ok(right));
    // By a half: −14 in place of −26, so that there are two chords and not four.
    let half = Placement::Scale(0.5);
    let small = [0, 0, 13, 0, 0, 0, 0, 8];
    let count = |rules: &dyn Rules| moved(rules, &small, half).map(|(edges, _)| edges);
    assert_eq!([count(&Spec), count(&ChordsFirst), count(&ControlNotPlaced)], [Ok(4), Ok(6), Ok(6)]);
    // Where nothing is moved, there is nothing to come first.
    assert_eq!(moved(&ChordsFirst, &small, Placement::None), moved(&Spec, &small, Placement::None));
}

#[test]
fn other_numbers_of_an_edge() {
    // The control point (0, 0), and the start (256, 0): the curve ends where it did.
    assert_eq!(starts(&Spec, &SHELL, &SHELL_MARKS)[..4], [0, 0, 60, 4]);
    assert_eq!(starts(&ControlFirst, &[0, 6, 0, 0, 6, 0, 6, 6], &SHELL_MARKS), [0, 0, 2, 3, 6, 0, 6, 6]);
    assert_ne!(starts(&ControlFirst, &SHELL, &SHELL_MARKS), starts(&Spec, &SHELL, &SHELL_MARKS));
    assert_eq!(both(&FourNumbers, &SHELL, &[3], &SHELL_MARKS), [Ok(10), Err(3)]);
    assert_eq!(both(&FourNumbers, &[0; 12], &[3], &SHELL_MARKS), [Err(3), Ok(3)]);
    assert_eq!(both(&FourNumbers, &[0; 12], &[3], &[1; 3]), [Ok(3), Ok(3)]);
    assert_eq!(starts(&FourNumbers, &[1, 2, 9, 9, 3, 4, 9, 9, 5, 6, 9, 9], &[0; 3]), [1, 2, 3, 4, 5, 6]);
    // The second contour has the marks of the first.
    let two = [0, 0, 0, 1, 0, 2, 5, 0, 6, 0, 7, 0, 8, 0];
    assert_eq!(both(&MarksFromFirst, &two, &[3, 3], &[0, 0, 0, 1, 0, 0]), [Ok(6), Err(3)]);
    assert_eq!(both(&MarksFromFirst, &two[..12], &[3, 3], &[0, 0, 0, 1, 0, 0]), [Err(3), Ok(6)]);
    let other = |rules: &dyn Rules| {
        chords(rules, Curves { points: &[&two[..], &[9, 0]].concat(), marks: &[1, 0, 0, 0, 0, 1] }, &[3, 3])
    };
    assert_eq!(other(&Spec).0, [0, 0, 0, 2, 5, 0, 6, 0, 7, 0, 8, 0]);
    assert_eq!(other(&MarksFromFirst).0, [0, 0, 0, 2, 5, 0, 6, 0, 8, 0, 9, 0]);
    assert_eq!(both(&MarksFromFirst, &two, &[3, 3], &[1, 0, 0, 1, 0, 0]), [Err(3), Err(3)]);
}

#[test]
fn other_marks() {
    assert_eq!(both(&MarkTwoCurved, &SHELL, &[3], &[2, 0, 0]), [Err(16), Ok(10)]);
    assert_eq!(both(&MarkTwoCurved, &SHELL, &[3], &[3, 0, 0]), [Err(16), Err(16)]);
    assert_eq!(both(&MarkTwoCurved, &SHELL[..6], &[3], &[2, 0, 0]), [Err(16), Err(3)]);
    assert_eq!(both(&MarksPastOneStraight, &SHELL[..6], &[3], &[2, 0, 255]), [Err(16), Ok(3)]);
    assert_eq!(both(&MarksPastOneStraight, &SHELL, &[3], &[2, 0, 0]), [Err(16), Err(3)]);
    assert_eq!(both(&MarksPastOneStraight, &SHELL, &[3], &SHELL_MARKS), [Ok(10), Ok(10)]);
    assert_eq!(both(&MoreMarks, &SHELL, &[3], &[1, 0, 0, 0]), [Err(16), Ok(10)]);
    assert_eq!(both(&MoreMarks, &SHELL, &[3], &[1, 0]), [Err(16), Err(16)]);
    assert_eq!(both(&MoreMarks, &SHELL, &[3], &[1, 0, 0, 2]), [Err(16), Err(16)]);
    assert_eq!(both(&FewerMarks, &SHELL, &[3], &[1, 0]), [Err(16), Ok(10)]);
    assert_eq!(both(&FewerMarks, &SHELL, &[3], &[1]), [Err(16), Ok(10)]);
    assert_eq!(both(&FewerMarks, &SHELL, &[3], &[1, 0, 0, 0]), [Err(16), Err(16)]);
    assert_eq!(both(&FewerMarks, &SHELL[..6], &[3], &[]), [Err(16), Ok(3)]);
}

#[test]
fn question_16_asked_elsewhere() {
    // 16 and 3 at once, and each alone.
    assert_eq!(both(&MarksAfterPointsLength, &SHELL[..5], &[3], &[2, 0, 0]), [Err(16), Err(3)]);
    assert_eq!(both(&MarksAfterPointsLength, &SHELL[..6], &[3], &[2, 0, 0]), [Err(16), Err(16)]);
    assert_eq!(both(&MarksAfterPointsLength, &SHELL[..5], &[3], &[0; 3]), [Err(3), Err(3)]);
    // 4 and 16 at once, and each alone.
    assert_eq!(both(&MarksBeforeCounts, &SHELL, &[2], &[2, 0]), [Err(4), Err(16)]);
    assert_eq!(both(&MarksBeforeCounts, &SHELL, &[2], &[1, 0]), [Err(4), Err(4)]);
    assert_eq!(both(&MarksBeforeCounts, &SHELL, &[3], &[2, 0, 0]), [Err(16), Err(16)]);
    for correction in [PutIn, TakeOut] {
        let call = |marks: &[u8], count| {
            let call = Call::marked(correction, Site::Alone(1), &SHELL[..5], marks, 3, &[7]);
            Call { count, ..call }
        };
        assert_eq!(answers(&MarksAfterPointsLength, &call(&[2, 0, 0], 3)), [Err(16), Err(3)]);
        assert_eq!(answers(&MarksBeforeCounts, &call(&[2, 0, 0], 2)), [Err(4), Err(16)]);
        assert_eq!(answers(&MarksBeforeCounts, &call(&[0, 0, 0], 2)), [Err(4), Err(16)]);
    }
}

#[test]
fn question_5_asked_elsewhere() {
    let marks = [1; 65];
    // 65 loops have 1,040 chords. With a number too many; with a control point off the
    // tile; with one that may not be moved. And fewer loops with the same.
    let (stray, off, far) = ([0, 0, 512, 512, 0], [0, 0, -1, 512], [0, 0, -40_000, 512]);
    let all = |rules: &dyn Rules, count: usize| {
        let marks = &marks[..count + 1];
        let ask = |last: &[i64], placement| {
            [&Spec, rules].map(|rules| edges(rules, &loops(count, last), &[count as u32 + 1], marks, placement))
        };
        [ask(&stray, Placement::None), ask(&off, Placement::None), ask(&far, Placement::Scale(1.0))]
    };
    let (three, six, twelve) = ([Err(3), Err(3)], [Err(6), Err(6)], [Err(12), Err(12)]);
    assert_eq!(all(&ChordsBeforePointsLength, 64), [[Err(3), Err(5)], [Err(6), Err(5)], [Err(12), Err(5)]]);
    assert_eq!(all(&ChordsBeforePlacing, 64), [three, [Err(6), Err(5)], [Err(12), Err(5)]]);
    assert_eq!(all(&ChordsBeforeCoordinates, 64), [three, [Err(6), Err(5)], twelve]);
    for rules in [&ChordsBeforePointsLength as &dyn Rules, &ChordsBeforePlacing, &ChordsBeforeCoordinates] {
        assert_eq!(all(rules, 50), [three, six, twelve]);
        assert_eq!(both(rules, &loops(65, &[]), &[65], &marks), [Err(5), Err(5)]);
        assert_eq!(both(rules, &loops(64, &[]), &[64], &marks[..64]), [Ok(1024), Ok(1024)]);
    }
    // With a record that is too small, and with an entry out of range.
    let call = |correction, count: usize, record, entry| {
        Call::marked(correction, Site::Alone(2), &LOOP.repeat(count), &marks[..count], record, &[entry, 0, 0, 0])
    };
    let rules = &ChordsAfterRecorded;
    assert_eq!(answers(rules, &call(TakeOut, 65, 3, 0)), [Err(5), Err(13)]);
    assert_eq!(answers(rules, &call(TakeOut, 65, 2000, 0)), [Err(5), Err(5)]);
    assert_eq!(answers(rules, &call(TakeOut, 64, 3, 0)), [Err(13), Err(13)]);
    assert_eq!(answers(rules, &call(PutIn, 65, 3, 0)), [Err(5), Err(5)]);
    let rules = &ChordsAfterEntries;
    assert_eq!(answers(rules, &call(TakeOut, 65, 2000, LARGEST + 1)), [Err(5), Err(9)]);
    assert_eq!(answers(rules, &call(PutIn, 65, 0, LARGEST + 1)), [Err(5), Err(9)]);
    assert_eq!(answers(rules, &call(PutIn, 65, 0, 0)), [Err(5), Err(5)]);
    assert_eq!(answers(rules, &call(PutIn, 64, 0, LARGEST + 1)), [Err(9), Err(9)]);
    let rules = &ChordsNotAskedTaking;
    assert_eq!(answers(rules, &call(TakeOut, 65, 2000, 0)), [Err(5), Ok(())]);
    assert_eq!(answers(rules, &call(TakeOut, 65, 3, 0)), [Err(5), Err(13)]);
    assert_eq!(answers(rules, &call(PutIn, 65, 3, 0)), [Err(5), Err(5)]);
    assert_eq!(answers(rules, &call(TakeOut, 64, 1024, 0)), [Ok(()), Ok(())]);
}

#[test]
fn edges_counted_as_marked() {
    let marks = [1; 65];
    assert_eq!(both(&MarkedSummed, &loops(65, &[]), &[65], &marks), [Err(5), Ok(1040)]);
    assert_eq!(both(&MarkedSummed, &[0; 4100], &[1022, 3], &[1; 1025]), [Err(5), Err(5)]);
    assert_eq!(both(&MarkedAnswered, &loops(64, &[]), &[64], &marks[..64]), [Ok(1024), Ok(64)]);
    assert_eq!(both(&MarkedAnswered, &loops(65, &[]), &[65], &marks), [Err(5), Err(5)]);
    let call = |correction, record| Call::marked(correction, Site::Alone(1), &SHELL, &SHELL_MARKS, record, &[7]);
    // 10 chords, of 3 edges.
    assert_eq!(answers(&MarkedSummed, &call(PutIn, 1014)), [Ok(()), Ok(())]);
    assert_eq!(answers(&MarkedSummed, &call(PutIn, 1015)), [Err(5), Ok(())]);
    assert_eq!(answers(&MarkedSummed, &call(PutIn, 1022)), [Err(5), Err(5)]);
    assert_eq!(answers(&MarkedTaken, &call(TakeOut, 9)), [Err(13), Ok(())]);
    assert_eq!(answers(&MarkedTaken, &call(TakeOut, 3)), [Err(13), Ok(())]);
    assert_eq!(answers(&MarkedTaken, &call(TakeOut, 2)), [Err(13), Err(13)]);
    assert_eq!(answers(&MarkedTaken, &call(TakeOut, 10)), [Ok(()), Ok(())]);
    for (correction, record, expected) in [(PutIn, 100, [110, 103]), (TakeOut, 100, [90, 97])] {
        let call = call(correction, record);
        assert_eq!([call.outcome(&Spec).1, call.outcome(&MarkedRecorded).1], expected);
        assert_eq!(call.outcome(&Spec).2, call.outcome(&MarkedRecorded).2);
    }
}

#[test]
fn questions_without_control_points() {
    let with = |control: i64| [0, 0, control, 0, 256, 256, 0, 256];
    // 513 is off the tile of two pixels, and becomes 16 chords.
    assert_eq!(both(&ControlsNotJudged, &with(513), &[3], &SHELL_MARKS), [Err(6), Ok(18)]);
    assert_eq!(both(&ControlsNotJudged, &with(512), &[3], &SHELL_MARKS), [Ok(18), Ok(18)]);
    assert_eq!(both(&ControlsNotJudged, &with(i64::MAX), &[3], &SHELL_MARKS), [Err(6), Ok(130)]);
    let start_off = [513, 0, 0, 0, 256, 256, 0, 256];
    assert_eq!(both(&ControlsNotJudged, &start_off, &[3], &SHELL_MARKS), [Err(6), Err(6)]);
    // By a turn that has no x, all is on the tile.
    let flat = Placement::Turn([0.0, 1.0, 0.0, 0.0, 1.0, 0.0]);
    let moved = |points: &[i64]| {
        [&Spec as &dyn Rules, &ControlsMovedFromAnywhere].map(|rules| edges(rules, points, &[3], &SHELL_MARKS, flat))
    };
    // (0, 0), (0, 0) and (256, 256), which become 8 chords.
    assert_eq!(moved(&with(32_767)), [Ok(10), Ok(10)]);
    assert_eq!(moved(&with(32_768)), [Err(12), Ok(10)]);
    assert_eq!(moved(&with(-32_769)), [Err(12), Ok(10)]);
    let start_far = [32_768, 0, 0, 0, 256, 256, 0, 256];
    assert_eq!(moved(&start_far), [Err(12), Err(12)]);
}

#[test]
fn every_name_is_given_once() {
    let lists = [
        wrong::all(),
        wrong::of_placement(),
        wrong::of_correction(),
        wrong::of_magnitude(),
        wrong::of_sheet(),
        wrong::of_curve(),
    ];
    let mut names: Vec<&str> = lists.iter().flatten().map(|(name, _)| *name).collect();
    let length = names.len();
    names.sort();
    names.dedup();
    assert_eq!(names.len(), length);
}

/// A random call with marks, most of them with one fault or with none.
fn random_call(random: &mut Random) -> Call {
    let correction = [PutIn, TakeOut][random.below(2) as usize];
    // These stay on the tile of side 4 whatever the placement.
    let Curved { mut points, counts, mut marks } = random.curved_outline_of(1);
    let count = counts[0] as usize;
    marks.truncate(count);
    points.truncate(2 * (count + marks.iter().filter(|&&mark| mark == 1).count()));
    points.iter_mut().for_each(|c| *c += 300);
    if random.below(4) == 0 {
        // Many chords.
        let more = random.below(70) as usize;
        points.extend([300, 300, 600, 600].repeat(more));
        marks.extend(vec![1; more]);
    }
    let table: Vec<i64> = (0..16).map(|_| random.below(1 << 20) - (1 << 19)).collect();
    let mut call = Call::marked(correction, Site::Alone(4), &points, &marks, 500, &table);
    if random.below(2) == 0 {
        call.placement = random.placement();
    }
    for _ in 0..random.below(3) {
        let (near, place) = (random.below(5) as usize, random.below(call.points.len() as i64) as usize);
        let marks = call.marks.as_mut().unwrap();
        match random.below(10) {
            0 => call.count = [0, 2, 3, 1024, 1025][near],
            1 => call.record = [0, 10, 1000, 1024, u32::MAX][near],
            2 => marks.push(0),
            3 => marks.truncate(near),
            4 => marks.iter_mut().skip(near).take(1).for_each(|mark| *mark = 2),
            5 => call.points.push(0),
            6 => {
                call.points.pop();
            }
            7 => call.placement = BAD,
            8 => call.points[place] = [-1, 1025, -40_000, 40_000, 0][near],
            _ => call.table[near] = LARGEST + 1,
        }
    }
    call
}

/// Each variant shows on random calls or on random outlines, and none of them panics.
#[test]
fn random_calls_tell_every_variant() {
    let mut random = Random(71);
    let calls: Vec<Call> = (0..1000).map(|_| random_call(&mut random)).collect();
    let outcomes: Vec<Outcome> = calls.iter().map(|call| call.outcome(&Spec)).collect();
    let mut outlines = Vec::new();
    for _ in 0..25 {
        let (site, reach) = random.site();
        outlines.push((random.curved_outline_of(reach), site));
    }
    let built = |rules: &dyn Rules, (outline, site): &(Curved, Site)| outline.built(rules, *site, Placement::None);
    let tables: Vec<_> = outlines.iter().map(|outline| built(&Spec, outline)).collect();
    for (name, rules) in wrong::of_curve() {
        let calls = calls.iter().zip(&outcomes).filter(|(call, outcome)| call.outcome(&*rules) != **outcome).count();
        let outlines = outlines.iter().zip(&tables).filter(|(outline, table)| built(&*rules, outline) != **table);
        let outlines = outlines.count();
        assert_ne!((calls, outlines), (0, 0), "{name}: neither a call of 1,000 nor an outline of 25");
        println!("{name}: {calls} calls of 1,000, {outlines} outlines of 25");
    }
}

/// The variants of 01, of P1, of P3, of P4 and of P5 that reach curves do not panic
/// there.
#[test]
fn other_variants_are_answered() {
    let lists = [wrong::all(), wrong::of_placement(), wrong::of_correction(), wrong::of_magnitude(), wrong::of_sheet()];
    for (_, rules) in lists.into_iter().flatten() {
        let mut random = Random(72);
        for _ in 0..100 {
            let _ = random_call(&mut random).outcome(&*rules);
        }
    }
}

/// Calls without marks cannot tell these variants.
#[test]
fn calls_without_marks_tell_none() {
    for (name, rules) in wrong::of_curve() {
        let mut random = Random(73);
        for _ in 0..20 {
            let outline = random.outline();
            let (side, points, held) = (outline.side, &outline.points, outline.noughts());
            let built =
                |rules: &dyn Rules, placement| build_placed(rules, side, points, &outline.counts, placement, &held);
            for placement in [Placement::None, Placement::Scale(0.5), BAD] {
                assert_eq!(built(&*rules, placement), built(&Spec, placement), "{name}");
            }
            let table = built(&Spec, Placement::None).unwrap().1;
            assert_eq!(figures(&*rules, side, 0, &table, 1), figures(&Spec, side, 0, &table, 1), "{name}");
            for (correction, record) in [(PutIn, 0), (PutIn, 1020), (TakeOut, 2), (TakeOut, 2000)] {
                let call = Call::of(correction, side, points, record, &table);
                assert_eq!(call.outcome(&*rules), call.outcome(&Spec), "{name}");
            }
            let place = random.sheet_tile();
            let outline = random.outline_of(place.sheet);
            let held = vec![0; (place.side * place.side) as usize];
            let built = |rules: &dyn Rules| {
                build_on_sheet(rules, place, &outline.points, &outline.counts, Placement::None, &held)
            };
            assert_eq!(built(&*rules), built(&Spec), "{name}");
        }
    }
}

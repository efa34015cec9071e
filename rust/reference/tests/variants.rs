//! Each wrong variant of 01's rules and of 02's P4 is wrong where the papers say
//! it would be, and nowhere that its one rule does not reach.

mod common;

use common::Random;
use reference::wrong::{self, *};
use reference::{build, cell, exact_areas, figures, greys, Rules, Spec};

const G: [i64; 6] = [255, 0, 259, 1, 255, 1];
const H: [i64; 6] = [255, 1, 259, 1, 255, 0];
const F: [i64; 6] = [0, 0, 384, 1, 0, 1];

fn table(rules: &dyn Rules, points: &[i64]) -> Vec<i64> {
    build(rules, 2, points, &[points.len() as u32 / 2], &[0; 4]).unwrap().1
}

/// The grey of a tile that is one cell.
fn grey(rules: &dyn Rules, figure: i64) -> u8 {
    greys(rules, 1, 0, &[figure], 1).unwrap()[0]
}

/// The figures and greys of level 1 of a table of side 2.
fn drawn(rules: &dyn Rules, table: &[i64]) -> (Vec<i64>, Vec<u8>) {
    (figures(rules, 2, 1, table, 4).unwrap(), greys(rules, 2, 1, table, 4).unwrap())
}

/// "Rounding halves upwards: G and H would no longer be opposites."
#[test]
fn halves_upwards() {
    let (g, h) = (table(&HalvesUpwards, &G), table(&HalvesUpwards, &H));
    assert!(g.iter().zip(&h).any(|(a, b)| *a != -b), "{g:?} {h:?}");
}

/// "Rounding a cell's sum once instead of each edge: G would not give h 0 by
/// 510 − 510."
#[test]
fn sum_rounded_once() {
    assert_eq!(table(&SumRoundedOnce, &G)[1], -1);
}

/// "Dividing by 4 at each level: figures stop adding up."
#[test]
fn dividing_each_level() {
    let table = table(&Spec, &F);
    let figures = figures(&DividingEachLevel, 2, 1, &table, 4).unwrap();
    assert_eq!(figures, [1364, 168, 0, 0]);
    assert_ne!(figures.iter().sum::<i64>(), 4 * table[0]);
}

/// "Taking h from x measured to the left side only: edges outside the cell
/// would count."
#[test]
fn left_side_only() {
    // A pixel in the upper right quarter has no h in the upper left one, the
    // first cell of level 1.
    let points = [768, 0, 1024, 0, 1024, 256, 768, 256];
    let table = |rules: &dyn Rules| build(rules, 4, &points, &[4], &[0; 16]).unwrap().1;
    assert_eq!(table(&Spec)[4], 0);
    assert_ne!(table(&LeftSideOnly)[4], 0);
}

/// "Holding figures at zero before the last level: the quarters of a cell
/// below zero come out too high."
#[test]
fn held_early() {
    let h = table(&Spec, &H);
    assert_eq!(figures(&Spec, 2, 1, &h, 4), Ok(vec![-8, -8, 0, 0]));
    assert_eq!(figures(&HeldEarly, 2, 1, &h, 4), Ok(vec![-4, -4, 4, 4]));
}

#[test]
fn turned_v() {
    assert_eq!(table(&TurnedV, &F), [384, 299, -384, 299]);
}

#[test]
fn no_closing_edge() {
    let square = [0, 256, 0, 0, 256, 0, 256, 256];
    assert_eq!(table(&Spec, &square)[0], 131_072);
    assert_eq!(table(&NoClosingEdge, &square)[0], 65_536);
}

#[test]
fn other_order() {
    let refused = |rules: &dyn Rules| build(rules, 1, &[], &[1024, 1024], &[0]);
    assert_eq!((refused(&Spec), refused(&OtherOrder)), (Err(5), Err(3)));
}

#[test]
fn one_edge_more() {
    let refused = |rules: &dyn Rules, last| build(rules, 1, &vec![0; 2 * (1000 + last as usize)], &[1000, last], &[0]);
    assert_eq!(refused(&Spec, 25), Err(5));
    assert_eq!(refused(&OneEdgeMore, 25), Ok((1025, vec![0])));
    assert_eq!(refused(&OneEdgeMore, 26), Err(5));
}

#[test]
fn one_unit_more() {
    let drawn = |rules: &dyn Rules, entry| figures(rules, 1, 0, &[entry], 1);
    assert_eq!(drawn(&Spec, (1 << 40) + 1), Err(9));
    assert_eq!(drawn(&OneUnitMore, (1 << 40) + 1), Ok(vec![(1 << 40) + 1]));
    assert_eq!(drawn(&OneUnitMore, (1 << 40) + 2), Err(9));
}

#[test]
fn entries_first() {
    let refused = |rules: &dyn Rules| cell(rules, 1, 0, 1, 0, &[i64::MAX]);
    assert_eq!((refused(&Spec), refused(&EntriesFirst)), (Err(10), Err(9)));
}

#[test]
fn grey_halves_down() {
    assert_eq!((grey(&Spec, 65_536), grey(&GreyHalvesDown, 65_536)), (128, 127));
    assert_eq!(grey(&GreyHalvesDown, 65_537), 128);
    assert_eq!([grey(&GreyHalvesDown, -65_536), grey(&GreyHalvesDown, -65_537)], [127, 128]);
}

/// 01's letters B and C reversed, whose greys 02 changes.
#[test]
fn below_zero_white() {
    assert_eq!((grey(&Spec, -131_072), grey(&BelowZeroWhite, -131_072)), (255, 0));
    assert_eq!((grey(&Spec, -65_536), grey(&BelowZeroWhite, -65_536)), (128, 0));
    assert_eq!((grey(&Spec, 65_536), grey(&BelowZeroWhite, 65_536)), (128, 128));
}

/// A cell of whole units has no half of a grey but one: 127 1/2.
#[test]
fn magnitude_of_rounded() {
    assert_eq!((grey(&Spec, -65_536), grey(&MagnitudeOfRounded, -65_536)), (128, 127));
    for figure in [-131_072, -65_537, -65_535, 0, 65_536] {
        assert_eq!(grey(&MagnitudeOfRounded, figure), grey(&Spec, figure), "figure {figure}");
    }
}

/// 1 is the grey from 257.004 units on.
#[test]
fn magnitude_one_short() {
    assert_eq!((grey(&Spec, -258), grey(&MagnitudeOneShort, -258)), (1, 0));
    for figure in [-259, -257, 0, 257, 258] {
        assert_eq!(grey(&MagnitudeOneShort, figure), grey(&Spec, figure), "figure {figure}");
    }
}

#[test]
fn magnitudes_drawn() {
    let h = table(&Spec, &H);
    assert_eq!(figures(&MagnitudesDrawn, 2, 1, &h, 4), Ok(vec![8, 8, 0, 0]));
    assert_eq!((cell(&Spec, 2, 1, 1, 0, &h), cell(&MagnitudesDrawn, 2, 1, 1, 0, &h)), (Ok(-8), Ok(8)));
    assert_eq!((table(&MagnitudesDrawn, &H), grey(&MagnitudesDrawn, -131_072)), (h, 255));
}

/// The quarters of a cell below zero come out too high, and their greys are
/// wrong: too pale where the ink is, and grey where there is none.
#[test]
fn magnitude_handed_on() {
    let h = table(&Spec, &H);
    assert_eq!(figures(&MagnitudeHandedOn, 2, 1, &h, 4), Ok(vec![0, 0, 8, 8]));
    assert_eq!((grey(&MagnitudeHandedOn, -131_072), table(&MagnitudeHandedOn, &H)), (255, h));
    // A pixel in the upper left, anticlockwise.
    let pixel = [-131_072; 4];
    assert_eq!(drawn(&Spec, &pixel), (vec![-524_288, 0, 0, 0], vec![255, 0, 0, 0]));
    assert_eq!(drawn(&MagnitudeHandedOn, &pixel), (vec![-262_144, 262_144, 262_144, 262_144], vec![128; 4]));
}

/// A pixel clockwise and half a pixel anticlockwise: both have ink, whichever
/// way the larger one goes.
#[test]
fn turned_by_root() {
    // The half lies in the upper right quarter, the pixel in the upper left.
    let table = [65_536, 196_608, 65_536, 196_608];
    let turned = table.map(|entry| -entry);
    assert_eq!(drawn(&Spec, &table), (vec![524_288, -262_144, 0, 0], vec![255, 128, 0, 0]));
    assert_eq!(drawn(&Spec, &turned), (vec![-524_288, 262_144, 0, 0], vec![255, 128, 0, 0]));
    for table in [table, turned] {
        assert_eq!(drawn(&TurnedByRoot, &table), (drawn(&Spec, &table).0, vec![255, 0, 0, 0]));
    }
    assert_eq!([grey(&TurnedByRoot, -131_072), grey(&TurnedByRoot, 131_072)], [255, 255]);
}

/// Holes of letters and letters of the second tool go the same way round.
#[test]
fn contours_turned() {
    let (h, g) = (table(&Spec, &H), table(&Spec, &G));
    assert_eq!((table(&ContoursTurned, &H), table(&ContoursTurned, &G)), (g.clone(), g));
    assert_eq!(h, [-4, 0, -4, 0]);
    // A tile of side 1 with a hole of half its area.
    let letter = [0, 0, 256, 0, 256, 256, 0, 256, 0, 256, 256, 256, 256, 128, 0, 128];
    let root = |rules: &dyn Rules| build(rules, 1, &letter, &[4, 4], &[0]).unwrap().1[0];
    assert_eq!((root(&Spec), root(&ContoursTurned)), (65_536, 196_608));
}

/// "Taken the same way": B's exact area has B's grey.
#[test]
fn exact_below_zero_white() {
    let b = exact_areas(1, &[0, 256, 256, 256, 256, 0, 0, 0], &[4], 0).remove(0);
    assert_eq!((Spec.exact_grey(&b, 1, 0), ExactBelowZeroWhite.exact_grey(&b, 1, 0)), (255, 0));
    let a = b.times(-1);
    assert_eq!((Spec.exact_grey(&a, 1, 0), ExactBelowZeroWhite.exact_grey(&a, 1, 0)), (255, 255));
    assert_eq!(grey(&ExactBelowZeroWhite, -131_072), 255);
}

/// Variants of rounding, building or drawing show on random outlines; those of
/// refusing do not, for these outlines are accepted. None of them panics.
#[test]
fn random_outlines_tell_most_variants() {
    let unseen = [
        "question 3 asked before question 5",
        "one edge too many accepted",
        "an entry one past the limit drawn",
        "a cell's entries asked for before its numbers",
    ];
    for (name, rules) in wrong::all().into_iter().chain(wrong::of_magnitude()) {
        let mut random = Random(9);
        let mut differ = 0;
        for _ in 0..60 {
            let side = 1 << random.below(5);
            let outline = random.outline_of(side);
            let noughts = outline.noughts();
            let all = |rules: &dyn Rules| {
                let level = outline.depth();
                let places = noughts.len();
                let table = build(rules, side, &outline.points, &outline.counts, &noughts).unwrap().1;
                let figures = figures(rules, side, level, &table, places).unwrap();
                let greys = greys(rules, side, level, &table, places).unwrap();
                let last = cell(rules, side, level, side - 1, side - 1, &table).unwrap();
                assert_eq!(last, figures[places - 1], "{name}");
                let areas = exact_areas(side, &outline.points, &outline.counts, level);
                let exact: Vec<u8> = areas.iter().map(|area| rules.exact_grey(area, side, level)).collect();
                (table, figures, greys, exact)
            };
            differ += usize::from(all(&*rules) != all(&Spec));
        }
        assert_eq!(differ == 0, unseen.contains(&name), "{name}: {differ} outlines of 60");
    }
}

/// The exact areas are 01's own and have no variants: each variant of building
/// that is not about rounding leaves its bound somewhere.
#[test]
fn bounds_are_left() {
    let expected =
        ["h to the left side only", "v's sign turned", "closing edge left out", "each contour turned clockwise"];
    for (name, rules) in wrong::all().into_iter().chain(wrong::of_magnitude()) {
        let expected = expected.contains(&name);
        let mut random = Random(10);
        let mut outside = 0;
        for _ in 0..60 {
            let outline = random.outline_of(4);
            let built = build(&*rules, 4, &outline.points, &outline.counts, &[0; 16]).unwrap();
            let figures = figures(&Spec, 4, 2, &built.1, 16).unwrap();
            let areas = exact_areas(4, &outline.points, &outline.counts, 2);
            let misses = areas.iter().zip(figures).map(|(area, figure)| area.miss(figure, 2));
            outside += misses.filter(|miss| !miss.within(2, outline.edges())).count();
        }
        assert_eq!(outside > 0, expected, "{name}: {outside} figures out of bounds");
    }
}

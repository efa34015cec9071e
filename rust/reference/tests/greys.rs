//! 02's P4: "from now on a grey is that of the figure's magnitude", and "no
//! figure and no table moves."

mod common;

use common::{drawn, Outline, Random};
use reference::{build, cell, exact_areas, Rules, Spec, PIXEL};

fn opposite(numbers: &[i64]) -> Vec<i64> {
    numbers.iter().map(|number| -number).collect()
}

/// Each grey begins at its first figure, and at minus that, on every side. The
/// only half of a grey that whole units make, 127 1/2, is the first of grey 128.
#[test]
fn every_step_either_way() {
    for side in [1, 2, 4, 8, 16, 32, 64] {
        let full = PIXEL * i64::from(side * side);
        for grey in 1..=255 {
            // The least figure with 255 × figure / full at or past grey − 1/2.
            let first = ((2 * grey - 1) * full + 509) / 510;
            assert!(510 * first >= (2 * grey - 1) * full && 510 * (first - 1) < (2 * grey - 1) * full);
            for sign in [1, -1] {
                let drawn = [first - 1, first, first + 1].map(|figure| i64::from(Spec.grey(sign * figure, side)));
                assert_eq!(drawn, [grey - 1, grey, grey], "side {side}, sign {sign}");
            }
        }
    }
}

/// There is a grey for every number of 64 bits; the least has no opposite.
#[test]
fn ends_of_64_bits() {
    for side in [1, 2, 4, 8, 16, 32, 64] {
        for figure in [i64::MIN, i64::MIN + 1, -(1 << 52), 1 << 52, i64::MAX - 1, i64::MAX] {
            assert_eq!(Spec.grey(figure, side), 255, "figure {figure} of side {side}");
        }
        for figure in [-1, 0, 1] {
            assert_eq!(Spec.grey(figure, side), 0, "figure {figure} of side {side}");
        }
    }
}

/// How many greys there are for which the two laws below say something: between
/// white and full, of figures below zero.
fn shades(figures: &[i64], greys: &[u8]) -> usize {
    figures.iter().zip(greys).filter(|(&figure, grey)| figure < 0 && (1..=254).contains(*grey)).count()
}

/// A table and its negation have the same greys at every level, and opposite
/// figures.
#[test]
fn negated_tables_look_alike() {
    let mut random = Random(31);
    let mut seen = 0;
    for _ in 0..300 {
        let side = 1u32 << random.below(7);
        // From entries that are all white to those that are all past full ink.
        let reach = 1i64 << (10 + random.below(31));
        let table: Vec<i64> = (0..side * side).map(|_| random.below(2 * reach + 1) - reach).collect();
        for level in 0..=side.trailing_zeros() {
            let (figures, greys) = drawn(side, level, &table);
            let turned = drawn(side, level, &opposite(&table));
            assert_eq!(turned, (opposite(&figures), greys.clone()), "side {side}, level {level}");
            seen += shades(&figures, &greys);
        }
    }
    assert!(seen > 1000, "only {seen} shades of figures below zero");
}

/// An outline and the same with each contour traced the other way, from any of
/// its points, have the same greys at every level, drawn and exact, and opposite
/// figures, in a picture and alone.
#[test]
fn reversed_outlines_look_alike() {
    let mut random = Random(32);
    let (mut seen, mut mixed) = (0, 0);
    for _ in 0..200 {
        let outline = random.outline();
        let reversed = outline.reversed().begun_anywhere(&mut random);
        let side = outline.side;
        let table =
            |outline: &Outline| build(&Spec, side, &outline.points, &outline.counts, &outline.noughts()).unwrap().1;
        let tables = [table(&outline), table(&reversed)];
        for level in 0..=outline.depth() {
            let (figures, greys) = drawn(side, level, &tables[0]);
            assert_eq!(drawn(side, level, &tables[1]), (opposite(&figures), greys.clone()), "{outline:?}");
            let last = (1 << level) - 1;
            let [one, other] = [0, 1].map(|i| cell(&Spec, side, level, last, last, &tables[i]).unwrap());
            assert_eq!(one, -other, "{outline:?}");
            let exact = |outline: &Outline| exact_areas(side, &outline.points, &outline.counts, level);
            for (one, other) in exact(&outline).iter().zip(exact(&reversed)) {
                assert_eq!(one, &other.times(-1), "{outline:?}");
                assert_eq!(one.grey(side, level), other.grey(side, level), "{outline:?}");
            }
            seen += shades(&figures, &greys);
            mixed += usize::from(figures.iter().any(|&f| f < 0) && figures.iter().any(|&f| f > 0));
        }
    }
    assert!(seen > 1000 && mixed > 50, "{seen} shades of figures below zero, {mixed} levels of both signs");
}

/// A letter with a hole, on a tile of side 4, traced as 01 says and by 02's
/// second tool: a hole is white by either.
#[test]
fn a_letter_by_the_second_tool() {
    let letter = [0, 0, 1024, 0, 1024, 1024, 0, 1024];
    let hole = [256, 256, 256, 768, 768, 768, 768, 256];
    let outline = Outline { side: 4, points: [letter, hole].concat(), counts: vec![4, 4], straight: true };
    let rows = [[255, 255, 255, 255], [255, 0, 0, 255], [255, 0, 0, 255], [255, 255, 255, 255]].concat();
    for (outline, sign) in [(outline.reversed(), -1), (outline, 1)] {
        let (_, table) = build(&Spec, 4, &outline.points, &outline.counts, &[0; 16]).unwrap();
        assert_eq!(table[0], sign * 12 * PIXEL);
        let (figures, greys) = drawn(4, 2, &table);
        assert_eq!(figures[..6], [16, 16, 16, 16, 16, 0].map(|share| share * sign * PIXEL));
        assert_eq!(greys, rows);
        // Three quarters of the tile have ink.
        assert_eq!(drawn(4, 0, &table).1, [191]);
    }
}

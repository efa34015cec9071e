//! Exact laws that tie the areas, the details, the table and the pictures to
//! one another, on pseudo-random outlines.

mod common;

use common::{drawn, Outline, Random};
use reference::{build, cell, exact_areas, exact_details, signed_area, Exact, Spec};

fn built(outline: &Outline) -> Vec<i64> {
    let noughts = outline.noughts();
    let built = build(&Spec, outline.side, &outline.points, &outline.counts, &noughts);
    let (edges, table) = built.expect("an accepted outline");
    assert_eq!(edges, outline.edges());
    table
}

fn areas(outline: &Outline, level: u32) -> Vec<Exact> {
    exact_areas(outline.side, &outline.points, &outline.counts, level)
}

/// The places of the quarters of cell (cx, cy) of level j in level j + 1:
/// upper left, upper right, lower left, lower right.
fn quarters(j: u32, cx: usize, cy: usize) -> [usize; 4] {
    let wide = 2 << j;
    let first = 2 * cy * wide + 2 * cx;
    [first, first + 1, first + wide, first + wide + 1]
}

/// Each cell's area is the sum of its quarters', and h, v and d are the
/// differences that 01 says, all without any rounding.
#[test]
fn areas_and_details_are_one() {
    let mut random = Random(3);
    let mut fractions = 0;
    for _ in 0..300 {
        let outline = random.outline();
        let Outline { side, points, counts, .. } = &outline;
        for j in 0..outline.depth() {
            let (coarse, fine) = (areas(&outline, j), areas(&outline, j + 1));
            let details = exact_details(*side, points, counts, j);
            for (i, (area, [h, v, d])) in coarse.iter().zip(&details).enumerate() {
                let places = quarters(j, i & ((1 << j) - 1), i >> j);
                let [ul, ur, ll, lr] = places.map(|place| &fine[place]);
                let (upper, lower) = (ul.plus(ur), ll.plus(lr));
                let (left, right) = (ul.plus(ll), ur.plus(lr));
                assert_eq!(area, &upper.plus(&lower), "area {i} of level {j} of {outline:?}");
                assert_eq!(h, &left.minus(&right), "h {i} of level {j} of {outline:?}");
                assert_eq!(v, &upper.minus(&lower), "v {i} of level {j} of {outline:?}");
                assert_eq!(d, &ul.plus(lr).minus(&ur.plus(ll)), "d {i} of level {j} of {outline:?}");
                fractions += usize::from(!h.is_whole());
            }
        }
    }
    assert!(fractions > 1000, "too few fractions: {fractions}");
}

/// The areas of each level add up to the signed area, and the tile's own area
/// is that.
#[test]
fn areas_add_up_to_the_signed_area() {
    let mut random = Random(4);
    for _ in 0..300 {
        let outline = random.outline();
        let signed = signed_area(&outline.points, &outline.counts);
        assert_eq!(signed, built(&outline)[0]);
        for level in 0..=outline.depth() {
            let total: Exact = areas(&outline, level).iter().sum();
            assert_eq!(total, Exact::from_whole(signed.into()), "level {level} of {outline:?}");
        }
    }
}

/// The overlap of a rectangle and a cell, worked without any integral.
#[test]
fn areas_of_rectangles() {
    let mut random = Random(5);
    for _ in 0..200 {
        let side = 1u32 << random.below(6);
        let far = 256 * i64::from(side);
        let [x0, x1, y0, y1] = [0; 4].map(|_: i64| random.below(far + 1));
        let points = [x0, y0, x1, y0, x1, y1, x0, y1];
        let turn = (x1 - x0).signum() * (y1 - y0).signum();
        for level in 0..=side.trailing_zeros() {
            let width = far >> level;
            let shared = |a: i64, b: i64, at: i64| (a.max(b).min(at + width) - a.min(b).max(at)).max(0);
            for (i, area) in exact_areas(side, &points, &[4], level).iter().enumerate() {
                let (cx, cy) = (i as i64 & ((1 << level) - 1), i as i64 >> level);
                let overlap = turn * shared(x0, x1, cx * width) * shared(y0, y1, cy * width);
                assert_eq!(area, &Exact::from_whole(i128::from(2 * overlap)));
            }
        }
    }
}

/// Demand 3: figures within their bound, exact for straight edges; greys at
/// most one off; totals kept; one cell as the picture has it.
#[test]
fn demand_3() {
    let mut random = Random(6);
    let (mut inexact, mut straight) = (0, 0);
    for _ in 0..300 {
        let outline = random.outline();
        let (side, edges) = (outline.side, outline.edges());
        let table = built(&outline);
        for level in 0..=outline.depth() {
            let (figures, greys) = drawn(side, level, &table);
            assert_eq!(figures.iter().sum::<i64>(), table[0] << (2 * level));
            for (i, area) in areas(&outline, level).iter().enumerate() {
                let (cx, cy) = (i as u32 & ((1 << level) - 1), i as u32 >> level);
                assert_eq!(cell(&Spec, side, level, cx, cy, &table), Ok(figures[i]));
                let miss = area.miss(figures[i], level);
                assert!(miss.within(level, edges), "figure {i} of level {level} of {outline:?}");
                assert!(miss.ratio(level, edges) <= 1.0);
                assert!(miss.is_zero() || !outline.straight, "figure {i} of level {level} of {outline:?}");
                assert!(area.grey(side, level).abs_diff(greys[i]) <= 1);
                inexact += usize::from(!miss.is_zero());
                straight += usize::from(outline.straight && figures[i] != 0);
            }
        }
    }
    assert!(inexact > 1000 && straight > 1000, "{inexact} inexact figures, {straight} of straight edges");
}

/// Halves go away from zero, so an outline run the other way has the opposite
/// table.
#[test]
fn reversed_outlines_have_opposite_tables() {
    let mut random = Random(7);
    for _ in 0..100 {
        let outline = random.outline();
        let opposite: Vec<i64> = built(&outline.reversed()).iter().map(|entry| -entry).collect();
        assert_eq!(built(&outline), opposite, "{outline:?}");
    }
}

/// Overlaps add up: the table of all contours is the sum of each one's.
#[test]
fn contours_add_up() {
    let mut random = Random(8);
    for _ in 0..100 {
        let outline = random.outline();
        let mut sum = outline.noughts();
        let mut rest = &outline.points[..];
        for &count in &outline.counts {
            let (contour, after) = rest.split_at(2 * count as usize);
            rest = after;
            let (_, table) = build(&Spec, outline.side, contour, &[count], &sum).unwrap();
            sum.iter_mut().zip(table).for_each(|(total, entry)| *total += entry);
        }
        assert_eq!(built(&outline), sum);
    }
}

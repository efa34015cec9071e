//! What random cases meet too seldom: each place of each list, each step of the greys, values next to a half, the largest entries.
use compare::calls::{build, cell, figures, greys};
use compare::damage::ENTRY_LIMIT;
use compare::outlines::{Outline, MOST_EDGES, SIDES};
use compare::random::Random;
use compare::{from_outline_to_pictures, Seen};
use reference::{Spec, PIXEL, STEPS};

#[test]
fn every_entry_is_asked_for() {
    for side in SIDES {
        let mut table = vec![0; (side * side) as usize];
        for at in 0..table.len() {
            table[at] = ENTRY_LIMIT + 1;
            assert_eq!(figures(&Spec, side, 0, &table, &[5]).unwrap(), Err(9));
            assert_eq!(greys(&Spec, side, 0, &table, &[5]).unwrap(), Err(9));
            assert_eq!(cell(&Spec, side, 0, 0, 0, &table).unwrap(), Err(9));
            table[at] = 0;
        }
    }
}

#[test]
fn every_coordinate_is_asked_for() {
    let mut points = vec![0; 2 * MOST_EDGES as usize];
    for at in 0..points.len() {
        points[at] = STEPS + 1;
        assert_eq!(build(&Spec, 1, &points, &[MOST_EDGES], &[5]).unwrap(), Err(6));
        points[at] = 0;
    }
}

#[test]
fn counts_are_summed_in_more_than_32_bits() {
    let counts = vec![1024; 1 << 22]; // a sum of 2^32
    assert_eq!(build(&Spec, 1, &[], &counts, &[5]).unwrap(), Err(5));
}

#[test]
fn every_step_of_the_greys() {
    for side in SIDES {
        let full = PIXEL * i64::from(side * side);
        let mut table = vec![0; (side * side) as usize];
        // two past the last grey, which are held at it
        for grey in 1..258 {
            // the least figure with 255 × figure / full at or past grey − 1/2
            let first = -((1 - 2 * grey) * full).div_euclid(2 * 255);
            for (figure, expected) in [(first - 1, grey - 1), (first, grey), (first + 1, grey)] {
                for figure in [figure, -figure] {
                    table[0] = figure;
                    let drawn = greys(&Spec, side, 0, &table, &[5]).unwrap().unwrap();
                    assert_eq!(i64::from(drawn[0]), expected.clamp(0, 255), "side {side}, figure {figure}");
                }
            }
        }
    }
}

/// Edges on side 64 whose d in the whole tile is as near to a half as its denominator allows, above it or below: a quotient in floating
/// point goes to the wrong side.
const NEXT_TO_A_HALF: [[i64; 4]; 10] = [
    [1793, 6208, 14646, 16023],
    [4743, 482, 14766, 12655],
    [2418, 7245, 13017, 16232],
    [15009, 3026, 4116, 15351],
    [5697, 997, 13406, 10714],
    [4123, 148, 11568, 9241],
    [11293, 4953, 1228, 14716],
    [1291, 418, 9298, 10253],
    [4610, 269, 15447, 12234],
    [10382, 1977, 4845, 15470],
];

#[test]
fn values_next_to_a_half() {
    for [x0, y0, x1, y1] in NEXT_TO_A_HALF {
        let whole = reference::Cell::of(64, 0, 0, 0);
        let d = reference::Edge { x0, y0, x1, y1 }.details(&Spec, whole)[2];
        // less than a hundred millionth from it, but not at it
        let twice_off = (2 * d.num.rem_euclid(d.den) - d.den).abs();
        assert!(0 < twice_off && twice_off * 100_000_000 < 2 * d.den, "{d:?} is not next to a half");
        for points in [[x0, y0, x1, y1, x1, y0], [x1, y1, x0, y0, x1, y0], [y0, x0, y1, x1, y0, x1]] {
            assert_eq!(build(&Spec, 64, &points, &[3], &[7; 4096]).unwrap().map(|(edges, _)| edges), Ok(3));
        }
    }
}

#[test]
fn largest_entries() {
    // The tile's border 256 times round: a root of 2^37. A half's: h or v of 2^36.
    let mut seen = Seen::default();
    for (width, height, root) in [(16384, 16384, 1 << 37), (8192, 16384, 1 << 36), (16384, 8192, 1 << 36)] {
        let round = [0, 0, width, 0, width, height, 0, height];
        let back = [0, 0, 0, height, width, height, width, 0];
        for (round, root) in [(round, root), (back, -root)] {
            let outline = Outline { side: 64, points: round.repeat(256), counts: vec![MOST_EDGES] };
            let (_, table) = build(&Spec, 64, &outline.points, &outline.counts, &[7; 4096]).unwrap().unwrap();
            assert_eq!(table[0], root);
            assert!(root.abs() == 1 << 37 || table[1..3].contains(&root));
            from_outline_to_pictures(&Spec, &mut Random::new(1), &outline, &mut seen).unwrap();
        }
    }
    assert_eq!((seen.outlines, seen.octilinear), (6, 6));
}

/// Outlines whose worst miss is nearly its bound, found by search, with that miss as a share of the bound, in ten thousandths. docs/ARCHITECTURE.md
/// has them.
const NEAR_THE_BOUND: [(u32, &[i64], u32); 4] = [
    (2, &[271, 242, 251, 243, 245, 267], 6667),
    (4, &[532, 470, 276, 618, 683, 274, 359, 639], 9237),
    (8, &[1044, 982, 788, 1130, 1195, 786, 871, 1151], 9750),
    (64, &[8193, 8160, 8126, 8217, 8179, 8167], 9992),
];

#[test]
fn misses_near_the_bound() {
    for (side, points, share) in NEAR_THE_BOUND {
        let outline = Outline { side, points: points.to_vec(), counts: vec![points.len() as u32 / 2] };
        let mut seen = Seen::default();
        from_outline_to_pictures(&Spec, &mut Random::new(1), &outline, &mut seen).unwrap();
        let worst = seen.worst.unwrap();
        assert_eq!(((worst.ratio * 10_000.0).round() as u32, worst.level), (share, outline.depth()));
    }
}

#[test]
fn a_grey_that_is_one_apart() {
    // 256 times round a small outline: 0.9950 of a grey between what is drawn and what is exact, from the same page. And the other way round.
    let round = [8015, 8348, 8277, 8018, 8003, 8429, 8197, 8075];
    let back = [8197, 8075, 8003, 8429, 8277, 8018, 8015, 8348];
    for points in [round, back] {
        let outline = Outline { side: 64, points: points.repeat(256), counts: vec![MOST_EDGES] };
        let (_, table) = build(&Spec, 64, &outline.points, &outline.counts, &[7; 4096]).unwrap().unwrap();
        let drawn = greys(&Spec, 64, 6, &table, &[7; 4096]).unwrap().unwrap();
        let exact = reference::exact_areas(64, &outline.points, &outline.counts, 6);
        let cell = 31 * 64 + 31;
        assert_eq!((drawn[cell], exact[cell].grey(64, 6)), (248, 249));
    }
}

//! Placements: which floats and points question 12 lets pass, and where the
//! points go. All expected values are worked by hand.

mod common;

use common::Random;
use reference::{build, build_placed, exact_areas, figures, placed, Placement, Question, Rules, Spec};

/// 1/65,536 and half of it.
const PART: f64 = 1.0 / 65_536.0;
const HALF_PART: f64 = 1.0 / 131_072.0;

/// The answer of building with a placement, of which only the edges are kept.
fn answer(side: u32, points: &[i64], placement: Placement) -> Result<u32, u8> {
    let noughts = vec![0; (side * side) as usize];
    build_placed(&Spec, side, points, &[points.len() as u32 / 2], placement, &noughts).map(|(edges, _)| edges)
}

/// The answer to a placement of no point at all, in which only the floats can
/// be refused.
fn of_floats(placement: Placement) -> Result<u32, u8> {
    build_placed(&Spec, 1, &[], &[], placement, &[0]).map(|(edges, _)| edges)
}

/// A place where a float is handed in: its name, the placement with a float
/// there and nothing else that could be refused, and the float's limit.
type Place = (&'static str, fn(f64) -> Placement, f64);

const PLACES: [Place; 9] = [
    ("shift of x", |float| Placement::Shift(float, 0.0), 16_384.0),
    ("shift of y", |float| Placement::Shift(0.0, float), 16_384.0),
    ("scale", Placement::Scale, 2.0),
    ("a", |float| Placement::Turn([float, 0.0, 0.0, 0.0, 0.0, 0.0]), 2.0),
    ("b", |float| Placement::Turn([0.0, float, 0.0, 0.0, 0.0, 0.0]), 2.0),
    ("c", |float| Placement::Turn([0.0, 0.0, float, 0.0, 0.0, 0.0]), 16_384.0),
    ("d", |float| Placement::Turn([0.0, 0.0, 0.0, float, 0.0, 0.0]), 2.0),
    ("e", |float| Placement::Turn([0.0, 0.0, 0.0, 0.0, float, 0.0]), 2.0),
    ("f", |float| Placement::Turn([0.0, 0.0, 0.0, 0.0, 0.0, float]), 16_384.0),
];

#[test]
fn building_asks_1_2_4_5_3_12_6() {
    let bad = Placement::Scale(f64::NAN);
    let good = Placement::Scale(1.0);
    let ask = |side, points: &[i64], counts: &[u32], placement, length| {
        build_placed(&Spec, side, points, counts, placement, &vec![0; length]).map(|(edges, _)| edges)
    };
    // From a call with every fault, one fault less at a time.
    assert_eq!(ask(3, &[-40_000], &[2, 1024], bad, 1), Err(1));
    assert_eq!(ask(2, &[-40_000], &[2, 1024], bad, 1), Err(2));
    assert_eq!(ask(2, &[-40_000], &[2, 1024], bad, 4), Err(4));
    assert_eq!(ask(2, &[-40_000], &[3, 1024], bad, 4), Err(5));
    assert_eq!(ask(2, &[-40_000], &[3], bad, 4), Err(3));
    assert_eq!(ask(2, &[-40_000, 0, 0, 0, 0, 513], &[3], bad, 4), Err(12));
    assert_eq!(ask(2, &[0, 0, 0, 0, 0, 513], &[3], bad, 4), Err(12));
    assert_eq!(ask(2, &[-40_000, 0, 0, 0, 0, 513], &[3], good, 4), Err(12));
    assert_eq!(ask(2, &[0, 0, 0, 0, 0, 513], &[3], good, 4), Err(6));
    assert_eq!(ask(2, &[0, 0, 0, 0, 0, 512], &[3], good, 4), Ok(3));
    // One coordinate too few or too many is 3 with any placement.
    assert_eq!(ask(2, &[0; 5], &[3], good, 4), Err(3));
    assert_eq!(ask(2, &[0; 7], &[3], good, 4), Err(3));
}

#[test]
fn floats_that_pass() {
    for (name, with, limit) in PLACES {
        for size in [0.0, PART, 3.0 * PART, 0.5, 1.0, 2.0 - PART, limit - PART, limit] {
            assert_eq!(of_floats(with(size)), Ok(0), "{name} {size:e}");
            // Among them minus nought.
            assert_eq!(of_floats(with(-size)), Ok(0), "{name} minus {size:e}");
        }
    }
}

#[test]
fn floats_that_are_refused() {
    for (name, with, limit) in PLACES {
        let past = [limit + PART, limit + HALF_PART, limit + 1.0, 2.0 * limit, 16_385.0, 65_536.0];
        let between = [HALF_PART, 3.0 * HALF_PART, PART / 4.0, 1.0 + HALF_PART, limit - HALF_PART, 0.1, 1.0 / 3.0];
        // The nearest floats to some that pass.
        let next_to = [1.0f64, PART, limit]
            .map(|float| [1, -1].map(|by| f64::from_bits(float.to_bits().wrapping_add_signed(by))));
        // The smallest float, 1e-320, the largest subnormal, the smallest
        // normal float.
        let tiny = [f64::from_bits(1), 1e-320, f64::from_bits(0x000f_ffff_ffff_ffff), f64::MIN_POSITIVE, 1e-300];
        // 2^31, 2^47, 2^48, 2^53, 2^63, 2^64 and 2^112: noughts or in range once
        // cut to fewer bits.
        let huge = [0x41e, 0x42e, 0x42f, 0x434, 0x43e, 0x43f, 0x46f].map(|field: u64| f64::from_bits(field << 52));
        let endless = [1e300, f64::MAX, f64::INFINITY];
        let refused = past.iter().chain(&between).chain(next_to.iter().flatten()).chain(&tiny).chain(&huge);
        for &size in refused.chain(&endless) {
            assert_eq!(of_floats(with(size)), Err(12), "{name} {size:e}");
            assert_eq!(of_floats(with(-size)), Err(12), "{name} minus {size:e}");
        }
    }
}

#[test]
fn what_is_not_a_number_is_refused() {
    // Quiet and signalling, with the lowest bit of the fraction, with some in
    // the middle and with all of them.
    let fractions = [0x8_0000_0000_0000, 1, 0x8_0000_0000_0001, 0x0_0000_1000_0000, 0x4_0000_0000_0000];
    for fraction in fractions.into_iter().chain([0xf_ffff_ffff_ffff]) {
        for sign_and_field in [0x7ff, 0xfff_u64] {
            let float = f64::from_bits(sign_and_field << 52 | fraction);
            for (name, with, _) in PLACES {
                assert_eq!(of_floats(with(float)), Err(12), "{name} {:x}", float.to_bits());
            }
        }
    }
}

/// Each multiple of 1/65,536 as a scale, from a little below −2 to a little
/// above 2, and the floats in the middle between two of them.
#[test]
fn every_multiple_near_the_factors() {
    for number in -131_080..=131_080i32 {
        let float = f64::from(number) * PART;
        let expected = if (-131_072..=131_072).contains(&number) { Ok(0) } else { Err(12) };
        assert_eq!(of_floats(Placement::Scale(float)), expected, "{number} parts");
        assert_eq!(of_floats(Placement::Scale(float + HALF_PART)), Err(12), "{number} parts and a half");
    }
}

/// A float is refused whatever the other floats are, and with points as well.
#[test]
fn one_bad_float_is_enough() {
    let good = [1.0, 0.0, 0.0, 0.0, 1.0, 0.0];
    assert_eq!(answer(1, &[0; 6], Placement::Turn(good)), Ok(3));
    for place in 0..6 {
        let mut turn = good;
        turn[place] = HALF_PART;
        assert_eq!(answer(1, &[0; 6], Placement::Turn(turn)), Err(12), "float {place}");
    }
    assert_eq!(answer(1, &[0; 6], Placement::Shift(0.0, HALF_PART)), Err(12));
    assert_eq!(answer(1, &[0; 6], Placement::Shift(HALF_PART, 0.0)), Err(12));
    assert_eq!(answer(1, &[0; 6], Placement::Scale(HALF_PART)), Err(12));
}

/// Points from −32,768 to 32,767, wherever they stand in the outline. A factor
/// of 0 takes every point to the corner of the tile, so that nothing but
/// question 12 can refuse it.
#[test]
fn points_to_be_moved() {
    for place in 0..6 {
        let with = |coordinate| {
            let mut points = [0; 6];
            points[place] = coordinate;
            points
        };
        for placement in [Placement::Scale(0.0), Placement::Turn([0.0; 6])] {
            assert_eq!(answer(1, &with(-32_769), placement), Err(12));
            assert_eq!(answer(1, &with(-32_768), placement), Ok(3));
            assert_eq!(answer(1, &with(32_767), placement), Ok(3));
            assert_eq!(answer(1, &with(32_768), placement), Err(12));
        }
        // These leave the points off the tile, which is 6 for what may be moved.
        for placement in [Placement::Scale(1.0), Placement::Shift(0.0, 0.0)] {
            assert_eq!(answer(64, &with(-40_000), placement), Err(12));
            assert_eq!(answer(64, &with(-32_769), placement), Err(12));
            assert_eq!(answer(64, &with(-32_768), placement), Err(6));
            assert_eq!(answer(64, &with(32_767), placement), Err(6));
            assert_eq!(answer(64, &with(32_768), placement), Err(12));
        }
        for end in [i64::MIN, i64::MIN + 1, i64::MAX - 1, i64::MAX] {
            assert_eq!(answer(1, &with(end), Placement::Scale(0.0)), Err(12));
            assert_eq!(answer(1, &with(end), Placement::Shift(1.0, 1.0)), Err(12));
            assert_eq!(answer(1, &with(end), Placement::Turn([2.0; 6])), Err(12));
        }
    }
}

/// None moves no point, so that nothing is judged by question 12.
#[test]
fn none_is_never_12() {
    for coordinate in [i64::MIN, -40_000, -32_769, -32_768, -1, 16_385, 32_767, 32_768, i64::MAX] {
        let points = [coordinate, 0, 0, 0, 0, 0];
        assert_eq!(answer(64, &points, Placement::None), Err(6));
        assert_eq!(build(&Spec, 64, &points, &[3], &[0; 4096]), Err(6));
        assert_eq!(placed(&Spec, Placement::None, &points), points);
    }
    assert_eq!(answer(64, &[16_384, 0, 0, 0, 0, 0], Placement::None), Ok(3));
}

/// Question 6 is asked of the placed points: after rounding, and of them alone.
#[test]
fn question_6_is_about_the_placed_points() {
    let at = |x, y, placement| answer(1, &[x, y, 0, 0, 0, 0], placement);
    let along = |x, factor, offset| at(x, 0, Placement::Turn([factor, 0.0, offset, 0.0, 0.0, 0.0]));
    // On the tile before and off it afterwards, and the other way round.
    assert_eq!(at(200, 0, Placement::Scale(2.0)), Err(6));
    assert_eq!(at(0, 200, Placement::Scale(2.0)), Err(6));
    assert_eq!(at(512, 0, Placement::Scale(0.5)), Ok(3));
    assert_eq!(at(0, 512, Placement::Scale(0.5)), Ok(3));
    assert_eq!(at(-256, -256, Placement::Scale(-1.0)), Ok(3));
    assert_eq!(at(-256, -257, Placement::Scale(-1.0)), Err(6));
    assert_eq!(answer(1, &[-300; 6], Placement::Shift(300.0, 556.0)), Ok(3));
    assert_eq!(answer(1, &[-300; 6], Placement::Shift(300.0, 557.0)), Err(6));
    assert_eq!(answer(1, &[-300; 6], Placement::Shift(299.0, 556.0)), Err(6));
    // 256 with a fraction below a half is 256, 256.5 is 257.
    assert_eq!(along(512, 0.5, 0.5 - PART), Ok(3));
    assert_eq!(along(512, 0.5, 0.5), Err(6));
    // −0.5 is 0, and what is any further below is −1.
    assert_eq!(along(-1, 0.5, 0.0), Ok(3));
    assert_eq!(along(-1, 0.5, -PART), Err(6));
    // The points of a largest tile, from the ends of what may be moved:
    // −32,768 × −0.5 is 16,384, the tile's end; 32,767 × 0.5 is 16,383.5.
    assert_eq!(answer(64, &[-32_768, 0, 0, 0, 0, 0], Placement::Scale(-0.5)), Ok(3));
    assert_eq!(answer(64, &[32_767, 0, 0, 0, 0, 0], Placement::Scale(0.5)), Ok(3));
    assert_eq!(answer(64, &[-32_768, 0, 0, 0, 0, 0], Placement::Scale(-0.5 - PART)), Err(6));
}

#[test]
fn halves_go_towards_the_larger() {
    // 0.5, 1.5, 2.5 and 3.5; −0.5, −1.5, −2.5 and −3.5.
    assert_eq!(placed(&Spec, Placement::Scale(0.5), &[1, 3, 5, 7]), [1, 2, 3, 4]);
    assert_eq!(placed(&Spec, Placement::Scale(0.5), &[-1, -3, -5, -7]), [0, -1, -2, -3]);
    // The same numbers by a factor below zero.
    assert_eq!(placed(&Spec, Placement::Scale(-0.5), &[1, 3, -1, -3]), [0, -1, 1, 2]);
    // Quarters: 0.25, 0.5, 0.75, 1, 1.25 and 1.5, and the same below zero.
    assert_eq!(placed(&Spec, Placement::Scale(0.25), &[1, 2, 3, 4, 5, 6]), [0, 1, 1, 1, 1, 2]);
    assert_eq!(placed(&Spec, Placement::Scale(0.25), &[-1, -2, -3, -4, -5, -6]), [0, 0, -1, -1, -1, -1]);
    // A shift by a half and by minus a half.
    assert_eq!(placed(&Spec, Placement::Shift(0.5, -0.5), &[0, 0, -1, -1, 7, 7]), [1, 0, 0, -1, 8, 7]);
    // 0.5 less a 65,536th, and 0.5 more a 65,536th; −0.5 less one, and more one.
    assert_eq!(placed(&Spec, Placement::Shift(0.5 - PART, 0.5 + PART), &[0, 0, -1, -1]), [0, 1, -1, 0]);
}

#[test]
fn numbers_with_all_their_bits() {
    // 32,767/65,536 is below a half, −32,768/65,536 is minus a half.
    assert_eq!(placed(&Spec, Placement::Scale(PART), &[32_767, -32_768]), [0, 0]);
    // −32,768/65,536 less another 65,536th is below minus a half; 32,767/65,536
    // more another is a half.
    let turn = Placement::Turn([PART, 0.0, -PART, PART, 0.0, PART]);
    assert_eq!(placed(&Spec, turn, &[-32_768, 0, 32_767, 0]), [-1, 0, 0, 1]);
    // 2 × 32,767 less 32,767/65,536 is 65,533.500…; 2 × −32,768 more a half is
    // −65,535.5; 2 × 32,766 less 32,766/65,536 is 65,531.500….
    let scale = Placement::Scale(2.0 - PART);
    assert_eq!(placed(&Spec, scale, &[32_767, -32_768, 32_766, 0]), [65_534, -65_535, 65_532, 0]);
    // Twice 65,534 less 32,767/65,536, and 16,384 less 1/65,536: 147,452 less
    // 65,535/65,536. With d and e below zero and f of 16,384 it is −131,068
    // and 65,534/65,536, more 16,384.
    let turn = Placement::Turn([2.0 - PART, 2.0 - PART, 16_384.0 - PART, PART - 2.0, PART - 2.0, 16_384.0]);
    assert_eq!(placed(&Spec, turn, &[32_767, 32_767]), [147_451, -114_683]);
    // The largest results there are.
    let turn = Placement::Turn([2.0, 2.0, 16_384.0, -2.0, -2.0, -16_384.0]);
    assert_eq!(placed(&Spec, turn, &[32_767, 32_767]), [147_452, -147_452]);
    let turn = Placement::Turn([2.0, 2.0, -16_384.0, -2.0, -2.0, 16_384.0]);
    assert_eq!(placed(&Spec, turn, &[-32_768, -32_768]), [-147_456, 147_456]);
}

#[test]
fn each_number_has_its_place() {
    assert_eq!(placed(&Spec, Placement::Shift(3.0, -5.0), &[10, 20, 0, 0]), [13, 15, 3, -5]);
    assert_eq!(placed(&Spec, Placement::Scale(1.5), &[10, 20, -2, 4]), [15, 30, -3, 6]);
    assert_eq!(placed(&Spec, Placement::Scale(-0.0), &[10, -20]), [0, 0]);
    // One number at a time, of the point (100, 1000).
    let by_one = |place: usize, float| {
        let mut turn = [0.0; 6];
        turn[place] = float;
        placed(&Spec, Placement::Turn(turn), &[100, 1000])
    };
    assert_eq!(by_one(0, 1.5), [150, 0]);
    assert_eq!(by_one(1, 1.5), [1500, 0]);
    assert_eq!(by_one(2, 1.5), [2, 0]);
    assert_eq!(by_one(3, 1.5), [0, 150]);
    assert_eq!(by_one(4, 1.5), [0, 1500]);
    assert_eq!(by_one(5, 1.5), [0, 2]);
    // All at once. Of (4, 2): 6 − 0.5 + 10.5 and 3 + 4 − 3.25. Of (−3, 5):
    // −4.5 − 1.25 + 10.5 and −2.25 + 10 − 3.25. Of (3, −5): 4.5 + 1.25 + 10.5
    // and 2.25 − 10 − 3.25.
    let turn = Placement::Turn([1.5, -0.25, 10.5, 0.75, 2.0, -3.25]);
    assert_eq!(placed(&Spec, turn, &[4, 2, -3, 5, 3, -5]), [16, 4, 5, 5, 16, -11]);
    assert_eq!(placed(&Spec, turn, &[]), []);
}

/// 01's letters from outlines that lie askew.
#[test]
fn letters_are_placed_before_they_are_drawn() {
    let table = |points: &[i64], placement| {
        build_placed(&Spec, 2, points, &[points.len() as u32 / 2], placement, &[0; 4]).map(|(_, table)| table)
    };
    let none = [0, 0, 256, 0, 256, 256, 0, 256];
    assert_eq!(table(&none, Placement::None), Ok(vec![131_072; 4]));
    // D, a thousand steps off.
    let away = [-1000, 1000, -744, 1000, -744, 1256, -1000, 1256];
    assert_eq!(table(&away, Placement::Shift(1000.0, -1000.0)), Ok(vec![131_072; 4]));
    // F at twice its size, each half of it rounded: 0 and −0.5, 383.5 and 0.5,
    // −0.5 and 1.
    let f = [0, -1, 767, 1, -1, 2];
    assert_eq!(table(&f, Placement::Scale(0.5)), Ok(vec![384, 299, 384, 299]));
    // G turned by a quarter: x is 512 − y of what is given, and y is x.
    let g = [0, 257, 1, 253, 1, 257];
    let quarter = Placement::Turn([0.0, -1.0, 512.0, 1.0, 0.0, 0.0]);
    assert_eq!(table(&g, quarter), Ok(vec![4, 0, 4, 0]));
    // A mirror runs the contour the other way: D becomes its opposite, in the
    // upper right pixel, where h and d have the other sign.
    let mirror = Placement::Turn([-1.0, 0.0, 512.0, 0.0, 1.0, 0.0]);
    assert_eq!(table(&none, mirror), Ok(vec![-131_072, 131_072, -131_072, 131_072]));
    // No contour at all.
    assert_eq!(table(&[], quarter), Err(4));
    assert_eq!(build_placed(&Spec, 2, &[], &[], quarter, &[7; 4]), Ok((0, vec![0; 4])));
}

/// Contours stay contours: 7 edges of two of them, each placed.
#[test]
fn every_contour_is_placed() {
    // A pixel and a half of one, both at half their size and shifted by a pixel.
    let points = [-512, -512, 0, -512, 0, 0, -512, 0, 0, 0, 512, 0, 0, 512];
    let turn = Placement::Turn([0.5, 0.0, 256.0, 0.0, 0.5, 256.0]);
    let (edges, table) = build_placed(&Spec, 2, &points, &[4, 3], turn, &[0; 4]).unwrap();
    assert_eq!(edges, 7);
    // The upper left pixel is full and the lower right one is half full.
    assert_eq!(table, [196_608, 65_536, 65_536, 196_608]);
    assert_eq!(figures(&Spec, 2, 1, &table, 4), Ok(vec![524_288, 0, 0, 262_144]));
}

/// Each question has an answer of its own with placements too, and no number
/// is too large for it.
#[test]
fn questions_in_any_order() {
    struct Order(&'static [Question]);
    impl Rules for Order {
        fn building(&self) -> Vec<Question> {
            self.0.to_vec()
        }
    }
    let ask = |order, points: &[i64], placement| build_placed(&Order(order), 64, points, &[3], placement, &[0]);
    use Question::*;
    // A stray coordinate may be asked about, and stays out of what is placed.
    assert_eq!(ask(&[Placing, PointsLength], &[32_768], Placement::Scale(1.0)), Err(12));
    assert_eq!(ask(&[Placing, Coordinates, PointsLength], &[-5], Placement::Scale(1.0)), Err(3));
    assert_eq!(ask(&[Coordinates, PointsLength], &[-5], Placement::None), Err(6));
    // Points that are not asked about before they are moved. Four times the
    // smallest of them is off the tile, and would be 0 if cut to 64 bits.
    for end in [i64::MIN, i64::MAX] {
        for float in [2.0, -2.0] {
            let turn = [float, float, 0.0, float, float, 0.0];
            assert_eq!(ask(&[Coordinates, Placing], &[end; 6], Placement::Turn(turn)), Err(6));
        }
        assert_eq!(ask(&[Coordinates, Placing], &[end; 6], Placement::Scale(0.0)), Err(12));
        assert_eq!(ask(&[Coordinates, Placing], &[end; 6], Placement::Scale(f64::NAN)), Err(12));
    }
}

/// Placements that leave every point where it is draw what none draws, and a
/// shift there undoes a shift that was made before.
#[test]
fn random_outlines_that_stay() {
    let mut random = Random(11);
    for _ in 0..100 {
        let outline = random.outline();
        let noughts = outline.noughts();
        let with = |points: &[i64], placement| {
            build_placed(&Spec, outline.side, points, &outline.counts, placement, &noughts).unwrap()
        };
        let expected = build(&Spec, outline.side, &outline.points, &outline.counts, &noughts).unwrap();
        assert_eq!(with(&outline.points, Placement::Shift(0.0, -0.0)), expected);
        assert_eq!(with(&outline.points, Placement::Scale(1.0)), expected);
        assert_eq!(with(&outline.points, Placement::Turn([1.0, 0.0, 0.0, -0.0, 1.0, 0.0])), expected);
        let (by_x, by_y) = (random.below(16_000), random.below(16_000));
        let shifted: Vec<i64> = outline.points.chunks(2).flat_map(|p| [p[0] - by_x, p[1] + by_y]).collect();
        assert_eq!(with(&shifted, Placement::Shift(by_x as f64, -by_y as f64)), expected);
    }
}

/// Demand 3 measures the placed outline: an outline at half its size, with
/// halves rounded, is exactly the one that was placed and not the one given.
#[test]
fn demand_3_measures_the_placed_outline() {
    // A square whose corners fall between two steps: (0.5, 0.5) to (255.5,
    // 255.5) is placed at (1, 1) to (256, 256), 255 steps wide.
    let points = [1, 1, 511, 1, 511, 511, 1, 511];
    let scale = Placement::Scale(0.5);
    let (_, table) = build_placed(&Spec, 1, &points, &[4], scale, &[0]).unwrap();
    assert_eq!(table, [2 * 255 * 255]);
    let areas = exact_areas(1, &placed(&Spec, scale, &points), &[4], 0);
    assert!(areas[0].miss(130_050, 0).is_zero());
}

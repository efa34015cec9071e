//! Each wrong variant of a placement is wrong where its one rule reaches, and
//! nowhere else. All expected values are worked by hand.

mod common;

use common::Random;
use reference::wrong::{self, *};
use reference::{build_placed, placed, Placement, Rules, Spec};

/// 1/65,536.
const PART: f64 = 1.0 / 65_536.0;

/// The answer of building a triangle on the smallest tile, of which only the
/// edges are kept.
fn answer(rules: &dyn Rules, points: [i64; 6], placement: Placement) -> Result<u32, u8> {
    build_placed(rules, 1, &points, &[3], placement, &[0]).map(|(edges, _)| edges)
}

/// The answer to a placement of no point at all, in which only the floats can
/// be refused.
fn of_floats(rules: &dyn Rules, placement: Placement) -> Result<u32, u8> {
    build_placed(rules, 1, &[], &[], placement, &[0]).map(|(edges, _)| edges)
}

/// −1.75, −1.5, −1.25, −0.5, 0.5, 1.25, 1.5 and 2.5, rounded.
fn rounded(rules: &dyn Rules) -> Vec<i64> {
    placed(rules, Placement::Scale(0.25), &[-7, -6, -5, -2, 2, 5, 6, 10])
}

#[test]
fn placed_halves() {
    assert_eq!(rounded(&Spec), [-2, -1, -1, 0, 1, 1, 2, 3]);
    assert_eq!(rounded(&PlacedHalvesSmaller), [-2, -2, -1, -1, 0, 1, 1, 2]);
    assert_eq!(rounded(&PlacedHalvesAway), [-2, -2, -1, -1, 1, 1, 2, 3]);
    assert_eq!(rounded(&PlacedHalvesEven), [-2, -2, -1, 0, 0, 1, 2, 2]);
    assert_eq!(rounded(&PlacedFractionsCut), [-1, -1, -1, 0, 0, 1, 1, 2]);
}

#[test]
fn offsets_after_rounding() {
    // 0.5 + 0.5 is 1; rounded apart it is 1 + 1. A whole offset tells nothing.
    let with =
        |rules: &dyn Rules, offset| placed(rules, Placement::Turn([0.5, 0.0, offset, 0.0, 0.5, offset]), &[1, -1]);
    assert_eq!(with(&Spec, 0.5), [1, 0]);
    assert_eq!(with(&OffsetsAfterRounding, 0.5), [2, 1]);
    assert_eq!(with(&Spec, 3.0), [4, 3]);
    assert_eq!(with(&OffsetsAfterRounding, 3.0), [4, 3]);
}

#[test]
fn second_product_rounded() {
    // 0.5 × 1 + 0.5 × 1 is 1; rounded apart it is 1 + 1.
    let with =
        |rules: &dyn Rules, factor| placed(rules, Placement::Turn([factor, factor, 0.0, factor, factor, 0.0]), &[1, 1]);
    assert_eq!((with(&Spec, 0.5), with(&SecondProductRounded, 0.5)), (vec![1, 1], vec![2, 2]));
    assert_eq!(with(&SecondProductRounded, 2.0), [4, 4]);
}

#[test]
fn factors_exchanged() {
    // (1, 10) by 7 − y and x + 9; exchanged, by y + 7 and 9 − x.
    let with = |rules: &dyn Rules| placed(rules, Placement::Turn([0.0, -1.0, 7.0, 1.0, 0.0, 9.0]), &[1, 10]);
    assert_eq!((with(&Spec), with(&FactorsExchanged)), (vec![-3, 10], vec![17, 8]));
}

#[test]
fn placed_in_place() {
    // (1, 10) by y + 7 and x + 9: x is 17, and y is 10 or, from that x, 26.
    let with = |rules: &dyn Rules| placed(rules, Placement::Turn([0.0, 1.0, 7.0, 1.0, 0.0, 9.0]), &[1, 10]);
    assert_eq!((with(&Spec), with(&PlacedInPlace)), (vec![17, 10], vec![17, 26]));
}

#[test]
fn scale_of_x() {
    let with = |rules: &dyn Rules, placement| placed(rules, placement, &[10, 20]);
    assert_eq!(with(&Spec, Placement::Scale(1.5)), [15, 30]);
    assert_eq!(with(&ScaleOfX, Placement::Scale(1.5)), [15, 20]);
    assert_eq!(with(&ScaleOfX, Placement::Turn([1.5, 0.0, 0.0, 0.0, 1.5, 0.0])), [15, 30]);
    assert_eq!(of_floats(&ScaleOfX, Placement::Scale(2.0 + PART)), Err(12));
}

#[test]
fn finer_floats() {
    let shift = |rules: &dyn Rules, float| of_floats(rules, Placement::Shift(float, 0.0));
    assert_eq!((shift(&Spec, PART / 2.0), shift(&FinerFloats, PART / 2.0)), (Err(12), Ok(0)));
    assert_eq!(shift(&FinerFloats, PART / 4.0), Err(12));
    // The limits are where they were, and −1 + 0.5 less half a part is below
    // minus a half.
    assert_eq!(shift(&FinerFloats, 16_384.0), Ok(0));
    assert_eq!(shift(&FinerFloats, 16_384.0 + PART / 2.0), Err(12));
    assert_eq!(placed(&FinerFloats, Placement::Shift(0.5 - PART / 2.0, 0.5), &[-1, -1]), [-1, 0]);
}

#[test]
fn coarser_floats() {
    let shift = |rules: &dyn Rules, float| of_floats(rules, Placement::Shift(float, 0.0));
    assert_eq!((shift(&Spec, PART), shift(&CoarserFloats, PART)), (Ok(0), Err(12)));
    assert_eq!(shift(&CoarserFloats, 2.0 * PART), Ok(0));
    assert_eq!(shift(&CoarserFloats, 16_384.0), Ok(0));
    assert_eq!(shift(&CoarserFloats, 16_384.0 + 2.0 * PART), Err(12));
    assert_eq!(placed(&CoarserFloats, Placement::Shift(0.5 - 2.0 * PART, 0.5), &[-1, -1]), [-1, 0]);
}

#[test]
fn infinity_as_limit() {
    for infinity in [f64::INFINITY, f64::NEG_INFINITY] {
        assert_eq!(of_floats(&Spec, Placement::Scale(infinity)), Err(12));
        assert_eq!(of_floats(&InfinityAsLimit, Placement::Scale(infinity)), Ok(0));
    }
    let shift = Placement::Shift(f64::INFINITY, f64::NEG_INFINITY);
    assert_eq!(placed(&InfinityAsLimit, shift, &[1, 1]), [16_385, -16_383]);
    assert_eq!(placed(&InfinityAsLimit, Placement::Scale(f64::NEG_INFINITY), &[1, 3]), [-2, -6]);
    assert_eq!(of_floats(&InfinityAsLimit, Placement::Scale(f64::NAN)), Err(12));
    assert_eq!(of_floats(&InfinityAsLimit, Placement::Scale(f64::MAX)), Err(12));
}

#[test]
fn not_a_number_as_nought() {
    for bits in [0x7ff8_0000_0000_0000, 0xfff8_0000_0000_0000, 0x7ff0_0000_0000_0001, 0xffff_ffff_ffff_ffff] {
        let scale = Placement::Scale(f64::from_bits(bits));
        assert_eq!(of_floats(&Spec, scale), Err(12));
        assert_eq!(of_floats(&NotANumberAsNought, scale), Ok(0));
        assert_eq!(placed(&NotANumberAsNought, scale, &[7, 9]), [0, 0]);
    }
    assert_eq!(of_floats(&NotANumberAsNought, Placement::Scale(f64::INFINITY)), Err(12));
}

#[test]
fn subnormal_as_nought() {
    for size in [f64::from_bits(1), 1e-320] {
        for float in [size, -size] {
            assert_eq!(of_floats(&Spec, Placement::Shift(float, 0.0)), Err(12));
            assert_eq!(of_floats(&SubnormalAsNought, Placement::Shift(float, 0.0)), Ok(0));
        }
    }
    assert_eq!(of_floats(&SubnormalAsNought, Placement::Shift(f64::MIN_POSITIVE, 0.0)), Err(12));
}

#[test]
fn minus_nought_refused() {
    assert_eq!(of_floats(&Spec, Placement::Shift(-0.0, 0.0)), Ok(0));
    assert_eq!(of_floats(&MinusNoughtRefused, Placement::Shift(-0.0, 0.0)), Err(12));
    assert_eq!(of_floats(&MinusNoughtRefused, Placement::Shift(0.0, 0.0)), Ok(0));
}

#[test]
fn factors_at_other_limits() {
    let scale = |rules: &dyn Rules, float| {
        let answer = of_floats(rules, Placement::Scale(float));
        assert_eq!(of_floats(rules, Placement::Scale(-float)), answer);
        answer == Ok(0)
    };
    let all = |rules: &dyn Rules| {
        [2.0 - PART, 2.0, 2.0 + PART, 2.0 + 2.0 * PART, 4.0, 4.0 + PART].map(|float| scale(rules, float))
    };
    assert_eq!(all(&Spec), [true, true, false, false, false, false]);
    assert_eq!(all(&FactorsUpTo4), [true, true, true, true, true, false]);
    assert_eq!(all(&FactorPastLimit), [true, true, true, false, false, false]);
    assert_eq!(all(&FactorAtLimitRefused), [true, false, false, false, false, false]);
}

#[test]
fn offsets_at_other_limits() {
    let shift = |rules: &dyn Rules, float| {
        let answer = of_floats(rules, Placement::Shift(0.0, float));
        assert_eq!(of_floats(rules, Placement::Shift(-float, 0.0)), answer);
        answer == Ok(0)
    };
    let all = |rules: &dyn Rules| {
        [16_384.0 - PART, 16_384.0, 16_384.0 + PART, 16_384.0 + 2.0 * PART].map(|float| shift(rules, float))
    };
    assert_eq!(all(&Spec), [true, true, false, false]);
    assert_eq!(all(&OffsetPastLimit), [true, true, true, false]);
    assert_eq!(all(&OffsetAtLimitRefused), [true, false, false, false]);
}

#[test]
fn points_at_other_limits() {
    let all = |rules: &dyn Rules| {
        [-32_770, -32_769, -32_768, -32_767, 32_767, 32_768, 32_769]
            .map(|x| answer(rules, [0, 0, 0, x, 0, 0], Placement::Scale(0.0)) == Ok(3))
    };
    assert_eq!(all(&Spec), [false, false, true, true, true, false, false]);
    assert_eq!(all(&HigherPointMoved), [false, false, true, true, true, true, false]);
    assert_eq!(all(&LowerPointMoved), [false, true, true, true, true, false, false]);
    assert_eq!(all(&LowestPointRefused), [false, false, false, true, true, false, false]);
}

#[test]
fn none_judged() {
    let far = |rules: &dyn Rules, x| answer(rules, [x, 0, 0, 0, 0, 0], Placement::None);
    assert_eq!((far(&Spec, -40_000), far(&NoneJudged, -40_000)), (Err(6), Err(12)));
    assert_eq!((far(&Spec, 32_767), far(&NoneJudged, 32_767)), (Err(6), Err(6)));
    assert_eq!(far(&NoneJudged, 256), Ok(3));
}

#[test]
fn floats_of_points_only() {
    let bad = Placement::Shift(f64::NAN, 0.0);
    assert_eq!((of_floats(&Spec, bad), of_floats(&FloatsOfPointsOnly, bad)), (Err(12), Ok(0)));
    assert_eq!(answer(&FloatsOfPointsOnly, [0; 6], bad), Err(12));
}

#[test]
fn placing_before_points_length() {
    let stray = |rules: &dyn Rules| build_placed(rules, 1, &[0], &[3], Placement::Scale(f64::NAN), &[0]);
    assert_eq!((stray(&Spec), stray(&PlacingBeforePointsLength)), (Err(3), Err(12)));
    // It is asked after 5.
    let many = build_placed(&PlacingBeforePointsLength, 1, &[0], &[1022, 3], Placement::Scale(f64::NAN), &[0]);
    assert_eq!(many, Err(5));
}

#[test]
fn placing_after_coordinates() {
    let far = [-40_000, 0, 0, 0, 0, 0];
    let with = |rules: &dyn Rules, placement| answer(rules, far, placement);
    assert_eq!(with(&Spec, Placement::Scale(1.0)), Err(12));
    assert_eq!(with(&PlacingAfterCoordinates, Placement::Scale(1.0)), Err(6));
    // Where the placed points lie on the tile, it is asked in the end.
    assert_eq!(with(&PlacingAfterCoordinates, Placement::Scale(0.0)), Err(12));
    assert_eq!(of_floats(&PlacingAfterCoordinates, Placement::Scale(2.5)), Err(12));
}

#[test]
fn judged_before() {
    let with = |rules: &dyn Rules, x, factor| answer(rules, [x, 0, 0, 0, 0, 0], Placement::Scale(factor));
    // 512 × 0.5 is on the tile and 512 is not; 200 × 2 is not and 200 is.
    assert_eq!((with(&Spec, 512, 0.5), with(&JudgedBefore, 512, 0.5)), (Ok(3), Err(6)));
    assert_eq!((with(&Spec, 200, 2.0), with(&JudgedBefore, 200, 2.0)), (Err(6), Ok(3)));
    // Even points as far off as can be are drawn, however wrongly.
    let turn = Placement::Turn([2.0, 2.0, 16_384.0, -2.0, -2.0, -16_384.0]);
    let points = [0, 0, 16_384, 0, 16_384, 16_384];
    let drawn = |rules: &dyn Rules| build_placed(rules, 64, &points, &[3], turn, &[0; 4096]).map(|(edges, _)| edges);
    assert_eq!((drawn(&Spec), drawn(&JudgedBefore)), (Err(6), Ok(3)));
}

#[test]
fn every_name_is_given_once() {
    let mut names: Vec<&str> = wrong::all().iter().chain(&wrong::of_placement()).map(|(name, _)| *name).collect();
    let length = names.len();
    names.sort();
    names.dedup();
    assert_eq!(names.len(), length);
}

/// Variants of moving show on random placements, those of refusing do not, for
/// these are accepted. None of them panics.
#[test]
fn random_placements_tell_the_variants_of_moving() {
    let seen = [
        "placed halves towards the smaller",
        "placed halves to the even step",
        "placed fractions cut off",
        "offsets added after rounding",
        "the second product rounded on its own",
        "b and d exchanged",
        "y worked from the placed x",
        "a scale of x alone",
        "multiples of 1/32,768 wanted",
        // Not "placed halves away from zero": nothing below zero is placed.
    ];
    for (name, rules) in wrong::of_placement() {
        let mut random = Random(12);
        let mut differ = 0;
        for _ in 0..100 {
            let placement = random.placement();
            let points: Vec<i64> = (0..10).map(|_| 300 + random.below(301)).collect();
            let built = |rules: &dyn Rules| build_placed(rules, 4, &points, &[5], placement, &[0; 16]);
            assert!(built(&Spec).is_ok(), "{placement:?} of {points:?}");
            differ += usize::from(built(&*rules) != built(&Spec));
        }
        assert_eq!(differ > 0, seen.contains(&name), "{name}: {differ} outlines of 100");
    }
}

/// Calls without a placement cannot tell these variants, but for the one that
/// takes none for a placement.
#[test]
fn calls_without_a_placement_tell_none_judged_alone() {
    for (name, rules) in wrong::of_placement() {
        let mut random = Random(13);
        let mut differ = 0;
        for _ in 0..60 {
            let mut outline = random.outline_of(4);
            // Every second outline has a point off the tile.
            let place = random.below(2 * outline.points.len() as i64) as usize;
            if let Some(coordinate) = outline.points.get_mut(place) {
                *coordinate = [-40_000, -1, 1025, 40_000][place % 4];
            }
            let built = |rules: &dyn Rules| {
                build_placed(rules, 4, &outline.points, &outline.counts, Placement::None, &outline.noughts())
            };
            differ += usize::from(built(&*rules) != built(&Spec));
        }
        assert_eq!(differ > 0, name == "none judged by question 12", "{name}: {differ} outlines of 60");
    }
}

//! Wrong variants: each spoils one rule of 01 or of 02's P1, P3, P4, P5 or P6, so
//! that a comparison with this reference can be shown to notice.

use crate::correction::{written, Correction};
use crate::curve::Curve;
use crate::edge::{Bend, Cell, Edge, Fraction, Profile};
use crate::exact::Exact;
use crate::placement::Placement;
use crate::questions::{is_side, Limits, Question};
use crate::rules::{full, held, nearest_grey, Rules, Spec};
use crate::sheet::SheetTile;
use crate::{FULL_GREY, PARTS, STEPS};

/// All variants of 01's rules, each with a short name. Calls without a
/// placement can tell each of them.
pub fn all() -> Vec<(&'static str, Box<dyn Rules>)> {
    vec![
        ("halves rounded upwards", Box::new(HalvesUpwards)),
        ("a cell's sum rounded once", Box::new(SumRoundedOnce)),
        ("dividing by 4 at each level", Box::new(DividingEachLevel)),
        ("h to the left side only", Box::new(LeftSideOnly)),
        ("figures held at zero early", Box::new(HeldEarly)),
        ("v's sign turned", Box::new(TurnedV)),
        ("closing edge left out", Box::new(NoClosingEdge)),
        ("question 3 asked before question 5", Box::new(OtherOrder)),
        ("one edge too many accepted", Box::new(OneEdgeMore)),
        ("an entry one past the limit drawn", Box::new(OneUnitMore)),
        ("a cell's entries asked for before its numbers", Box::new(EntriesFirst)),
        ("a grey's halves rounded down", Box::new(GreyHalvesDown)),
    ]
}

/// All variants of 02's P1, each with a short name. They have a list of their
/// own because calls without a placement cannot tell them, all but
/// [`NoneJudged`], and whoever makes only such calls runs through [`all`].
pub fn of_placement() -> Vec<(&'static str, Box<dyn Rules>)> {
    vec![
        ("placed halves towards the smaller", Box::new(PlacedHalvesSmaller)),
        ("placed halves away from zero", Box::new(PlacedHalvesAway)),
        ("placed halves to the even step", Box::new(PlacedHalvesEven)),
        ("placed fractions cut off", Box::new(PlacedFractionsCut)),
        ("offsets added after rounding", Box::new(OffsetsAfterRounding)),
        ("the second product rounded on its own", Box::new(SecondProductRounded)),
        ("b and d exchanged", Box::new(FactorsExchanged)),
        ("y worked from the placed x", Box::new(PlacedInPlace)),
        ("a scale of x alone", Box::new(ScaleOfX)),
        ("multiples of 1/131,072 let pass", Box::new(FinerFloats)),
        ("multiples of 1/32,768 wanted", Box::new(CoarserFloats)),
        ("an infinity taken for its limit", Box::new(InfinityAsLimit)),
        ("what is not a number taken for nought", Box::new(NotANumberAsNought)),
        ("a subnormal taken for nought", Box::new(SubnormalAsNought)),
        ("minus nought refused", Box::new(MinusNoughtRefused)),
        ("factors up to 4 accepted", Box::new(FactorsUpTo4)),
        ("a factor one 65,536th past its limit accepted", Box::new(FactorPastLimit)),
        ("a factor at its limit refused", Box::new(FactorAtLimitRefused)),
        ("an offset one 65,536th past its limit accepted", Box::new(OffsetPastLimit)),
        ("an offset at its limit refused", Box::new(OffsetAtLimitRefused)),
        ("a coordinate of 32,768 moved", Box::new(HigherPointMoved)),
        ("a coordinate of −32,769 moved", Box::new(LowerPointMoved)),
        ("a coordinate of −32,768 refused", Box::new(LowestPointRefused)),
        ("none judged by question 12", Box::new(NoneJudged)),
        ("floats not asked about where there is no point", Box::new(FloatsOfPointsOnly)),
        ("question 12 asked before question 3", Box::new(PlacingBeforePointsLength)),
        ("question 12 asked after question 6", Box::new(PlacingAfterCoordinates)),
        ("question 6 asked of the points before they are moved", Box::new(JudgedBefore)),
    ]
}

/// All variants of 02's P3, each with a short name. They have a list of their
/// own because only [`put`](crate::put) and [`take`](crate::take) can tell them.
pub fn of_correction() -> Vec<(&'static str, Box<dyn Rules>)> {
    vec![
        ("taking out adds", Box::new(TakingAdds)),
        ("closing edge not taken out", Box::new(ClosingEdgeLeftIn)),
        ("points put in where they were", Box::new(PutInUnplaced)),
        ("points taken out where they were", Box::new(TakenOutUnplaced)),
        ("record not increased by putting in", Box::new(NotCountedIn)),
        ("record not decreased by taking out", Box::new(NotCountedOut)),
        ("contours recorded, not edges", Box::new(ContoursRecorded)),
        ("question 5 without the record when putting in", Box::new(RecordNotAsked)),
        ("question 5 with the record when taking out", Box::new(RecordAskedTaking)),
        ("question 5 with a sum of 32 bits", Box::new(RecordGoesRound)),
        ("a record of 1,024 refused", Box::new(FullRecordRefused)),
        ("question 13 not asked", Box::new(MoreTakenOut)),
        ("question 13 for as many edges as the record counts", Box::new(AllRefused)),
        ("question 13 asked when putting in", Box::new(RecordedAskedPutting)),
        ("question 13 asked before question 6", Box::new(RecordedBeforeCoordinates)),
        ("question 13 asked after question 9", Box::new(RecordedAfterEntries)),
        ("question 9 asked before all about the contour", Box::new(EntriesBeforeContour)),
        ("question 9 asked before question 6 when putting in", Box::new(EntriesBeforeCoordinates)),
        ("question 3 asked before question 5 when putting in", Box::new(PointsLengthBeforeRecord)),
        ("question 12 asked before question 3 of a contour", Box::new(ContourPlacedEarly)),
        ("question 12 asked after question 6 of a contour", Box::new(ContourPlacedLate)),
        ("question 9 asked only of the table before", Box::new(OnlyBefore)),
        ("question 9 asked only of the table before when taking out", Box::new(OnlyBeforeTaking)),
        ("question 9 asked only of the table after", Box::new(OnlyAfter)),
        ("question 9 asked only of the root after", Box::new(OnlyRoot)),
        ("question 9 asked only of entries that change", Box::new(OnlyChanged)),
        ("the changed table left where question 9 refuses", Box::new(NotPutBack)),
        ("the entries before the first out of range changed", Box::new(ChangedUpToFirst)),
        ("the record counted where question 9 refuses", Box::new(CountedBeforeEntries)),
        ("the record counted whatever is refused", Box::new(CountedFirst)),
    ]
}

/// All variants of 02's P4, each with a short name. Like 01's they can be told
/// by calls without a placement; the last one, which is about the exact area's
/// grey, by demand 3 alone.
pub fn of_magnitude() -> Vec<(&'static str, Box<dyn Rules>)> {
    vec![
        ("a figure below zero white", Box::new(BelowZeroWhite)),
        ("the magnitude of the rounded quotient", Box::new(MagnitudeOfRounded)),
        ("a magnitude below zero one unit short", Box::new(MagnitudeOneShort)),
        ("magnitudes drawn as figures", Box::new(MagnitudesDrawn)),
        ("a magnitude handed on at each level", Box::new(MagnitudeHandedOn)),
        ("figures turned by the root's sign", Box::new(TurnedByRoot)),
        ("each contour turned clockwise", Box::new(ContoursTurned)),
        ("an exact area below zero white", Box::new(ExactBelowZeroWhite)),
    ]
}

/// All variants of how every level is drawn in one call, each with a short name.
/// Only [`pyramid`](crate::pyramid) can tell them.
pub fn of_every_level() -> Vec<(&'static str, Box<dyn Rules>)> {
    vec![
        ("the deepest level first", Box::new(DeepestFirst)),
        ("places for the deepest level alone", Box::new(DeepestAlone)),
        ("question 9 asked before question 8 of every level", Box::new(EntriesBeforePlaces)),
    ]
}

/// All variants of 02's P5, each with a short name. They have a list of their own
/// because only the calls on a sheet can tell them.
pub fn of_sheet() -> Vec<(&'static str, Box<dyn Rules>)> {
    vec![
        ("the signed area as the root on a sheet", Box::new(ShoelaceRoot)),
        ("edges off the tile left out of the root", Box::new(OffTileSkipped)),
        ("x past the tile's right side not held in the root", Box::new(RightNotHeld)),
        ("the root on a sheet rounded once", Box::new(RootRoundedOnce)),
        ("the place in pixels", Box::new(PlaceInPixels)),
        ("column and row exchanged", Box::new(PlaceExchanged)),
        ("the place in the root alone", Box::new(PlaceInRootAlone)),
        ("a place at the far border accepted", Box::new(FarBorderLetIn)),
        ("the place multiplied in 32 bits", Box::new(PlaceMultiplied)),
        ("question 15 without the row", Box::new(RowNotAsked)),
        ("question 15 asked before question 14", Box::new(PlaceBeforeSides)),
        ("question 15 asked after question 2", Box::new(PlaceAfterTable)),
        ("question 1 asked before question 14", Box::new(SideAskedFirst)),
        ("a sheet of 256 accepted", Box::new(LargerSheet)),
        ("a sheet of 128 refused", Box::new(LargestSheetRefused)),
        ("a tile of 64 on a sheet accepted", Box::new(LargerTileOnSheet)),
        ("a tile of 32 on a sheet refused", Box::new(LargestTileRefused)),
        ("a sheet's side with two bits accepted", Box::new(AnySheetSide)),
        ("a tile larger than its sheet not 14", Box::new(LargerThanSheet)),
        ("question 2 with the sheet's side", Box::new(SheetTable)),
        ("question 6 with the tile's side", Box::new(TileCoordinates)),
    ]
}

/// All variants of 02's P6, each with a short name. They have a list of their own
/// because only the calls with marks can tell them.
pub fn of_curve() -> Vec<(&'static str, Box<dyn Rules>)> {
    vec![
        ("k one too small", Box::new(OneHalvingLess)),
        ("k one too large", Box::new(OneHalvingMore)),
        ("k at most 6", Box::new(SixHalvings)),
        ("k by x alone", Box::new(FlatInX)),
        ("k by y alone", Box::new(FlatInY)),
        ("k by either coordinate", Box::new(FlatInEither)),
        ("k by both coordinates' sum", Box::new(FlatInSum)),
        ("k by the length of the second difference", Box::new(FlatInLength)),
        ("k where a coordinate reaches its limit", Box::new(LimitNotFlat)),
        ("k by twice the limit for each halving", Box::new(LimitDoubled)),
        ("chord ends' halves towards the smaller", Box::new(ChordHalvesSmaller)),
        ("chord ends' halves to the even step", Box::new(ChordHalvesEven)),
        ("chord ends cut off", Box::new(ChordEndsCut)),
        ("chord ends on the control polygon", Box::new(OnControlPolygon)),
        ("chord ends by halving, rounded at each level", Box::new(RoundedHalving)),
        ("the last chord of a curve left out", Box::new(LastChordLeftOut)),
        ("a closing curve taken for straight", Box::new(ClosingCurveStraight)),
        ("every curve taken for straight", Box::new(CurvesStraight)),
        ("control points not placed", Box::new(ControlNotPlaced)),
        ("chords made before they are placed", Box::new(ChordsFirst)),
        ("the control point before the start", Box::new(ControlFirst)),
        ("four numbers for every edge", Box::new(FourNumbers)),
        ("marks from the first one on for each contour", Box::new(MarksFromFirst)),
        ("mark 2 taken for curved", Box::new(MarkTwoCurved)),
        ("marks past 1 taken for straight", Box::new(MarksPastOneStraight)),
        ("too many marks accepted", Box::new(MoreMarks)),
        ("too few marks accepted", Box::new(FewerMarks)),
        ("question 16 asked after question 3", Box::new(MarksAfterPointsLength)),
        ("question 16 asked before question 4", Box::new(MarksBeforeCounts)),
        ("question 5 asked before question 3", Box::new(ChordsBeforePointsLength)),
        ("question 5 asked before question 12", Box::new(ChordsBeforePlacing)),
        ("question 5 asked before question 6", Box::new(ChordsBeforeCoordinates)),
        ("question 5 asked after question 13", Box::new(ChordsAfterRecorded)),
        ("question 5 asked after question 9", Box::new(ChordsAfterEntries)),
        ("question 5 not asked when taking curves out", Box::new(ChordsNotAskedTaking)),
        ("question 5 of the edges as marked", Box::new(MarkedSummed)),
        ("question 13 of the edges as marked", Box::new(MarkedTaken)),
        ("the record counting edges as marked", Box::new(MarkedRecorded)),
        ("building answering edges as marked", Box::new(MarkedAnswered)),
        ("question 6 without control points", Box::new(ControlsNotJudged)),
        ("question 12 without control points", Box::new(ControlsMovedFromAnywhere)),
    ]
}

/// Wrong: a half below zero goes up towards zero, not away from it.
pub struct HalvesUpwards;

impl Rules for HalvesUpwards {
    fn round(&self, value: Fraction) -> i64 {
        (2 * value.num + value.den).div_euclid(2 * value.den) as i64
    }
}

/// Wrong: the edges' values are summed first and the sum is rounded.
pub struct SumRoundedOnce;

impl Rules for SumRoundedOnce {
    fn entry(&self, values: &[Fraction]) -> i64 {
        let mut sum = Exact::default();
        for value in values {
            sum.add_fraction(value.num, value.den);
        }
        sum.round() as i64
    }
}

/// Wrong: areas are divided by 4 at each level, which drops what is left over,
/// instead of being kept 4^L times as large.
pub struct DividingEachLevel;

impl Rules for DividingEachLevel {
    fn quarter(&self, parent: i64, j: u32, details: i64) -> i64 {
        let area = parent / 4i64.pow(j);
        (area + details) / 4 * 4i64.pow(j + 1)
    }
}

/// Wrong: h measures x from the left side only, so that an edge right of the
/// cell counts in it.
pub struct LeftSideOnly;

impl Rules for LeftSideOnly {
    fn distance(&self, left: i64, _width: i64) -> Profile {
        Profile::new(vec![Bend { at: left, turn: 1 }])
    }
}

/// Wrong: a figure below zero is held at zero before it is handed on to the
/// quarters.
pub struct HeldEarly;

impl Rules for HeldEarly {
    fn quarter(&self, parent: i64, j: u32, details: i64) -> i64 {
        parent.max(0) + 4i64.pow(j) * details
    }
}

/// Wrong: v is the same as h with x and y exchanged, without the minus.
pub struct TurnedV;

impl Rules for TurnedV {
    fn v_sign(&self) -> i128 {
        1
    }
}

/// Wrong: a contour's last point is not joined to its first.
pub struct NoClosingEdge;

impl Rules for NoClosingEdge {
    fn joined_to(&self, i: usize, count: usize) -> Option<usize> {
        (i + 1 < count).then_some(i + 1)
    }
}

/// Wrong: building asks question 3 before question 5, not after it.
pub struct OtherOrder;

impl Rules for OtherOrder {
    fn building(&self) -> Vec<Question> {
        use Question::*;
        vec![Side, TableLength, EachCount, PointsLength, CountSum, Placing, Coordinates]
    }
}

/// Wrong: 1,025 edges are accepted.
pub struct OneEdgeMore;

impl Rules for OneEdgeMore {
    fn limits(&self) -> Limits {
        Limits { most_edges: Limits::SPEC.most_edges + 1, ..Limits::SPEC }
    }
}

/// Wrong: an entry of 2^40 + 1 is drawn.
pub struct OneUnitMore;

impl Rules for OneUnitMore {
    fn limits(&self) -> Limits {
        Limits { largest_entry: Limits::SPEC.largest_entry + 1, ..Limits::SPEC }
    }
}

/// Wrong: of all levels, the deepest is drawn first and level 0 last.
pub struct DeepestFirst;

impl Rules for DeepestFirst {
    fn levels(&self, depth: u32) -> Vec<u32> {
        (0..=depth).rev().collect()
    }
}

/// Wrong: a list with places for the deepest level alone is taken for one with
/// places for all.
pub struct DeepestAlone;

impl Rules for DeepestAlone {
    fn all_places(&self, depth: u32) -> u128 {
        1 << (2 * depth)
    }
}

/// Wrong: where every level is drawn, question 9 is asked before question 8, not
/// after it.
pub struct EntriesBeforePlaces;

impl Rules for EntriesBeforePlaces {
    fn every_level(&self) -> Vec<Question> {
        use Question::*;
        vec![Side, TableLength, Entries, Places]
    }
}

/// Wrong: one cell is asked question 9 before question 10, not after it.
pub struct EntriesFirst;

impl Rules for EntriesFirst {
    fn one_cell(&self) -> Vec<Question> {
        use Question::*;
        vec![Side, TableLength, Level, Entries, CellNumbers]
    }
}

/// Wrong: a cell that is half ink is 127 and not 128.
pub struct GreyHalvesDown;

impl Rules for GreyHalvesDown {
    fn grey(&self, figure: i64, side: u32) -> u8 {
        let ink = i128::from(figure).abs();
        held(-(full(side) - 2 * i128::from(FULL_GREY) * ink).div_euclid(2 * full(side)))
    }
}

/// Wrong: a placed coordinate of 0.5 is 0, and one of −0.5 is −1.
pub struct PlacedHalvesSmaller;

impl Rules for PlacedHalvesSmaller {
    fn nearest_step(&self, value: Fraction) -> i128 {
        -(value.den - 2 * value.num).div_euclid(2 * value.den)
    }
}

/// Wrong: a placed coordinate of −0.5 is −1, as an edge's value would be.
pub struct PlacedHalvesAway;

impl Rules for PlacedHalvesAway {
    fn nearest_step(&self, value: Fraction) -> i128 {
        value.num.signum() * ((2 * value.num.abs() + value.den) / (2 * value.den))
    }
}

/// Wrong: a placed coordinate of 0.5 is 0, and one of 1.5 is 2.
pub struct PlacedHalvesEven;

impl Rules for PlacedHalvesEven {
    fn nearest_step(&self, value: Fraction) -> i128 {
        let larger = Spec.nearest_step(value);
        let half = 2 * value.num + value.den == larger * 2 * value.den;
        if half && larger % 2 != 0 {
            larger - 1
        } else {
            larger
        }
    }
}

/// Wrong: a placed coordinate goes towards zero, as a cast does it.
pub struct PlacedFractionsCut;

impl Rules for PlacedFractionsCut {
    fn nearest_step(&self, value: Fraction) -> i128 {
        value.num / value.den
    }
}

/// Wrong: the products and the offset are rounded apart and then added.
pub struct OffsetsAfterRounding;

impl Rules for OffsetsAfterRounding {
    fn placed_coordinate(&self, products: [i128; 2], offset: i128) -> i128 {
        Spec.placed_coordinate(products, 0) + Spec.placed_coordinate([0; 2], offset)
    }
}

/// Wrong: b × y and e × y are rounded before they are added to the rest.
pub struct SecondProductRounded;

impl Rules for SecondProductRounded {
    fn placed_coordinate(&self, products: [i128; 2], offset: i128) -> i128 {
        Spec.placed_coordinate([products[0], 0], offset) + Spec.placed_coordinate([0, products[1]], 0)
    }
}

/// Wrong: the four factors are taken column by column, which turns the sheet
/// the other way.
pub struct FactorsExchanged;

impl Rules for FactorsExchanged {
    fn turn(&self, placement: Placement) -> [f64; 6] {
        let [a, b, c, d, e, f] = Spec.turn(placement);
        [a, d, c, b, e, f]
    }
}

/// Wrong: the placed x is written over x before y is worked out.
pub struct PlacedInPlace;

impl Rules for PlacedInPlace {
    fn placed_point(&self, turn: [i128; 6], x: i128, y: i128) -> [i128; 2] {
        let [x, _] = Spec.placed_point(turn, x, y);
        [x, Spec.placed_point(turn, x, y)[1]]
    }
}

/// Wrong: a scale leaves y as it is.
pub struct ScaleOfX;

impl Rules for ScaleOfX {
    fn turn(&self, placement: Placement) -> [f64; 6] {
        match placement {
            Placement::Scale(factor) => [factor, 0.0, 0.0, 0.0, 1.0, 0.0],
            other => Spec.turn(other),
        }
    }
}

/// Wrong: a float may be an odd multiple of 1/131,072.
pub struct FinerFloats;

impl Rules for FinerFloats {
    fn parts(&self) -> i128 {
        2 * PARTS
    }
}

/// Wrong: an odd multiple of 1/65,536 is refused.
pub struct CoarserFloats;

impl Rules for CoarserFloats {
    fn parts(&self) -> i128 {
        PARTS / 2
    }
}

/// Wrong: an infinity is held at the limit that it lies past.
pub struct InfinityAsLimit;

impl Rules for InfinityAsLimit {
    fn number(&self, float: f64, limit: i128) -> Option<i128> {
        if float.to_bits() == f64::INFINITY.to_bits() {
            return Some(limit);
        }
        if float.to_bits() == f64::NEG_INFINITY.to_bits() {
            return Some(-limit);
        }
        Spec.number(float, limit)
    }
}

/// Wrong: what is not a number is 0, as a cast to a whole number makes it.
pub struct NotANumberAsNought;

impl Rules for NotANumberAsNought {
    fn number(&self, float: f64, limit: i128) -> Option<i128> {
        Spec.number(if float.is_nan() { 0.0 } else { float }, limit)
    }
}

/// Wrong: a float too small to be normal is 0, as where subnormals are flushed.
pub struct SubnormalAsNought;

impl Rules for SubnormalAsNought {
    fn number(&self, float: f64, limit: i128) -> Option<i128> {
        Spec.number(if float.is_subnormal() { 0.0 } else { float }, limit)
    }
}

/// Wrong: minus nought is no multiple of 1/65,536.
pub struct MinusNoughtRefused;

impl Rules for MinusNoughtRefused {
    fn number(&self, float: f64, limit: i128) -> Option<i128> {
        Spec.number(float, limit).filter(|_| float.to_bits() != (-0.0f64).to_bits())
    }
}

/// Wrong: a factor may be from −4 to 4.
pub struct FactorsUpTo4;

impl Rules for FactorsUpTo4 {
    fn limits(&self) -> Limits {
        Limits { largest_factor: 4 * PARTS, ..Limits::SPEC }
    }
}

/// Wrong: a factor of 2 + 1/65,536 is accepted.
pub struct FactorPastLimit;

impl Rules for FactorPastLimit {
    fn limits(&self) -> Limits {
        Limits { largest_factor: Limits::SPEC.largest_factor + 1, ..Limits::SPEC }
    }
}

/// Wrong: a factor of 2 is refused.
pub struct FactorAtLimitRefused;

impl Rules for FactorAtLimitRefused {
    fn limits(&self) -> Limits {
        Limits { largest_factor: Limits::SPEC.largest_factor - 1, ..Limits::SPEC }
    }
}

/// Wrong: an offset of 16,384 + 1/65,536 is accepted.
pub struct OffsetPastLimit;

impl Rules for OffsetPastLimit {
    fn limits(&self) -> Limits {
        Limits { largest_offset: Limits::SPEC.largest_offset + 1, ..Limits::SPEC }
    }
}

/// Wrong: an offset of 16,384 is refused.
pub struct OffsetAtLimitRefused;

impl Rules for OffsetAtLimitRefused {
    fn limits(&self) -> Limits {
        Limits { largest_offset: Limits::SPEC.largest_offset - 1, ..Limits::SPEC }
    }
}

/// Wrong: a point to be moved may have a coordinate of 32,768.
pub struct HigherPointMoved;

impl Rules for HigherPointMoved {
    fn limits(&self) -> Limits {
        Limits { highest_moved: Limits::SPEC.highest_moved + 1, ..Limits::SPEC }
    }
}

/// Wrong: a point to be moved may have a coordinate of −32,769.
pub struct LowerPointMoved;

impl Rules for LowerPointMoved {
    fn limits(&self) -> Limits {
        Limits { lowest_moved: Limits::SPEC.lowest_moved - 1, ..Limits::SPEC }
    }
}

/// Wrong: a point to be moved lies from −32,767 to 32,767.
pub struct LowestPointRefused;

impl Rules for LowestPointRefused {
    fn limits(&self) -> Limits {
        Limits { lowest_moved: Limits::SPEC.lowest_moved + 1, ..Limits::SPEC }
    }
}

/// Wrong: points that no placement moves are asked about as if it did.
pub struct NoneJudged;

impl Rules for NoneJudged {
    fn moves_points(&self, _placement: Placement) -> bool {
        true
    }
}

/// Wrong: a float is asked about only when a point is moved by it.
pub struct FloatsOfPointsOnly;

impl Rules for FloatsOfPointsOnly {
    fn asks_floats(&self, points: &[i64]) -> bool {
        !points.is_empty()
    }
}

/// Wrong: building asks question 12 before question 3, not after it.
pub struct PlacingBeforePointsLength;

impl Rules for PlacingBeforePointsLength {
    fn building(&self) -> Vec<Question> {
        use Question::*;
        vec![Side, TableLength, EachCount, CountSum, Placing, PointsLength, Coordinates]
    }
}

/// Wrong: building asks question 12 after question 6, not before it.
pub struct PlacingAfterCoordinates;

impl Rules for PlacingAfterCoordinates {
    fn building(&self) -> Vec<Question> {
        use Question::*;
        vec![Side, TableLength, EachCount, CountSum, PointsLength, Coordinates, Placing]
    }
}

/// Wrong: question 6 is decided on the points before they are moved.
pub struct JudgedBefore;

impl Rules for JudgedBefore {
    fn judged<'a>(&self, before: &'a [i64], _placed: &'a [i64]) -> &'a [i64] {
        before
    }
}

/// Wrong: taking out puts the contour in a second time.
pub struct TakingAdds;

impl Rules for TakingAdds {
    fn changed(&self, _correction: Correction, entry: i128, value: i128) -> i128 {
        Spec.changed(Correction::PutIn, entry, value)
    }
}

/// Wrong: of a contour taken out, the last point is not joined to the first.
pub struct ClosingEdgeLeftIn;

impl Rules for ClosingEdgeLeftIn {
    fn corrected_edges(&self, correction: Correction, mut edges: Vec<Edge>) -> Vec<Edge> {
        if correction == Correction::TakeOut {
            edges.pop();
        }
        edges
    }
}

/// Wrong: the placement of a contour put in is asked about and not used.
pub struct PutInUnplaced;

impl Rules for PutInUnplaced {
    fn corrected_points<'a>(&self, correction: Correction, before: &'a [i64], placed: &'a [i64]) -> &'a [i64] {
        match correction {
            Correction::PutIn => before,
            Correction::TakeOut => placed,
        }
    }
}

/// Wrong: the placement of a contour taken out is asked about and not used.
pub struct TakenOutUnplaced;

impl Rules for TakenOutUnplaced {
    fn corrected_points<'a>(&self, correction: Correction, before: &'a [i64], placed: &'a [i64]) -> &'a [i64] {
        match correction {
            Correction::PutIn => placed,
            Correction::TakeOut => before,
        }
    }
}

/// Wrong: the record is the same after putting in.
pub struct NotCountedIn;

impl Rules for NotCountedIn {
    fn recorded(&self, correction: Correction, record: u32, count: u32) -> u32 {
        match correction {
            Correction::PutIn => record,
            Correction::TakeOut => Spec.recorded(correction, record, count),
        }
    }
}

/// Wrong: the record is the same after taking out.
pub struct NotCountedOut;

impl Rules for NotCountedOut {
    fn recorded(&self, correction: Correction, record: u32, count: u32) -> u32 {
        match correction {
            Correction::PutIn => Spec.recorded(correction, record, count),
            Correction::TakeOut => record,
        }
    }
}

/// Wrong: a contour is one more or one less in the record.
pub struct ContoursRecorded;

impl Rules for ContoursRecorded {
    fn recorded(&self, correction: Correction, record: u32, _count: u32) -> u32 {
        Spec.recorded(correction, record, 1)
    }
}

/// Wrong: putting in asks question 5 as building does, of the contour alone.
pub struct RecordNotAsked;

impl Rules for RecordNotAsked {
    fn asked_edges(&self, _correction: Correction, _record: u32, edges: u128) -> u128 {
        edges
    }
}

/// Wrong: taking out asks question 5 as putting in does.
pub struct RecordAskedTaking;

impl Rules for RecordAskedTaking {
    fn asked_edges(&self, _correction: Correction, record: u32, edges: u128) -> u128 {
        Spec.asked_edges(Correction::PutIn, record, edges)
    }
}

/// Wrong: a record of 2^32 − 1 and 3 edges are 2 edges.
pub struct RecordGoesRound;

impl Rules for RecordGoesRound {
    fn asked_edges(&self, correction: Correction, record: u32, edges: u128) -> u128 {
        Spec.asked_edges(correction, record, edges) % (1 << 32)
    }
}

/// Wrong: 1,024 edges with those that the record counts are too many.
pub struct FullRecordRefused;

impl Rules for FullRecordRefused {
    fn asked_edges(&self, correction: Correction, record: u32, edges: u128) -> u128 {
        match correction {
            Correction::PutIn => Spec.asked_edges(correction, record, edges) + 1,
            Correction::TakeOut => edges,
        }
    }
}

/// Wrong: more edges than the record counts are taken out.
pub struct MoreTakenOut;

impl Rules for MoreTakenOut {
    fn enough_recorded(&self, _record: u32, _edges: u128) -> bool {
        true
    }
}

/// Wrong: the last edges that the record counts cannot be taken out.
pub struct AllRefused;

impl Rules for AllRefused {
    fn enough_recorded(&self, record: u32, edges: u128) -> bool {
        edges < u128::from(record)
    }
}

/// Wrong: putting in asks the questions of taking out.
pub struct RecordedAskedPutting;

impl Rules for RecordedAskedPutting {
    fn putting(&self) -> Vec<Question> {
        self.taking()
    }
}

/// Wrong: taking out asks question 13 before question 6, not after it.
pub struct RecordedBeforeCoordinates;

impl Rules for RecordedBeforeCoordinates {
    fn taking(&self) -> Vec<Question> {
        use Question::*;
        vec![Side, TableLength, EachCount, CountSum, PointsLength, Placing, EnoughRecorded, Coordinates, Entries]
    }
}

/// Wrong: taking out asks question 13 after question 9, not before it.
pub struct RecordedAfterEntries;

impl Rules for RecordedAfterEntries {
    fn taking(&self) -> Vec<Question> {
        use Question::*;
        vec![Side, TableLength, EachCount, CountSum, PointsLength, Placing, Coordinates, Entries, EnoughRecorded]
    }
}

/// Wrong: the tile is asked about first, right after question 2, and then the
/// contour.
pub struct EntriesBeforeContour;

impl Rules for EntriesBeforeContour {
    fn putting(&self) -> Vec<Question> {
        use Question::*;
        vec![Side, TableLength, Entries, EachCount, CountSum, PointsLength, Placing, Coordinates]
    }

    fn taking(&self) -> Vec<Question> {
        use Question::*;
        vec![Side, TableLength, Entries, EachCount, CountSum, PointsLength, Placing, Coordinates, EnoughRecorded]
    }
}

/// Wrong: putting in asks question 9 before question 6, not after it.
pub struct EntriesBeforeCoordinates;

impl Rules for EntriesBeforeCoordinates {
    fn putting(&self) -> Vec<Question> {
        use Question::*;
        vec![Side, TableLength, EachCount, CountSum, PointsLength, Placing, Entries, Coordinates]
    }
}

/// Wrong: putting in asks question 3 before question 5, not after it. For
/// taking out this order is no other: question 4 has answered question 5.
pub struct PointsLengthBeforeRecord;

impl Rules for PointsLengthBeforeRecord {
    fn putting(&self) -> Vec<Question> {
        use Question::*;
        vec![Side, TableLength, EachCount, PointsLength, CountSum, Placing, Coordinates, Entries]
    }
}

/// Wrong: both corrections ask question 12 before question 3, not after it.
pub struct ContourPlacedEarly;

impl Rules for ContourPlacedEarly {
    fn putting(&self) -> Vec<Question> {
        use Question::*;
        vec![Side, TableLength, EachCount, CountSum, Placing, PointsLength, Coordinates, Entries]
    }

    fn taking(&self) -> Vec<Question> {
        use Question::*;
        vec![Side, TableLength, EachCount, CountSum, Placing, PointsLength, Coordinates, EnoughRecorded, Entries]
    }
}

/// Wrong: both corrections ask question 12 after question 6, not before it.
pub struct ContourPlacedLate;

impl Rules for ContourPlacedLate {
    fn putting(&self) -> Vec<Question> {
        use Question::*;
        vec![Side, TableLength, EachCount, CountSum, PointsLength, Coordinates, Placing, Entries]
    }

    fn taking(&self) -> Vec<Question> {
        use Question::*;
        vec![Side, TableLength, EachCount, CountSum, PointsLength, Coordinates, Placing, EnoughRecorded, Entries]
    }
}

/// Wrong: the table that the call would leave is not asked about.
pub struct OnlyBefore;

impl Rules for OnlyBefore {
    fn asked_entries(&self, correction: Correction, before: &[i64], _after: &[i128]) -> Vec<i128> {
        Spec.asked_entries(correction, before, &[])
    }
}

/// Wrong: the table that taking out would leave is not asked about, as if what
/// is taken out had always been put in.
pub struct OnlyBeforeTaking;

impl Rules for OnlyBeforeTaking {
    fn asked_entries(&self, correction: Correction, before: &[i64], after: &[i128]) -> Vec<i128> {
        match correction {
            Correction::PutIn => Spec.asked_entries(correction, before, after),
            Correction::TakeOut => Spec.asked_entries(correction, before, &[]),
        }
    }
}

/// Wrong: the table before the call is not asked about.
pub struct OnlyAfter;

impl Rules for OnlyAfter {
    fn asked_entries(&self, correction: Correction, _before: &[i64], after: &[i128]) -> Vec<i128> {
        Spec.asked_entries(correction, &[], after)
    }
}

/// Wrong: of the table that the call would leave, only entry 0 is asked about,
/// as if no other could be larger.
pub struct OnlyRoot;

impl Rules for OnlyRoot {
    fn asked_entries(&self, correction: Correction, before: &[i64], after: &[i128]) -> Vec<i128> {
        Spec.asked_entries(correction, before, &after[..1])
    }
}

/// Wrong: an entry that the contour leaves as it is is not asked about.
pub struct OnlyChanged;

impl Rules for OnlyChanged {
    fn asked_entries(&self, _correction: Correction, before: &[i64], after: &[i128]) -> Vec<i128> {
        let both = before.iter().map(|&entry| i128::from(entry)).zip(after.iter().copied());
        both.filter(|(before, after)| before != after).flat_map(|(before, after)| [before, after]).collect()
    }
}

/// Wrong: question 9 is asked of the table once it is changed, and it stays so.
pub struct NotPutBack;

impl Rules for NotPutBack {
    fn refused_table(&self, number: u8, before: &[i64], after: &[i128]) -> Vec<i64> {
        if number == Question::Entries as u8 {
            written(after)
        } else {
            before.to_vec()
        }
    }
}

/// Wrong: each entry is changed once it is found in range before and after, and
/// those stay changed that come before the first out of range.
pub struct ChangedUpToFirst;

impl Rules for ChangedUpToFirst {
    fn refused_table(&self, number: u8, before: &[i64], after: &[i128]) -> Vec<i64> {
        let drawn = |entry: i128| entry.abs() <= self.limits().largest_entry.into();
        let mut left = before.to_vec();
        if number == Question::Entries as u8 {
            let good = before.iter().zip(after).take_while(|(&before, &after)| drawn(before.into()) && drawn(after));
            let good = good.count();
            left[..good].copy_from_slice(&written(&after[..good]));
        }
        left
    }
}

/// Wrong: the record is counted, and then question 9 refuses.
pub struct CountedBeforeEntries;

impl Rules for CountedBeforeEntries {
    fn refused_record(&self, number: u8, before: u32, after: u32) -> u32 {
        if number == Question::Entries as u8 {
            after
        } else {
            before
        }
    }
}

/// Wrong: the record is counted before any question is asked.
pub struct CountedFirst;

impl Rules for CountedFirst {
    fn refused_record(&self, _number: u8, _before: u32, after: u32) -> u32 {
        after
    }
}

/// Wrong: 01's rule alone, by which "a figure below zero is 0, white."
pub struct BelowZeroWhite;

impl Rules for BelowZeroWhite {
    fn grey(&self, figure: i64, side: u32) -> u8 {
        held(nearest_grey(figure.into(), side))
    }
}

/// Wrong: the magnitude is taken once the quotient is rounded, so that a half
/// below zero goes up towards zero first.
pub struct MagnitudeOfRounded;

impl Rules for MagnitudeOfRounded {
    fn grey(&self, figure: i64, side: u32) -> u8 {
        held(nearest_grey(figure.into(), side).abs())
    }
}

/// Wrong: the bits of a figure below zero are turned and 1 is not added.
pub struct MagnitudeOneShort;

impl Rules for MagnitudeOneShort {
    fn grey(&self, figure: i64, side: u32) -> u8 {
        Spec.grey(if figure < 0 { !figure } else { figure }, side)
    }
}

/// Wrong: figures are answered as magnitudes, in a picture and alone.
pub struct MagnitudesDrawn;

impl Rules for MagnitudesDrawn {
    fn answered(&self, figure: i64) -> i64 {
        figure.abs()
    }
}

/// Wrong: a cell hands its figure's magnitude on to its quarters, and not the
/// figure.
pub struct MagnitudeHandedOn;

impl Rules for MagnitudeHandedOn {
    fn quarter(&self, parent: i64, j: u32, details: i64) -> i64 {
        Spec.quarter(parent.abs(), j, details)
    }
}

/// Wrong: the whole tile is taken to be traced one way, by the root's sign, and
/// then a figure of the other sign is white.
pub struct TurnedByRoot;

impl Rules for TurnedByRoot {
    fn grey_of_cell(&self, figure: i64, root: i64, side: u32) -> u8 {
        BelowZeroWhite.grey(if root < 0 { -figure } else { figure }, side)
    }
}

/// Wrong: a contour that was traced anticlockwise is turned before it is built,
/// which fills the holes.
pub struct ContoursTurned;

impl Rules for ContoursTurned {
    fn traced(&self, contour: Vec<Edge>) -> Vec<Edge> {
        let area: i64 = contour.iter().map(|edge| edge.shoelace()).sum();
        if area < 0 {
            contour.into_iter().map(Edge::turned).collect()
        } else {
            contour
        }
    }
}

/// Wrong: the exact area's grey is 01's still, though the drawn grey is that of
/// the magnitude.
pub struct ExactBelowZeroWhite;

impl Rules for ExactBelowZeroWhite {
    fn exact_grey(&self, area: &Exact, side: u32, level: u32) -> u8 {
        held(area.nearest_grey(side, level))
    }
}

/// Wrong: the root of a tile of a sheet is the signed area of the outline, as
/// that of a tile alone is.
pub struct ShoelaceRoot;

impl Rules for ShoelaceRoot {
    fn sheet_root(&self, edges: &[Edge], _place: SheetTile) -> i64 {
        edges.iter().map(|edge| edge.shoelace()).sum()
    }
}

/// Wrong: an edge no part of which lies inside the tile is passed over, for the
/// root too, as it rightly is for the details.
pub struct OffTileSkipped;

impl Rules for OffTileSkipped {
    fn sheet_root(&self, edges: &[Edge], place: SheetTile) -> i64 {
        let tile = self.square(place);
        let inside: Vec<Edge> = edges.iter().copied().filter(|edge| edge.comes_inside(tile)).collect();
        Spec.sheet_root(&inside, place)
    }
}

/// Wrong: in the root, how far x lies past the tile's left side is not held at
/// the tile's width.
pub struct RightNotHeld;

impl Rules for RightNotHeld {
    fn sheet_root(&self, edges: &[Edge], place: SheetTile) -> i64 {
        let tile = self.square(place);
        let past_left = Profile::new(vec![Bend { at: tile.left, turn: 1 }]);
        edges.iter().map(|edge| self.round(edge.area_by(&past_left, tile))).sum()
    }
}

/// Wrong: the edges' parts of the tile's area are summed first and the sum is
/// rounded.
pub struct RootRoundedOnce;

impl Rules for RootRoundedOnce {
    fn sheet_root(&self, edges: &[Edge], place: SheetTile) -> i64 {
        let tile = self.square(place);
        let mut sum = Exact::default();
        for edge in edges {
            let Fraction { num, den } = edge.area(tile);
            sum.add_fraction(num, den);
        }
        sum.round() as i64
    }
}

/// Wrong: a tile's column and row are counted in pixels, not in whole tiles.
pub struct PlaceInPixels;

impl Rules for PlaceInPixels {
    fn square(&self, place: SheetTile) -> Cell {
        let Cell { width, .. } = Spec.square(place);
        Cell { left: STEPS * i64::from(place.column), top: STEPS * i64::from(place.row), width }
    }
}

/// Wrong: the column counts tiles downwards, and the row to the right.
pub struct PlaceExchanged;

impl Rules for PlaceExchanged {
    fn square(&self, place: SheetTile) -> Cell {
        Spec.square(SheetTile { column: place.row, row: place.column, ..place })
    }
}

/// Wrong: the details are those of the sheet's upper left tile, and only the
/// root is the tile's own.
pub struct PlaceInRootAlone;

impl Rules for PlaceInRootAlone {
    fn square(&self, place: SheetTile) -> Cell {
        Spec.square(SheetTile { column: 0, row: 0, ..place })
    }

    fn sheet_root(&self, edges: &[Edge], place: SheetTile) -> i64 {
        Spec.sheet_root(edges, place)
    }
}

/// Wrong: a tile may begin where the sheet ends.
pub struct FarBorderLetIn;

impl Rules for FarBorderLetIn {
    fn is_on_sheet(&self, place: SheetTile) -> bool {
        let begins = |number: u32| u64::from(number) * u64::from(place.side);
        begins(place.column) <= place.sheet.into() && begins(place.row) <= place.sheet.into()
    }
}

/// Wrong: where a tile begins is worked out in 32 bits, which go round.
pub struct PlaceMultiplied;

impl Rules for PlaceMultiplied {
    fn is_on_sheet(&self, place: SheetTile) -> bool {
        place.column.wrapping_mul(place.side) < place.sheet && place.row.wrapping_mul(place.side) < place.sheet
    }
}

/// Wrong: a tile may lie below the sheet.
pub struct RowNotAsked;

impl Rules for RowNotAsked {
    fn is_on_sheet(&self, place: SheetTile) -> bool {
        Spec.is_on_sheet(SheetTile { row: 0, ..place })
    }
}

/// Wrong: the place is asked about before the sides that it depends on.
pub struct PlaceBeforeSides;

impl Rules for PlaceBeforeSides {
    fn on_sheet(&self, order: &[Question]) -> Vec<Question> {
        use Question::*;
        let mut order = Spec.on_sheet(order);
        order.retain(|&question| question != TilePlace);
        order.insert(0, TilePlace);
        order
    }
}

/// Wrong: the place is asked about after the table, not right after the sides.
pub struct PlaceAfterTable;

impl Rules for PlaceAfterTable {
    fn on_sheet(&self, order: &[Question]) -> Vec<Question> {
        use Question::*;
        let moved = |question: Question| match question {
            TilePlace => vec![],
            TableLength => vec![TableLength, TilePlace],
            other => vec![other],
        };
        Spec.on_sheet(order).into_iter().flat_map(moved).collect()
    }
}

/// Wrong: the tile's side is asked about as that of a tile alone first.
pub struct SideAskedFirst;

impl Rules for SideAskedFirst {
    fn on_sheet(&self, order: &[Question]) -> Vec<Question> {
        [vec![Question::Side], Spec.on_sheet(order)].concat()
    }
}

/// Wrong: a sheet may be 256 pixels wide.
pub struct LargerSheet;

impl Rules for LargerSheet {
    fn limits(&self) -> Limits {
        Limits { greatest_sheet: 2 * Limits::SPEC.greatest_sheet, ..Limits::SPEC }
    }
}

/// Wrong: a sheet is at most 64 pixels wide.
pub struct LargestSheetRefused;

impl Rules for LargestSheetRefused {
    fn limits(&self) -> Limits {
        Limits { greatest_sheet: Limits::SPEC.greatest_sheet / 2, ..Limits::SPEC }
    }
}

/// Wrong: a tile of a sheet may be as large as a tile alone.
pub struct LargerTileOnSheet;

impl Rules for LargerTileOnSheet {
    fn limits(&self) -> Limits {
        Limits { greatest_on_sheet: Limits::SPEC.greatest_side, ..Limits::SPEC }
    }
}

/// Wrong: a tile of a sheet is at most 16 pixels wide.
pub struct LargestTileRefused;

impl Rules for LargestTileRefused {
    fn limits(&self) -> Limits {
        Limits { greatest_on_sheet: Limits::SPEC.greatest_on_sheet / 2, ..Limits::SPEC }
    }
}

/// Wrong: a sheet's side need not be a power of two.
pub struct AnySheetSide;

impl Rules for AnySheetSide {
    fn are_sheet_sides(&self, place: SheetTile) -> bool {
        let Limits { greatest_sheet, greatest_on_sheet, .. } = self.limits();
        place.sheet <= greatest_sheet && is_side(place.side, greatest_on_sheet) && place.side <= place.sheet
    }
}

/// Wrong: a tile that is larger than its sheet is left to question 15.
pub struct LargerThanSheet;

impl Rules for LargerThanSheet {
    fn are_sheet_sides(&self, place: SheetTile) -> bool {
        let Limits { greatest_sheet, greatest_on_sheet, .. } = self.limits();
        is_side(place.sheet, greatest_sheet) && is_side(place.side, greatest_on_sheet)
    }
}

/// Wrong: the table has an entry for each pixel of the sheet.
pub struct SheetTable;

impl Rules for SheetTable {
    fn table_side(&self, place: SheetTile) -> u32 {
        place.sheet
    }
}

/// Wrong: a coordinate is at most 256 times the tile's side, as on a tile alone.
pub struct TileCoordinates;

impl Rules for TileCoordinates {
    fn coordinate_side(&self, place: SheetTile) -> u32 {
        place.side
    }
}

/// Wrong: a curve becomes half as many chords.
pub struct OneHalvingLess;

impl Rules for OneHalvingLess {
    fn halvings(&self, curve: Curve) -> u32 {
        Spec.halvings(curve).saturating_sub(1)
    }
}

/// Wrong: a curve becomes twice as many chords, where there may be as many.
pub struct OneHalvingMore;

impl Rules for OneHalvingMore {
    fn halvings(&self, curve: Curve) -> u32 {
        (Spec.halvings(curve) + 1).min(Limits::SPEC.most_halvings)
    }
}

/// Wrong: a curve becomes at most 64 chords.
pub struct SixHalvings;

impl Rules for SixHalvings {
    fn limits(&self) -> Limits {
        Limits { most_halvings: Limits::SPEC.most_halvings - 1, ..Limits::SPEC }
    }
}

/// Wrong: only x is asked about.
pub struct FlatInX;

impl Rules for FlatInX {
    fn is_flat(&self, [x, _]: [i128; 2], k: u32) -> bool {
        Spec.is_flat([x, 0], k)
    }
}

/// Wrong: only y is asked about.
pub struct FlatInY;

impl Rules for FlatInY {
    fn is_flat(&self, [_, y]: [i128; 2], k: u32) -> bool {
        Spec.is_flat([0, y], k)
    }
}

/// Wrong: x and y have a k each, and the smaller is taken.
pub struct FlatInEither;

impl Rules for FlatInEither {
    fn is_flat(&self, [x, y]: [i128; 2], k: u32) -> bool {
        Spec.is_flat([x, 0], k) || Spec.is_flat([0, y], k)
    }
}

/// Wrong: the two magnitudes together are not to exceed the limit.
pub struct FlatInSum;

impl Rules for FlatInSum {
    fn is_flat(&self, [x, y]: [i128; 2], k: u32) -> bool {
        Spec.is_flat([x.abs() + y.abs(), 0], k)
    }
}

/// Wrong: the distance, and not each coordinate, is not to exceed the limit.
pub struct FlatInLength;

impl Rules for FlatInLength {
    fn is_flat(&self, [x, y]: [i128; 2], k: u32) -> bool {
        // No square is worked out of what is too large as it is, for it need not fit.
        Spec.is_flat([x, y], k) && x * x + y * y <= (4 * 4i128.pow(k)).pow(2)
    }
}

/// Wrong: a magnitude of 4 × 4^k itself is too large for k.
pub struct LimitNotFlat;

impl Rules for LimitNotFlat {
    fn is_flat(&self, [x, y]: [i128; 2], k: u32) -> bool {
        Spec.is_flat([x.abs() + 1, y.abs() + 1], k)
    }
}

/// Wrong: the limit is 4 × 2^k, as if a chord half as long left its curve by half
/// as much and not by a quarter.
pub struct LimitDoubled;

impl Rules for LimitDoubled {
    fn is_flat(&self, [x, y]: [i128; 2], k: u32) -> bool {
        x.abs().max(y.abs()) <= 4 << k
    }
}

/// Wrong: a chord's end at 1 1/2 is 1.
pub struct ChordHalvesSmaller;

impl Rules for ChordHalvesSmaller {
    fn chord_end(&self, value: Fraction) -> i128 {
        PlacedHalvesSmaller.nearest_step(value)
    }
}

/// Wrong: a chord's end at 1/2 is 0, and one at 1 1/2 is 2.
pub struct ChordHalvesEven;

impl Rules for ChordHalvesEven {
    fn chord_end(&self, value: Fraction) -> i128 {
        PlacedHalvesEven.nearest_step(value)
    }
}

/// Wrong: a chord's end loses its fraction.
pub struct ChordEndsCut;

impl Rules for ChordEndsCut {
    fn chord_end(&self, value: Fraction) -> i128 {
        value.num / value.den
    }
}

/// Wrong: the chords end on the two lines from the start over the control point to
/// the end.
pub struct OnControlPolygon;

impl Rules for OnControlPolygon {
    fn curve_point(&self, curve: Curve, i: i128, n: i128) -> [Fraction; 2] {
        [0, 1].map(|c| {
            let [start, control, end] = [curve.start, curve.control, curve.end].map(|point| i128::from(point[c]));
            let num = if 2 * i <= n {
                (n - 2 * i) * start + 2 * i * control
            } else {
                2 * (n - i) * control + (2 * i - n) * end
            };
            Fraction { num, den: n }
        })
    }
}

/// Wrong: a curve is halved into two curves, these into four and so on, and every
/// middle is rounded on the way.
pub struct RoundedHalving;

impl Rules for RoundedHalving {
    fn chord_ends(&self, curve: Curve, k: u32) -> Vec<[i64; 2]> {
        let Curve { start, control, end } = curve;
        if k == 0 {
            return vec![start, end];
        }
        let middle = |a: [i64; 2], b: [i64; 2]| {
            [0, 1].map(|c| self.chord_end(Fraction { num: i128::from(a[c]) + i128::from(b[c]), den: 2 }) as i64)
        };
        let (first, second) = (middle(start, control), middle(control, end));
        let between = middle(first, second);
        let mut ends = self.chord_ends(Curve { start, control: first, end: between }, k - 1);
        ends.pop();
        ends.append(&mut self.chord_ends(Curve { start: between, control: second, end }, k - 1));
        ends
    }
}

/// Wrong: a curve's chords end one before its end.
pub struct LastChordLeftOut;

impl Rules for LastChordLeftOut {
    fn chords_between(&self, ends: &[[i64; 2]]) -> Vec<Edge> {
        Spec.chords_between(&ends[..ends.len() - 1])
    }
}

/// Wrong: the last edge of a contour is straight whatever its mark.
pub struct ClosingCurveStraight;

impl Rules for ClosingCurveStraight {
    fn bends(&self, i: usize, count: usize) -> bool {
        i + 1 < count
    }
}

/// Wrong: control points are read, and not used.
pub struct CurvesStraight;

impl Rules for CurvesStraight {
    fn bends(&self, _i: usize, _count: usize) -> bool {
        false
    }
}

/// Wrong: only the starts of the edges are placed.
pub struct ControlNotPlaced;

impl Rules for ControlNotPlaced {
    fn placed_control(&self, before: [i64; 2], _placed: [i64; 2]) -> [i64; 2] {
        before
    }
}

/// Wrong: the chords are those of the curves as they came, and their ends are
/// placed.
pub struct ChordsFirst;

impl Rules for ChordsFirst {
    fn chords_first(&self) -> bool {
        true
    }
}

/// Wrong: a curved edge's control point comes before its start.
pub struct ControlFirst;

impl Rules for ControlFirst {
    fn start_and_control(&self, [control, start]: [[i64; 2]; 2]) -> [[i64; 2]; 2] {
        [start, control]
    }
}

/// Wrong: a straight edge has a control point too, which is not used.
pub struct FourNumbers;

impl Rules for FourNumbers {
    fn wanted_numbers(&self, _mark: u8) -> usize {
        4
    }
}

/// Wrong: every contour begins with the first mark of all.
pub struct MarksFromFirst;

impl Rules for MarksFromFirst {
    fn first_mark(&self, _before: u128) -> u128 {
        0
    }
}

/// Wrong: 2 is a mark, and means curved.
pub struct MarkTwoCurved;

impl Rules for MarkTwoCurved {
    fn is_mark(&self, mark: u8) -> bool {
        mark <= 2
    }

    fn is_curved(&self, mark: u8) -> bool {
        mark == 1 || mark == 2
    }
}

/// Wrong: any byte is a mark, and all but 1 mean straight.
pub struct MarksPastOneStraight;

impl Rules for MarksPastOneStraight {
    fn is_mark(&self, _mark: u8) -> bool {
        true
    }
}

/// Wrong: marks that belong to no edge are passed over.
pub struct MoreMarks;

impl Rules for MoreMarks {
    fn are_enough_marks(&self, marks: u128, edges: u128) -> bool {
        marks >= edges
    }
}

/// Wrong: edges that have no mark are straight.
pub struct FewerMarks;

impl Rules for FewerMarks {
    fn are_enough_marks(&self, marks: u128, edges: u128) -> bool {
        marks <= edges
    }
}

/// The papers' order for a call with marks, with one question elsewhere: right
/// before another, if both are asked.
fn asked_before(question: Question, other: Question, order: &[Question]) -> Vec<Question> {
    let order = Spec.with_marks(order);
    if !order.contains(&question) {
        return order;
    }
    let moved = |each: Question| match each {
        each if each == question => vec![],
        each if each == other => vec![question, other],
        each => vec![each],
    };
    order.into_iter().flat_map(moved).collect()
}

/// Wrong: question 16 comes right after question 3.
pub struct MarksAfterPointsLength;

impl Rules for MarksAfterPointsLength {
    fn with_marks(&self, order: &[Question]) -> Vec<Question> {
        asked_before(Question::PointsLength, Question::Marks, order)
    }
}

/// Wrong: question 16 comes right before question 4.
pub struct MarksBeforeCounts;

impl Rules for MarksBeforeCounts {
    fn with_marks(&self, order: &[Question]) -> Vec<Question> {
        asked_before(Question::Marks, Question::EachCount, order)
    }
}

/// Wrong: question 5 comes before question 3, as it does without marks.
pub struct ChordsBeforePointsLength;

impl Rules for ChordsBeforePointsLength {
    fn with_marks(&self, order: &[Question]) -> Vec<Question> {
        asked_before(Question::CountSum, Question::PointsLength, order)
    }
}

/// Wrong: question 5 comes right before question 12.
pub struct ChordsBeforePlacing;

impl Rules for ChordsBeforePlacing {
    fn with_marks(&self, order: &[Question]) -> Vec<Question> {
        asked_before(Question::CountSum, Question::Placing, order)
    }
}

/// Wrong: question 5 comes right before question 6.
pub struct ChordsBeforeCoordinates;

impl Rules for ChordsBeforeCoordinates {
    fn with_marks(&self, order: &[Question]) -> Vec<Question> {
        asked_before(Question::CountSum, Question::Coordinates, order)
    }
}

/// Wrong: question 5 comes right after question 13.
pub struct ChordsAfterRecorded;

impl Rules for ChordsAfterRecorded {
    fn with_marks(&self, order: &[Question]) -> Vec<Question> {
        asked_before(Question::EnoughRecorded, Question::CountSum, order)
    }
}

/// Wrong: question 5 comes last, after question 9.
pub struct ChordsAfterEntries;

impl Rules for ChordsAfterEntries {
    fn with_marks(&self, order: &[Question]) -> Vec<Question> {
        let mut order = Spec.with_marks(order);
        order.retain(|&each| each != Question::CountSum);
        order.push(Question::CountSum);
        order
    }
}

/// Wrong: taking out is not asked question 5, as if question 4 had answered it for
/// the chords as well.
pub struct ChordsNotAskedTaking;

impl Rules for ChordsNotAskedTaking {
    fn asked_edges(&self, correction: Correction, record: u32, edges: u128) -> u128 {
        match correction {
            Correction::PutIn => Spec.asked_edges(correction, record, edges),
            Correction::TakeOut => 0,
        }
    }
}

/// Wrong: question 5 counts a curve as one edge.
pub struct MarkedSummed;

impl Rules for MarkedSummed {
    fn summed_edges(&self, marked: u128, _chords: u128) -> u128 {
        marked
    }
}

/// Wrong: question 13 counts a curve as one edge.
pub struct MarkedTaken;

impl Rules for MarkedTaken {
    fn taken_edges(&self, marked: u128, _chords: u128) -> u128 {
        marked
    }
}

/// Wrong: the record counts a curve as one edge.
pub struct MarkedRecorded;

impl Rules for MarkedRecorded {
    fn recorded_edges(&self, marked: u32, _chords: u32) -> u32 {
        marked
    }
}

/// Wrong: the edge count that building answers has a curve as one edge.
pub struct MarkedAnswered;

impl Rules for MarkedAnswered {
    fn answered_edges(&self, marked: u32, _chords: u32) -> u32 {
        marked
    }
}

/// Wrong: a control point may lie off the tile.
pub struct ControlsNotJudged;

impl Rules for ControlsNotJudged {
    fn coordinates_cover_controls(&self) -> bool {
        false
    }

    // One that is very far off is held where its chords can be worked out.
    fn placed_control(&self, _before: [i64; 2], placed: [i64; 2]) -> [i64; 2] {
        placed.map(|c| c.clamp(-1 << 20, 1 << 20))
    }
}

/// Wrong: a control point to be moved may lie anywhere.
pub struct ControlsMovedFromAnywhere;

impl Rules for ControlsMovedFromAnywhere {
    fn placing_covers_controls(&self) -> bool {
        false
    }
}

//! Each wrong variant of a correction is wrong where its one rule reaches, and
//! nowhere else. All expected values are worked by hand.

mod common;

use common::{Call, Outcome, Random};
use reference::wrong::{self, *};
use reference::Correction::{PutIn, TakeOut};
use reference::{build_placed, figures, greys, Correction, Placement, Rules, Spec};

/// Half a pixel, put in or taken out on the smallest tile, and its area.
const HALF: [i64; 6] = [0, 0, 256, 0, 0, 256];
const AREA: i64 = 65_536;

/// 01's letter E on the tile of side 2, whose d is 0.
const E: [i64; 6] = [0, 0, 512, 0, 0, 512];

/// The largest entry that question 9 lets pass.
const LARGEST: i64 = 1 << 40;

/// A float that question 12 refuses.
const BAD: Placement = Placement::Scale(f64::NAN);

/// The call with half a pixel on the smallest tile.
fn half(correction: Correction, record: u32, entry: i64) -> Call {
    Call::of(correction, 1, &HALF, record, &[entry])
}

/// The call with E on the tile of side 2.
fn e(correction: Correction, table: [i64; 4]) -> Call {
    Call::of(correction, 2, &E, 3, &table)
}

fn done(record: u32, table: &[i64]) -> Outcome {
    (Ok(()), record, table.to_vec())
}

/// The outcomes of a call by the papers' rules and by another's.
fn both(call: &Call, rules: &dyn Rules) -> (Outcome, Outcome) {
    (call.outcome(&Spec), call.outcome(rules))
}

/// Checks that a call has the same outcome by the papers' rules and by
/// another's, and that it is this answer.
fn alike(call: &Call, rules: &dyn Rules, answer: Result<(), u8>) {
    let (right, other) = both(call, rules);
    assert_eq!(right.0, answer);
    assert_eq!(right, other);
}

/// Checks that a call is answered so by the papers' rules, and so by another's.
fn answered(call: &Call, rules: &dyn Rules, right: Result<(), u8>, other: Result<(), u8>) {
    assert_eq!((call.outcome(&Spec).0, call.outcome(rules).0), (right, other));
}

#[test]
fn taking_adds() {
    let (right, other) = both(&half(TakeOut, 3, AREA), &TakingAdds);
    assert_eq!((right, other), (done(0, &[0]), done(0, &[2 * AREA])));
    alike(&half(PutIn, 3, AREA), &TakingAdds, Ok(()));
}

#[test]
fn closing_edge_left_in() {
    // The closing edge of these points is the slanted one, and all the area.
    let points = [256, 0, 0, 0, 0, 256];
    let call = |correction| Call::of(correction, 1, &points, 3, &[7]);
    let (right, other) = both(&call(TakeOut), &ClosingEdgeLeftIn);
    assert_eq!((right, other), (done(0, &[7 + AREA]), done(0, &[7])));
    alike(&call(PutIn), &ClosingEdgeLeftIn, Ok(()));
}

#[test]
fn unplaced() {
    // Half a pixel at twice its size, of four times its area.
    let points = HALF.map(|coordinate| 2 * coordinate);
    let placement = Placement::Scale(0.5);
    let call = |correction| Call { placement, ..Call::of(correction, 1, &points, 3, &[0]) };
    let (right, other) = both(&call(PutIn), &PutInUnplaced);
    assert_eq!((right, other), (done(6, &[AREA]), done(6, &[4 * AREA])));
    let (right, other) = both(&call(TakeOut), &TakenOutUnplaced);
    assert_eq!((right, other), (done(0, &[-AREA]), done(0, &[-4 * AREA])));
    alike(&call(TakeOut), &PutInUnplaced, Ok(()));
    alike(&call(PutIn), &TakenOutUnplaced, Ok(()));
    // The placement is asked about all the same.
    for (correction, rules) in [(PutIn, &PutInUnplaced as &dyn Rules), (TakeOut, &TakenOutUnplaced)] {
        alike(&Call { placement: BAD, ..call(correction) }, rules, Err(12));
        alike(&Call { placement: Placement::Scale(1.0), ..call(correction) }, rules, Err(6));
        alike(&half(correction, 3, 0), rules, Ok(()));
    }
}

#[test]
fn records() {
    let after = |rules: &dyn Rules| [PutIn, TakeOut].map(|correction| half(correction, 10, 0).outcome(rules));
    let outcomes = |put_in, take_out| [done(put_in, &[AREA]), done(take_out, &[-AREA])];
    assert_eq!(after(&Spec), outcomes(13, 7));
    assert_eq!(after(&NotCountedIn), outcomes(10, 7));
    assert_eq!(after(&NotCountedOut), outcomes(13, 10));
    assert_eq!(after(&ContoursRecorded), outcomes(11, 9));
}

#[test]
fn question_5_with_other_records() {
    let records = [1020, 1021, 1022, 1024, 1025, u32::MAX - 3, u32::MAX - 2, u32::MAX];
    let accepted = |rules: &dyn Rules, correction| {
        records.map(|record| match half(correction, record, 0).outcome(rules).0 {
            Ok(()) => true,
            Err(number) => {
                assert_eq!(number, 5);
                false
            }
        })
    };
    let few = [true, true, false, false, false, false, false, false];
    assert_eq!(accepted(&Spec, PutIn), few);
    assert_eq!(accepted(&RecordNotAsked, PutIn), [true; 8]);
    assert_eq!(accepted(&RecordAskedTaking, PutIn), few);
    assert_eq!(accepted(&RecordGoesRound, PutIn), [true, true, false, false, false, false, true, true]);
    assert_eq!(accepted(&FullRecordRefused, PutIn), [true, false, false, false, false, false, false, false]);
    for rules in [&Spec as &dyn Rules, &RecordNotAsked, &RecordGoesRound, &FullRecordRefused] {
        assert_eq!(accepted(rules, TakeOut), [true; 8]);
    }
    assert_eq!(accepted(&RecordAskedTaking, TakeOut), few);
}

#[test]
fn question_13_with_other_records() {
    let records = [0, 1, 2, 3, 4];
    let accepted = |rules: &dyn Rules| {
        records.map(|record| match half(TakeOut, record, 0).outcome(rules).0 {
            Ok(()) => true,
            Err(number) => {
                assert_eq!(number, 13);
                false
            }
        })
    };
    assert_eq!(accepted(&Spec), [false, false, false, true, true]);
    assert_eq!(accepted(&MoreTakenOut), [true; 5]);
    assert_eq!(accepted(&AllRefused), [false, false, false, false, true]);
    for record in records {
        alike(&half(PutIn, record, 0), &MoreTakenOut, Ok(()));
        alike(&half(PutIn, record, 0), &AllRefused, Ok(()));
    }
}

#[test]
fn recorded_asked_putting() {
    for record in [0, 1, 2] {
        answered(&half(PutIn, record, 0), &RecordedAskedPutting, Ok(()), Err(13));
        alike(&half(TakeOut, record, 0), &RecordedAskedPutting, Err(13));
    }
    alike(&half(PutIn, 3, 0), &RecordedAskedPutting, Ok(()));
}

#[test]
fn recorded_before_coordinates() {
    let off = |record| Call { points: vec![0, 0, 257, 0, 0, 256], ..half(TakeOut, record, 0) };
    answered(&off(2), &RecordedBeforeCoordinates, Err(6), Err(13));
    alike(&off(3), &RecordedBeforeCoordinates, Err(6));
    alike(&Call { placement: BAD, ..off(2) }, &RecordedBeforeCoordinates, Err(12));
    alike(&half(TakeOut, 2, LARGEST + 1), &RecordedBeforeCoordinates, Err(13));
}

#[test]
fn recorded_after_entries() {
    answered(&half(TakeOut, 2, LARGEST + 1), &RecordedAfterEntries, Err(13), Err(9));
    answered(&half(TakeOut, 2, -LARGEST), &RecordedAfterEntries, Err(13), Err(9));
    alike(&half(TakeOut, 2, LARGEST), &RecordedAfterEntries, Err(13));
    alike(&half(TakeOut, 3, LARGEST + 1), &RecordedAfterEntries, Err(9));
}

#[test]
fn entries_before_contour() {
    let rules = &EntriesBeforeContour;
    for (correction, record) in [(PutIn, 3), (TakeOut, 3)] {
        let call = |entry| half(correction, record, entry);
        for (entry, other) in [(LARGEST + 1, Some(9)), (LARGEST, None)] {
            for (number, call) in [
                (4, Call { count: 2, ..call(entry) }),
                (3, Call { count: 4, ..call(entry) }),
                (12, Call { placement: BAD, ..call(entry) }),
                (6, Call { points: vec![-1; 6], ..call(entry) }),
            ] {
                answered(&call, rules, Err(number), Err(other.unwrap_or(number)));
            }
        }
        alike(&Call { side: 3, ..call(LARGEST + 1) }, rules, Err(1));
        alike(&Call { side: 2, ..call(LARGEST + 1) }, rules, Err(2));
        alike(&call(LARGEST + 1), rules, Err(9));
        alike(&call(0), rules, Ok(()));
    }
    // Where the contour has values, the table after is asked about too.
    answered(&half(PutIn, 1022, LARGEST), rules, Err(5), Err(9));
    answered(&half(TakeOut, 2, -LARGEST), rules, Err(13), Err(9));
}

#[test]
fn entries_before_coordinates() {
    let off = |correction, entry| Call { points: vec![0, 0, 257, 0, 0, 256], ..half(correction, 3, entry) };
    answered(&off(PutIn, LARGEST + 1), &EntriesBeforeCoordinates, Err(6), Err(9));
    alike(&off(PutIn, LARGEST), &EntriesBeforeCoordinates, Err(6));
    alike(&off(TakeOut, LARGEST + 1), &EntriesBeforeCoordinates, Err(6));
    alike(&Call { placement: BAD, ..off(PutIn, LARGEST + 1) }, &EntriesBeforeCoordinates, Err(12));
}

#[test]
fn points_length_before_record() {
    let stray = |correction, record| Call { points: vec![0; 5], ..half(correction, record, 0) };
    answered(&stray(PutIn, 1022), &PointsLengthBeforeRecord, Err(5), Err(3));
    alike(&stray(PutIn, 1021), &PointsLengthBeforeRecord, Err(3));
    alike(&stray(TakeOut, 1022), &PointsLengthBeforeRecord, Err(3));
    alike(&half(PutIn, 1022, 0), &PointsLengthBeforeRecord, Err(5));
    alike(&Call { placement: BAD, ..half(PutIn, 1022, 0) }, &PointsLengthBeforeRecord, Err(5));
}

#[test]
fn contour_placed_early_or_late() {
    for correction in [PutIn, TakeOut] {
        let call = half(correction, 3, 0);
        // 3 and 12 at once.
        let stray = Call { points: vec![0; 5], placement: BAD, ..call.clone() };
        answered(&stray, &ContourPlacedEarly, Err(3), Err(12));
        alike(&stray, &ContourPlacedLate, Err(3));
        // 12 and 6 at once, for a point that may not be moved.
        let far = Call { points: vec![-40_000; 6], placement: Placement::Scale(1.0), ..call.clone() };
        alike(&far, &ContourPlacedEarly, Err(12));
        answered(&far, &ContourPlacedLate, Err(12), Err(6));
        // 12 alone, and with 4 or with 9.
        for rules in [&ContourPlacedEarly as &dyn Rules, &ContourPlacedLate] {
            alike(&Call { placement: BAD, ..call.clone() }, rules, Err(12));
            alike(&Call { placement: BAD, count: 2, ..call.clone() }, rules, Err(4));
            alike(&Call { placement: BAD, ..half(correction, 3, LARGEST + 1) }, rules, Err(12));
        }
    }
    let full = Call { placement: BAD, ..half(PutIn, 1022, 0) };
    let empty = Call { placement: BAD, ..half(TakeOut, 2, 0) };
    for rules in [&ContourPlacedEarly as &dyn Rules, &ContourPlacedLate] {
        alike(&full, rules, Err(5));
        alike(&empty, rules, Err(12));
    }
}

#[test]
fn question_9_of_other_tables() {
    // In range before and after, before only, after only, neither.
    let entries = |sign: i64| [-LARGEST, LARGEST, -LARGEST - 1, LARGEST + 1].map(|entry| sign * entry);
    let answers = |rules: &dyn Rules| {
        [(PutIn, 1), (TakeOut, -1)].map(|(correction, sign)| {
            entries(sign).map(|entry| {
                let answer = half(correction, 3, entry).outcome(rules).0;
                assert!([Ok(()), Err(9)].contains(&answer));
                answer.is_ok()
            })
        })
    };
    let right = [true, false, false, false];
    assert_eq!(answers(&Spec), [right, right]);
    assert_eq!(answers(&OnlyBefore), [[true, true, false, false]; 2]);
    assert_eq!(answers(&OnlyBeforeTaking), [right, [true, true, false, false]]);
    assert_eq!(answers(&OnlyAfter), [[true, false, true, false]; 2]);
    assert_eq!(answers(&OnlyRoot), [right, right]);
    assert_eq!(answers(&OnlyChanged), [right, right]);
    // Entries at the ends of 64 bits make no variant panic.
    for end in [i64::MIN, i64::MAX] {
        for rules in [&OnlyBefore as &dyn Rules, &OnlyAfter, &NotPutBack, &CountedFirst] {
            assert_eq!(half(PutIn, 3, end).outcome(rules).0, Err(9));
            assert_eq!(half(TakeOut, 3, end).outcome(rules).0, Err(9));
        }
    }
}

#[test]
fn question_9_of_some_entries() {
    // h would be out of range after the call; d is so already, and stays.
    for (correction, h) in [(PutIn, LARGEST), (TakeOut, -LARGEST)] {
        let (after, before) = (e(correction, [0, h, 0, 0]), e(correction, [0, 0, 0, LARGEST + 1]));
        answered(&after, &OnlyRoot, Err(9), Ok(()));
        alike(&before, &OnlyRoot, Err(9));
        alike(&e(correction, [h, 0, 0, 0]), &OnlyRoot, Err(9));
        alike(&after, &OnlyChanged, Err(9));
        answered(&before, &OnlyChanged, Err(9), Ok(()));
        alike(&e(correction, [0, 0, 0, LARGEST]), &OnlyChanged, Ok(()));
    }
}

#[test]
fn refused_tables() {
    // The second entry is out of range after the call.
    let put_in = e(PutIn, [1, LARGEST, 2, 3]);
    let changed = [262_145, LARGEST + 131_072, 131_074, 3].to_vec();
    assert_eq!(both(&put_in, &NotPutBack), (put_in.refused(9), (Err(9), 3, changed)));
    let up_to_first = [262_145, LARGEST, 2, 3].to_vec();
    assert_eq!(both(&put_in, &ChangedUpToFirst), (put_in.refused(9), (Err(9), 3, up_to_first)));
    // The last one is so before it.
    let take_out = e(TakeOut, [1, 2, 3, LARGEST + 1]);
    let changed = [-262_143, -131_070, -131_069, LARGEST + 1].to_vec();
    assert_eq!(both(&take_out, &NotPutBack), (take_out.refused(9), (Err(9), 3, changed.clone())));
    assert_eq!(both(&take_out, &ChangedUpToFirst), (take_out.refused(9), (Err(9), 3, changed)));
    // The first one is so: nothing comes before it.
    alike(&e(PutIn, [LARGEST, 0, 0, 0]), &ChangedUpToFirst, Err(9));
    // Other refusals leave the table.
    for rules in [&NotPutBack as &dyn Rules, &ChangedUpToFirst] {
        alike(&Call { record: 1022, ..put_in.clone() }, rules, Err(5));
        alike(&Call { record: 2, ..take_out.clone() }, rules, Err(13));
        alike(&Call { points: vec![-1; 6], ..put_in.clone() }, rules, Err(6));
        alike(&e(PutIn, [0; 4]), rules, Ok(()));
    }
}

#[test]
fn refused_records() {
    let after = |rules: &dyn Rules, call: &Call| {
        let (answer, record, table) = call.outcome(rules);
        assert_eq!((answer, &table), (call.outcome(&Spec).0, &call.outcome(&Spec).2));
        record
    };
    let all = |call: &Call| {
        assert_eq!(after(&Spec, call), call.record);
        [after(&CountedBeforeEntries, call), after(&CountedFirst, call)]
    };
    assert_eq!(all(&half(PutIn, 10, LARGEST)), [13, 13]);
    assert_eq!(all(&half(TakeOut, 10, -LARGEST)), [7, 7]);
    assert_eq!(all(&Call { placement: BAD, ..half(PutIn, 10, LARGEST) }), [10, 13]);
    assert_eq!(all(&Call { points: vec![-1; 6], ..half(TakeOut, 10, LARGEST) }), [10, 7]);
    assert_eq!(all(&half(PutIn, 1022, 0)), [1022, 1025]);
    // 32 bits hold no record above 2^32 − 1 or below nought.
    assert_eq!(all(&half(PutIn, u32::MAX, 0)), [u32::MAX, 2]);
    assert_eq!(all(&half(TakeOut, 2, 0)), [2, u32::MAX]);
    assert_eq!(all(&Call { count: u32::MAX, ..half(PutIn, 10, 0) }), [10, 9]);
    for correction in [PutIn, TakeOut] {
        alike(&half(correction, 10, 0), &CountedBeforeEntries, Ok(()));
        alike(&half(correction, 10, 0), &CountedFirst, Ok(()));
    }
}

#[test]
fn every_name_is_given_once() {
    let lists = [wrong::all(), wrong::of_placement(), wrong::of_correction(), wrong::of_magnitude(), wrong::of_sheet()];
    let mut names: Vec<&str> = lists.iter().flatten().map(|(name, _)| *name).collect();
    let length = names.len();
    names.sort();
    names.dedup();
    assert_eq!(names.len(), length);
}

/// Random calls on damaged tiles, most of them with one fault or with none.
fn random_call(random: &mut Random) -> Call {
    let correction = [PutIn, TakeOut][random.below(2) as usize];
    // These stay on the tile of side 4 whatever the placement.
    let points: Vec<i64> = (0..2 * (3 + random.below(4))).map(|_| 300 + random.below(301)).collect();
    let table: Vec<i64> = (0..16).map(|_| random.below(1 << 20) - (1 << 19)).collect();
    let mut call = Call::of(correction, 4, &points, 500, &table);
    if random.below(2) == 0 {
        call.placement = random.placement();
    }
    for _ in 0..random.below(3) {
        let (near, place) = (random.below(5) as u32, random.below(points.len() as i64) as usize);
        let ends = [LARGEST, -LARGEST, LARGEST + 1, -LARGEST - 1, i64::MAX, i64::MIN];
        match random.below(8) {
            0 => call.count = [0, 2, 3, 1024, 1025][near as usize],
            1 => call.record = 1022 - call.count.min(1022) + near,
            2 => call.record = call.count.saturating_sub(2).saturating_add(near),
            3 => call.record = u32::MAX - near,
            4 => call.points.push(0),
            5 => call.placement = BAD,
            6 => call.points[place] = [-1, 1025, -40_000, 1024, 0][near as usize],
            _ => call.table[random.below(16) as usize] = ends[random.below(6) as usize],
        }
    }
    call
}

/// Each variant shows on random calls, and none of them panics.
#[test]
fn random_calls_tell_every_variant() {
    for (name, rules) in wrong::of_correction() {
        let mut random = Random(23);
        let mut differ = 0;
        for _ in 0..4000 {
            let call = random_call(&mut random);
            differ += usize::from(call.outcome(&*rules) != call.outcome(&Spec));
        }
        assert!(differ > 0, "{name}: no call of 4,000");
        println!("{name}: {differ} calls of 4,000");
    }
}

/// The variants of 01, of P1 and of P4 that reach corrections do not panic there.
#[test]
fn other_variants_are_answered() {
    for (name, rules) in wrong::all().into_iter().chain(wrong::of_placement()).chain(wrong::of_magnitude()) {
        let mut random = Random(24);
        for _ in 0..300 {
            let call = random_call(&mut random);
            let (answer, record, table) = call.outcome(&*rules);
            assert!(answer.is_ok() || (record, table) == (call.record, call.table), "{name}");
        }
    }
}

/// Calls that correct nothing cannot tell these variants.
#[test]
fn building_and_drawing_tell_none() {
    for (name, rules) in wrong::of_correction() {
        let mut random = Random(25);
        for _ in 0..30 {
            let (outline, placement) = (random.outline_of(4), random.placement());
            let built = |rules: &dyn Rules, placement| {
                build_placed(rules, 4, &outline.points, &outline.counts, placement, &outline.noughts())
            };
            assert_eq!(built(&*rules, placement), built(&Spec, placement), "{name}");
            let table = built(&Spec, Placement::None).unwrap().1;
            assert_eq!(figures(&*rules, 4, 2, &table, 16), figures(&Spec, 4, 2, &table, 16), "{name}");
            assert_eq!(greys(&*rules, 4, 2, &table, 16), greys(&Spec, 4, 2, &table, 16), "{name}");
        }
        assert_eq!(figures(&*rules, 1, 0, &[LARGEST], 1), Ok(vec![LARGEST]), "{name}");
        assert_eq!(figures(&*rules, 1, 0, &[LARGEST + 1], 1), Err(9), "{name}");
    }
}

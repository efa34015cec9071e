//! Every level in one call: 01's greys of each, one picture after the other, and 01's
//! questions but for the level's.

mod common;

use common::Random;
use reference::wrong::*;
use reference::{greys, pyramid, Rules, Spec};

/// How many places the levels of a tile have.
fn places(side: u32) -> usize {
    (0..=side.trailing_zeros()).map(|level| 4usize.pow(level)).sum()
}

/// A table of this side with entries of every size that is drawn.
fn table(random: &mut Random, side: u32) -> Vec<i64> {
    (0..side * side).map(|_| (random.below(1 << 31) - (1 << 30)) << random.below(11)).collect()
}

#[test]
fn each_level_s_greys() {
    let mut random = Random(7);
    for side in [1, 2, 4, 8, 16, 32, 64] {
        for _ in 0..20 {
            let table = table(&mut random, side);
            let drawn = pyramid(&Spec, side, &table, places(side)).unwrap();
            let mut rest = &drawn[..];
            for level in 0..=side.trailing_zeros() {
                let (picture, after) = rest.split_at(1 << (2 * level));
                assert_eq!(greys(&Spec, side, level, &table, picture.len()), Ok(picture.to_vec()));
                rest = after;
            }
            assert_eq!(rest, [] as [u8; 0]);
        }
    }
}

/// 01's letters D and E have these greys at level 1, and D the grey 64 at level 0.
#[test]
fn letters() {
    assert_eq!(pyramid(&Spec, 2, &[131072; 4], 5), Ok(vec![64, 255, 0, 0, 0]));
    assert_eq!(pyramid(&Spec, 2, &[262144, 131072, 131072, 0], 5), Ok(vec![128, 255, 128, 128, 0]));
    assert_eq!(pyramid(&Spec, 1, &[65536], 1), Ok(vec![128]));
}

#[test]
fn every_level_asks_1_2_8_9() {
    let large = (1 << 40) + 1;
    let ask = |side, table: &[i64], places| pyramid(&Spec, side, table, places).map(|greys| greys.len());
    assert_eq!(ask(3, &[large], 4), Err(1));
    assert_eq!(ask(0, &[], 0), Err(1));
    assert_eq!(ask(2, &[large], 4), Err(2));
    for places in [0, 1, 4, 6, 21] {
        assert_eq!(ask(2, &[large; 4], places), Err(8));
    }
    assert_eq!(ask(2, &[0, 0, 0, -large], 5), Err(9));
    assert_eq!(ask(2, &[0, 0, 0, 1 - large], 5), Ok(5));
    assert_eq!(ask(u32::MAX, &[], usize::MAX), Err(1));
}

/// Each wrong variant is told by a call that it answers otherwise.
#[test]
fn variants() {
    let d = [131072; 4];
    assert_eq!(pyramid(&DeepestFirst, 2, &d, 5), Ok(vec![255, 0, 0, 0, 64]));
    assert_eq!(pyramid(&DeepestAlone, 2, &d, 5), Err(8));
    let wrong = (1 << 40) + 1;
    assert_eq!(pyramid(&EntriesBeforePlaces, 2, &[wrong; 4], 4), Err(9));
    assert_eq!(of_every_level().len(), 3);

    // and none of them reaches a picture of one level
    let mut random = Random(8);
    let table = table(&mut random, 8);
    for (name, rules) in of_every_level() {
        let one = |rules: &dyn Rules| {
            (0..=3).map(|level| greys(rules, 8, level, &table, 1 << (2 * level))).collect::<Vec<_>>()
        };
        assert_eq!(one(&*rules), one(&Spec), "{name}");
    }
}

//! `integer_vectors`: quotients rounded, and the search behind question 9. The
//! program reads nothing; its numbers stand here a second time.

use crate::edge::Fraction;
use crate::frame::LARGEST_TABLE;
use crate::questions::Limits;
use crate::rules::{Rules, Spec};

/// The ends of 64 bits, and the half of the upper one, rounded down.
const LEAST: i128 = i64::MIN as i128;
const GREATEST: i128 = i64::MAX as i128;
const HALF: i128 = GREATEST / 2;

/// No edge's numerator passes this.
const NUMERATOR: i128 = 1 << 57;

#[rustfmt::skip]
const QUOTIENTS: [(i128, i128); 42] = [
    // halves and thirds
    (0, 1), (7, 7), (1, 2), (-1, 2), (3, 2), (-3, 2), (5, 2), (-5, 2), (1, 3), (-1, 3), (2, 3), (-2, 3),
    (10, 4), (-10, 4), (9, 4), (11, 4), (-9, 4), (-11, 4),
    // 01's letters G and F
    (2038, 4), (-2038, 4), (114_688, 384), (-114_688, 384),
    (NUMERATOR, 3), (-NUMERATOR, 3), (NUMERATOR + 1, 2), (-NUMERATOR - 1, 2),
    (GREATEST, 1), (LEAST, 1), (GREATEST, 2), (LEAST, 2), (-GREATEST, 2), (GREATEST, GREATEST), (LEAST, GREATEST),
    (HALF + 1, GREATEST), (HALF, GREATEST), (-HALF - 1, GREATEST), (-HALF, GREATEST),
    (HALF + 1, GREATEST - 1), (-HALF - 1, GREATEST - 1), (HALF, GREATEST - 1), (-HALF, GREATEST - 1),
    (0, GREATEST),
];

/// The greatest number that is in range, and the first past it either way.
const LIMIT: i64 = Limits::SPEC.largest_entry;
const ABOVE: i64 = LIMIT + 1;
const BELOW: i64 = -LIMIT - 1;

const LISTS: [&[i64]; 10] = [
    &[],
    &[0],
    &[LIMIT],
    &[-LIMIT],
    &[ABOVE],
    &[BELOW],
    &[LIMIT, -LIMIT, 0],
    &[LIMIT, -LIMIT, ABOVE],
    &[0, BELOW, 0, ABOVE, 0],
    &[i64::MAX, i64::MIN],
];

/// A list as long as the largest table, every number at the limit, is searched;
/// then each of these is written into it in turn, and it is searched anew.
const WRITTEN: [(usize, i64); 9] = [
    (4095, ABOVE),
    (4094, BELOW),
    (2048, ABOVE),
    (512, BELOW),
    (511, ABOVE),
    (64, BELOW),
    (63, ABOVE),
    (1, BELOW),
    (0, ABOVE),
];

pub fn answer() -> String {
    let rounded = |&(num, den): &(i128, i128)| format!("{}\n", Spec.round(Fraction { num, den }));
    let mut printed: String = QUOTIENTS.iter().map(rounded).collect();
    for list in LISTS {
        printed += &searched(list);
    }
    let mut long = [LIMIT; LARGEST_TABLE];
    printed += &searched(&long);
    for (place, number) in WRITTEN {
        long[place] = number;
        printed += &searched(&long);
    }
    printed
}

/// 02's P2, how many entries the search looks at: "one more than the least place
/// out of range, or all of them where there is none."
fn searched(list: &[i64]) -> String {
    match list.iter().position(|number| !(-LIMIT..=LIMIT).contains(number)) {
        Some(place) => format!("looked at {}, not within\n", place + 1),
        None => format!("looked at {}, within\n", list.len()),
    }
}

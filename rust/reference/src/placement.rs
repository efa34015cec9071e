//! Placing an outline on the tile, in exact numbers.
//!
//! A float is taken apart by its bits into a whole number of 65,536ths, and
//! from there on all is whole numbers. No float is added, multiplied, rounded
//! or compared: a product whose float operations are wrong differs from this.

use crate::rules::Rules;

/// How an outline is placed before it is drawn: "none, a shift by two numbers,
/// a scale by one number, or a turn by six numbers."
#[derive(Clone, Copy, Debug, Default, PartialEq)]
pub enum Placement {
    /// The points stay as they are; none of them is moved.
    #[default]
    None,
    /// The two offsets, of x and of y.
    Shift(f64, f64),
    /// The factor on both coordinates.
    Scale(f64),
    /// a, b, c, d, e and f: "turned points are a × x + b × y + c and
    /// d × x + e × y + f."
    Turn([f64; 6]),
}

/// The coordinates as placed, two at a time as they came: the outline that is
/// drawn, and "the one that demand 3 measures."
///
/// It is meant for calls whose question 12 is answered yes. Other input may
/// panic.
pub fn placed(rules: &dyn Rules, placement: Placement, points: &[i64]) -> Vec<i64> {
    moved(rules, placement, points).expect("a float that question 12 refuses")
}

/// As `placed`, for any input at all: none where there are points to be moved
/// and a float that is refused.
pub(crate) fn moved(rules: &dyn Rules, placement: Placement, points: &[i64]) -> Option<Vec<i64>> {
    if points.is_empty() || !rules.moves_points(placement) {
        return Some(points.to_vec());
    }
    let turn = numbers(rules, placement)?;
    // A coordinate that 64 bits do not hold stays at their end, where it is
    // off every tile just the same.
    let held = |step: i128| step.clamp(i64::MIN.into(), i64::MAX.into()) as i64;
    // A stray last coordinate has no partner and is left out; question 3
    // refuses it.
    let pairs = points.chunks_exact(2);
    Some(pairs.flat_map(|pair| rules.placed_point(turn, pair[0].into(), pair[1].into())).map(held).collect())
}

/// The six numbers of a placement, each a whole number of parts, or none where
/// one of its floats is refused.
pub(crate) fn numbers(rules: &dyn Rules, placement: Placement) -> Option<[i128; 6]> {
    let limits = rules.limits();
    let factor = |float| rules.number(float, limits.largest_factor);
    let offset = |float| rules.number(float, limits.largest_offset);
    let [a, b, c, d, e, f] = rules.turn(placement);
    Some([factor(a)?, factor(b)?, offset(c)?, factor(d)?, factor(e)?, offset(f)?])
}

/// The bits of a 64-bit float (IEEE 754), from the lowest: the fraction, the
/// exponent, the sign.
const FRACTION_BITS: u32 = 52;
const EXPONENT_BITS: u32 = 11;

/// The exponent field of a float that is its mantissa, neither halved nor
/// doubled. The field of 1.0 is 1,023 and its mantissa is 2^52.
const NOT_HALVED: u64 = 1023 + FRACTION_BITS as u64;

/// A float as a whole number of parts, of which one has `parts`, at most 2^64.
/// None where it is no such number, and none from 2^53 on, far past all limits.
pub(crate) fn in_parts(float: f64, parts: i128) -> Option<i128> {
    let bits = float.to_bits();
    let fraction = bits & ((1 << FRACTION_BITS) - 1);
    let field = (bits >> FRACTION_BITS) & ((1 << EXPONENT_BITS) - 1);
    let negative = bits >> (FRACTION_BITS + EXPONENT_BITS) == 1;
    // Nought, minus nought and the subnormals have field 0, no bit above the
    // fraction, and the scale of field 1.
    let mantissa = if field == 0 { fraction } else { fraction | 1 << FRACTION_BITS };
    if mantissa == 0 {
        return Some(0);
    }
    // Infinities and what is not a number have the largest field of all.
    if field > NOT_HALVED {
        return None;
    }
    let halvings = (NOT_HALVED - field.max(1)) as u32;
    let whole = i128::from(mantissa) * parts;
    let size = (whole.trailing_zeros() >= halvings).then(|| whole >> halvings)?;
    Some(if negative { -size } else { size })
}

#[cfg(test)]
mod tests {
    use super::*;
    use crate::PARTS;

    /// The bits are written out, so that no compiler's reading of a decimal
    /// fraction is relied on.
    fn parts_of(bits: u64) -> Option<i128> {
        in_parts(f64::from_bits(bits), PARTS)
    }

    #[test]
    fn floats_taken_apart() {
        // 1, 2, 1.5 and 0.75.
        assert_eq!(parts_of(0x3ff0_0000_0000_0000), Some(65_536));
        assert_eq!(parts_of(0x4000_0000_0000_0000), Some(131_072));
        assert_eq!(parts_of(0x3ff8_0000_0000_0000), Some(98_304));
        assert_eq!(parts_of(0x3fe8_0000_0000_0000), Some(49_152));
        // The same below nought: the sign is the highest bit.
        assert_eq!(parts_of(0xbff0_0000_0000_0000), Some(-65_536));
        assert_eq!(parts_of(0xbfe8_0000_0000_0000), Some(-49_152));
        // 2^-16, three times it, and 2 and 16,384 with it added and taken off.
        assert_eq!(parts_of(0x3ef0_0000_0000_0000), Some(1));
        assert_eq!(parts_of(0x3f08_0000_0000_0000), Some(3));
        assert_eq!(parts_of(0x4000_0008_0000_0000), Some(131_073));
        assert_eq!(parts_of(0x3fff_fff0_0000_0000), Some(131_071));
        assert_eq!(parts_of(0x40d0_0000_0040_0000), Some(1_073_741_825));
        assert_eq!(parts_of(0x40cf_ffff_ff80_0000), Some(1_073_741_823));
        // Nought and minus nought.
        assert_eq!(parts_of(0), Some(0));
        assert_eq!(parts_of(0x8000_0000_0000_0000), Some(0));
    }

    #[test]
    fn floats_that_are_no_such_number() {
        // 2^-17, three times it, and 1 and 16,384 with it added.
        assert_eq!(parts_of(0x3ee0_0000_0000_0000), None);
        assert_eq!(parts_of(0x3ef8_0000_0000_0000), None);
        assert_eq!(parts_of(0x3ff0_0008_0000_0000), None);
        assert_eq!(parts_of(0x40d0_0000_0020_0000), None);
        // The neighbours of 1 and of 2^-16.
        assert_eq!(parts_of(0x3ff0_0000_0000_0001), None);
        assert_eq!(parts_of(0x3fef_ffff_ffff_ffff), None);
        assert_eq!(parts_of(0x3ef0_0000_0000_0001), None);
        assert_eq!(parts_of(0x3eef_ffff_ffff_ffff), None);
        // The smallest and the largest subnormal, one whose fraction is a
        // single bit, and the smallest normal number.
        assert_eq!(parts_of(0x0000_0000_0000_0001), None);
        assert_eq!(parts_of(0x000f_ffff_ffff_ffff), None);
        assert_eq!(parts_of(0x0008_0000_0000_0000), None);
        assert_eq!(parts_of(0x0010_0000_0000_0000), None);
        // Infinities, and what is not a number: quiet, signalling, with the
        // lowest, the highest and all bits of the fraction.
        assert_eq!(parts_of(0x7ff0_0000_0000_0000), None);
        assert_eq!(parts_of(0xfff0_0000_0000_0000), None);
        assert_eq!(parts_of(0x7ff8_0000_0000_0000), None);
        assert_eq!(parts_of(0xfff8_0000_0000_0000), None);
        assert_eq!(parts_of(0x7ff0_0000_0000_0001), None);
        assert_eq!(parts_of(0x7fff_ffff_ffff_ffff), None);
        assert_eq!(parts_of(0xffff_ffff_ffff_ffff), None);
    }

    #[test]
    fn floats_far_past_all_limits() {
        // 2^32 and 2^53 − 1 are still told; 2^53, 2^64, 2^112 and the largest
        // float, multiples all of them, are not.
        assert_eq!(parts_of(0x41f0_0000_0000_0000), Some(1 << 48));
        assert_eq!(parts_of(0x433f_ffff_ffff_ffff), Some(((1 << 53) - 1) << 16));
        assert_eq!(parts_of(0x4340_0000_0000_0000), None);
        assert_eq!(parts_of(0x43f0_0000_0000_0000), None);
        assert_eq!(parts_of(0x46f0_0000_0000_0000), None);
        assert_eq!(parts_of(0x7fef_ffff_ffff_ffff), None);
        assert_eq!(parts_of(0xffef_ffff_ffff_ffff), None);
    }

    #[test]
    fn other_parts() {
        // 2^-17 and 2^-16 in 131,072ths, 2^-16 and 2^-15 in 32,768ths.
        assert_eq!(in_parts(f64::from_bits(0x3ee0_0000_0000_0000), 131_072), Some(1));
        assert_eq!(in_parts(f64::from_bits(0x3ef0_0000_0000_0000), 131_072), Some(2));
        assert_eq!(in_parts(f64::from_bits(0x3ef0_0000_0000_0000), 32_768), None);
        assert_eq!(in_parts(f64::from_bits(0x3f00_0000_0000_0000), 32_768), Some(1));
    }
}

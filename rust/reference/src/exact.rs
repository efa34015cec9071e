//! Exact sums of fractions with many denominators.

use crate::big::Big;
use crate::edge::Fraction;
use crate::rules::{held, nearest_of_twice};
use crate::FULL_GREY;
use std::cmp::Ordering;
use std::iter::Sum;

/// An exact number: a whole number and proper fractions of different
/// denominators. Equality and order are those of the values.
///
/// The fractions are kept over the denominators they come with, so that the
/// parts of one edge in different cells meet again when cells are added.
#[derive(Clone, Debug, Default)]
pub struct Exact {
    whole: i128,
    /// By denominator, each denominator once; empty for most cells.
    parts: Vec<Part>,
}

/// A proper fraction above 0: 0 < num < den.
#[derive(Clone, Copy, Debug)]
struct Part {
    den: u64,
    num: u64,
}

impl Exact {
    /// A whole number.
    pub fn from_whole(whole: i128) -> Exact {
        Exact { whole, parts: Vec::new() }
    }

    /// Adds `num` over `den`; `den` is above 0 and below 2^63.
    pub fn add_fraction(&mut self, num: i128, den: i128) {
        assert!(0 < den && den < 1 << 63, "a denominator out of range");
        let (quotient, rest) = divided(num, den);
        self.whole += quotient;
        if rest != 0 {
            self.add_part(Part { den: den as u64, num: rest as u64 });
        }
    }

    fn add_part(&mut self, part: Part) {
        let found = self.parts.binary_search_by_key(&part.den, |p| p.den);
        match found {
            Err(place) => self.parts.insert(place, part),
            Ok(place) => {
                let sum = self.parts[place].num + part.num;
                self.whole += i128::from(sum / part.den);
                self.parts[place].num = sum % part.den;
                if self.parts[place].num == 0 {
                    self.parts.remove(place);
                }
            }
        }
    }

    /// The sum of the two.
    pub fn plus(&self, other: &Exact) -> Exact {
        let mut sum = self.clone();
        sum.whole += other.whole;
        for &part in &other.parts {
            sum.add_part(part);
        }
        sum
    }

    /// This less the other.
    pub fn minus(&self, other: &Exact) -> Exact {
        self.plus(&other.times(-1))
    }

    /// The product with a whole number.
    pub fn times(&self, factor: i128) -> Exact {
        let mut product = Exact::from_whole(self.whole * factor);
        for part in &self.parts {
            product.add_fraction(i128::from(part.num) * factor, i128::from(part.den));
        }
        product
    }

    /// The largest whole number that is not above it.
    pub fn floor(&self) -> i128 {
        self.settled().0
    }

    /// Whether it is a whole number.
    pub fn is_whole(&self) -> bool {
        self.settled().1
    }

    /// How it compares with a whole number.
    pub fn cmp_whole(&self, whole: i128) -> Ordering {
        let (floor, is_whole) = self.settled();
        let above = if is_whole { Ordering::Equal } else { Ordering::Greater };
        floor.cmp(&whole).then(above)
    }

    /// The nearest whole number, halves away from zero.
    pub fn round(&self) -> i128 {
        if self.cmp_whole(0) == Ordering::Less {
            -self.times(-1).round()
        } else {
            // floor(x + 1/2) = floor((floor(2x) + 1) / 2).
            (self.times(2).floor() + 1).div_euclid(2)
        }
    }

    /// About this value, for display only.
    pub fn to_f64(&self) -> f64 {
        let parts = self.parts.iter().map(|p| p.num as f64 / p.den as f64);
        self.whole as f64 + parts.sum::<f64>()
    }

    /// In decimal with so many places, at most 18, rounded to the nearest,
    /// halves away from zero.
    pub fn decimal(&self, places: u32) -> String {
        assert!(places <= 18, "more places than 128 bits are sure to hold");
        let unit = 10i128.pow(places);
        let rounded = self.times(unit).round();
        let sign = if rounded < 0 { "-" } else { "" };
        let (whole, rest) = (rounded.abs() / unit, rounded.abs() % unit);
        match places {
            0 => format!("{sign}{whole}"),
            _ => format!("{sign}{whole}.{rest:0width$}", width = places as usize),
        }
    }

    /// The exact |figure − 4^level × area| of a cell with this area.
    pub fn miss(&self, figure: i64, level: u32) -> Miss {
        let figure = Exact::from_whole(i128::from(figure));
        Miss { value: figure.minus(&self.times(power(level))).magnitude() }
    }

    /// The grey of a cell with this area, worked exactly. 02's P4 has a drawn
    /// grey "at most one from the grey of the exact area, taken the same way":
    /// 255 × 4^level × the area's magnitude / (131,072 × side × side) to the
    /// nearest whole number, halves up, held between 0 and 255.
    pub fn grey(&self, side: u32, level: u32) -> u8 {
        held(self.magnitude().nearest_grey(side, level))
    }

    /// As `grey`, of the area with its sign, and not yet held.
    pub(crate) fn nearest_grey(&self, side: u32, level: u32) -> i128 {
        nearest_of_twice(self.times(2 * i128::from(FULL_GREY) * power(level)).floor(), side)
    }

    /// How far it is from 0.
    fn magnitude(&self) -> Exact {
        match self.cmp_whole(0) {
            Ordering::Less => self.times(-1),
            _ => self.clone(),
        }
    }

    /// The floor, and whether it is the number itself.
    fn settled(&self) -> (i128, bool) {
        self.enclosed().unwrap_or_else(|| self.by_big_integers())
    }

    /// `settled` by an enclosure: each fraction is floor(num × 2^64 / den)
    /// units of 2^−64, and less than one unit more unless the division comes
    /// out even. None where the enclosure does not decide.
    fn enclosed(&self) -> Option<(i128, bool)> {
        let (mut low, mut uneven) = (0u128, 0u128);
        for part in &self.parts {
            let scaled = u128::from(part.num) << 64;
            low += scaled / u128::from(part.den);
            uneven += u128::from(scaled % u128::from(part.den) != 0);
        }
        let below = low >> 64;
        let floor = self.whole + below as i128;
        if uneven == 0 {
            return Some((floor, low == below << 64));
        }
        // Strictly between low and low + uneven: decided unless a whole
        // number lies strictly between those two as well.
        (low + uneven <= (below + 1) << 64).then_some((floor, false))
    }

    /// `settled` with the fractions brought to a common denominator.
    fn by_big_integers(&self) -> (i128, bool) {
        let (mut num, mut den) = (Big::new(0), Big::new(1));
        for part in &self.parts {
            num = num.times(part.den).plus(&den.times(part.num));
            den = den.times(part.den);
        }
        // Each fraction is below 1, so the sum is at least 0 and, where there
        // is a fraction, below their number: halve that range.
        let (mut floor, mut above) = (0, self.parts.len().max(1) as u64);
        while above - floor > 1 {
            let middle = floor + (above - floor) / 2;
            if den.times(middle) <= num {
                floor = middle;
            } else {
                above = middle;
            }
        }
        (self.whole + i128::from(floor), den.times(floor) == num)
    }
}

impl From<Fraction> for Exact {
    fn from(value: Fraction) -> Exact {
        let mut exact = Exact::default();
        exact.add_fraction(value.num, value.den);
        exact
    }
}

impl Ord for Exact {
    fn cmp(&self, other: &Exact) -> Ordering {
        self.minus(other).cmp_whole(0)
    }
}

impl PartialOrd for Exact {
    fn partial_cmp(&self, other: &Exact) -> Option<Ordering> {
        Some(self.cmp(other))
    }
}

impl PartialEq for Exact {
    fn eq(&self, other: &Exact) -> bool {
        self.cmp(other) == Ordering::Equal
    }
}

impl Eq for Exact {}

impl<'a> Sum<&'a Exact> for Exact {
    fn sum<I: Iterator<Item = &'a Exact>>(terms: I) -> Exact {
        terms.fold(Exact::default(), |sum, term| sum.plus(term))
    }
}

/// How far a figure is from 4^level times the exact area, exactly.
#[derive(Clone, Debug, PartialEq, Eq)]
pub struct Miss {
    /// Never below 0.
    value: Exact,
}

impl Miss {
    /// Whether the figure is exact.
    pub fn is_zero(&self) -> bool {
        self.value.cmp_whole(0) == Ordering::Equal
    }

    /// Whether the miss is "at most (4^L − 1) × edges / 2".
    pub fn within(&self, level: u32, edges: u32) -> bool {
        self.twice_at_most(twice_bound(level, edges))
    }

    /// Whether the miss is one that a tile of a sheet may have: 02's P5, "a
    /// figure may miss by 4^L × edges / 2."
    pub fn within_on_sheet(&self, level: u32, edges: u32) -> bool {
        self.twice_at_most(twice_bound_on_sheet(level, edges))
    }

    /// The miss over its bound, for display only; 0 where both are 0.
    pub fn ratio(&self, level: u32, edges: u32) -> f64 {
        self.ratio_to(twice_bound(level, edges))
    }

    /// The miss over its bound on a sheet, likewise.
    pub fn ratio_on_sheet(&self, level: u32, edges: u32) -> f64 {
        self.ratio_to(twice_bound_on_sheet(level, edges))
    }

    fn twice_at_most(&self, bound: i128) -> bool {
        self.value.times(2).cmp_whole(bound) != Ordering::Greater
    }

    fn ratio_to(&self, twice_bound: i128) -> f64 {
        if self.is_zero() {
            return 0.0;
        }
        2.0 * self.value.to_f64() / twice_bound as f64
    }
}

/// Twice the bound of demand 3: (4^level − 1) × edges.
fn twice_bound(level: u32, edges: u32) -> i128 {
    (power(level) - 1) * i128::from(edges)
}

/// Twice the bound on a sheet, where the root is rounded too: 4^level × edges.
fn twice_bound_on_sheet(level: u32, edges: u32) -> i128 {
    power(level) * i128::from(edges)
}

/// 4^level, for the levels of a tile.
fn power(level: u32) -> i128 {
    4i128.pow(level)
}

/// Quotient and rest, the rest from 0 up; most numbers here fit 64 bits, in
/// which division is much quicker.
fn divided(num: i128, den: i128) -> (i128, i128) {
    match (i64::try_from(num), i64::try_from(den)) {
        (Ok(num), Ok(den)) => (i128::from(num.div_euclid(den)), i128::from(num.rem_euclid(den))),
        _ => (num.div_euclid(den), num.rem_euclid(den)),
    }
}

#[cfg(test)]
mod tests {
    use super::*;
    use crate::{randoms, PIXEL};

    fn of(terms: &[(i128, i128)]) -> Exact {
        let mut sum = Exact::default();
        for &(num, den) in terms {
            sum.add_fraction(num, den);
        }
        sum
    }

    #[test]
    fn small_sums() {
        let sixths = of(&[(1, 2), (1, 3), (1, 6)]);
        assert!(sixths.is_whole() && sixths.floor() == 1);
        assert_eq!(sixths, Exact::from_whole(1));
        assert_eq!(of(&[(-1, 2), (-1, 3), (-1, 6)]), Exact::from_whole(-1));
        assert_eq!(of(&[(-7, 3)]).floor(), -3);
        assert_eq!(of(&[(7, 3), (2, 3)]).cmp_whole(3), Ordering::Equal);
        assert_eq!(of(&[(7, 3), (1, 3)]).cmp_whole(3), Ordering::Less);
        assert_eq!(of(&[(7, 3), (1, 1)]).cmp_whole(3), Ordering::Greater);
        assert!(of(&[(1, 3)]) < of(&[(1, 2)]) && of(&[(-1, 3)]) > of(&[(-1, 2)]));
        assert_ne!(of(&[(1, 3)]), of(&[(333_333_333, 1_000_000_000)]));
    }

    #[test]
    fn rounding_and_decimals() {
        assert_eq!([of(&[(1, 2)]).round(), of(&[(-1, 2)]).round()], [1, -1]);
        assert_eq!([of(&[(5, 2)]).round(), of(&[(-5, 2)]).round()], [3, -3]);
        assert_eq!([of(&[(1, 3)]).round(), of(&[(-2, 3)]).round()], [0, -1]);
        // A half made of unlike fractions is a half still.
        assert_eq!([of(&[(1, 3), (1, 6)]).round(), of(&[(-1, 3), (-1, 6)]).round()], [1, -1]);
        assert_eq!(of(&[(896, 3)]).decimal(3), "298.667");
        assert_eq!(of(&[(-896, 3)]).decimal(0), "-299");
        assert_eq!(of(&[(1, 80)]).decimal(2), "0.01");
        assert_eq!(of(&[(1, 200)]).decimal(2), "0.01");
        assert_eq!(of(&[(-1, 200)]).decimal(2), "-0.01");
        assert_eq!(of(&[(-1, 201)]).decimal(2), "0.00");
        assert_eq!(of(&[(1, 3)]).decimal(18), "0.333333333333333333");
        assert_eq!(of(&[(5, 4)]).decimal(1), "1.3");
        assert_eq!(of(&[(-5, 4)]).to_f64(), -1.25);
    }

    #[test]
    fn the_two_ways_agree() {
        let mut random = randoms(7);
        let (mut decided, mut whole) = (0, 0);
        for round in 0..2000 {
            let mut sum = Exact::default();
            for _ in 0..random(1 + round % 40) {
                // Small denominators now and then, so that sums are whole too.
                let most = if round % 2 == 0 { 6 } else { 1 << 28 };
                let den = 1 + random(most);
                sum.add_fraction(random(1 << 57) - (1 << 56), den);
            }
            let exact = sum.by_big_integers();
            whole += usize::from(exact.1);
            if let Some(answer) = sum.enclosed() {
                assert_eq!(answer, exact, "{sum:?}");
                decided += 1;
            }
            assert_eq!(sum.settled(), exact);
        }
        assert!(decided > 1500 && whole > 100, "{decided} decided, {whole} whole");
    }

    /// Sums that are a whole number, or miss it by less than the enclosure can
    /// tell, with many large denominators.
    #[test]
    fn close_calls_go_to_big_integers() {
        let mut random = randoms(11);
        for size in [1, 2, 7, 60, 500] {
            // a/p + (p − a)/p is 1, told with p beside 3p so that they do not
            // meet in one denominator.
            let mut sum = Exact::default();
            for _ in 0..size {
                let den = (1 << 26) + random(1 << 24);
                let num = 1 + random(den - 1);
                sum.add_fraction(num, den);
                sum.add_fraction(3 * (den - num), 3 * den);
            }
            assert!(sum.enclosed().is_none(), "the sum is whole, so no enclosure is fine enough");
            assert_eq!(sum.settled(), (size, true));
            assert_eq!(sum.cmp_whole(size), Ordering::Equal);

            // 1/p − 1/(p + 1) = 1/(p (p + 1)), and that less the same of a
            // neighbour: about 2 / p³, here below 2^−80.
            let p = (1 << 28) - 3;
            let mut above = sum.clone();
            for (num, den) in [(1, p - 1), (-2, p), (1, p + 1)] {
                above.add_fraction(num, den);
            }
            assert!(above.enclosed().is_none());
            assert_eq!(above.settled(), (size, false));
            let below = sum.times(2).minus(&above);
            assert_eq!(below.settled(), (size - 1, false));
            assert_eq!(below.cmp_whole(size), Ordering::Less);
            assert!(below < sum && sum < above);
        }
    }

    #[test]
    fn sums_of_1024_denominators() {
        // 1/(k (k + 1)) from k = 1 to 1,024 is 1 − 1/1025.
        let mut sum = Exact::default();
        for k in 1..=1024 {
            sum.add_fraction(1, k * (k + 1));
        }
        assert_eq!(sum.by_big_integers(), (0, false));
        sum.add_fraction(1, 1025);
        assert_eq!(sum.settled(), (1, true));
        assert_eq!(sum, Exact::from_whole(1));
    }

    #[test]
    fn misses() {
        // 4 × 1/3 + 4 × 1/6 = 2.
        let area = of(&[(1, 3), (1, 6)]);
        assert!(area.miss(2, 1).is_zero() && !area.miss(3, 1).is_zero());
        assert_eq!(area.miss(5, 1).value, Exact::from_whole(3));
        assert_eq!(area.miss(-1, 1).value, Exact::from_whole(3));
        // The bound of level 1 with 3 edges is 4 1/2.
        let area = of(&[(3, 8)]);
        assert!(area.miss(6, 1).within(1, 3) && area.miss(-3, 1).within(1, 3));
        assert!(!area.miss(7, 1).within(1, 3) && !area.miss(-4, 1).within(1, 3));
        let finer = of(&[(3, 8), (-1, 1 << 28)]);
        assert!(!finer.miss(6, 1).within(1, 3) && finer.miss(-3, 1).within(1, 3));
        assert_eq!(area.miss(6, 1).ratio(1, 3), 1.0);
        // At level 0 the bound is 0.
        let area = Exact::from_whole(9);
        assert!(area.miss(9, 0).within(0, 3) && !area.miss(8, 0).within(0, 3));
        assert_eq!((area.miss(9, 0).ratio(0, 3), area.miss(8, 0).ratio(0, 3)), (0.0, f64::INFINITY));
    }

    #[test]
    fn misses_on_a_sheet() {
        // The bound of level 1 with 3 edges is 6, and of level 0 it is 1 1/2.
        let area = of(&[(1, 2)]);
        assert!(area.miss(8, 1).within_on_sheet(1, 3) && area.miss(-4, 1).within_on_sheet(1, 3));
        assert!(!area.miss(9, 1).within_on_sheet(1, 3) && !area.miss(-5, 1).within_on_sheet(1, 3));
        assert!(area.miss(2, 0).within_on_sheet(0, 3) && area.miss(-1, 0).within_on_sheet(0, 3));
        assert!(!area.miss(3, 0).within_on_sheet(0, 3) && !area.miss(-2, 0).within_on_sheet(0, 3));
        let finer = of(&[(1, 2), (-1, 1 << 28)]);
        assert!(!finer.miss(2, 0).within_on_sheet(0, 3) && finer.miss(-1, 0).within_on_sheet(0, 3));
        assert_eq!([area.miss(2, 0).ratio_on_sheet(0, 3), area.miss(5, 1).ratio_on_sheet(1, 3)], [1.0, 0.5]);
        // No edge has no miss.
        assert!(
            Exact::default().miss(0, 2).within_on_sheet(2, 0) && !Exact::default().miss(1, 2).within_on_sheet(2, 0)
        );
        assert_eq!(Exact::default().miss(0, 2).ratio_on_sheet(2, 0), 0.0);
    }

    #[test]
    fn greys_of_exact_areas() {
        let pixel = i128::from(PIXEL);
        // A cell's grey is that of the area turned round.
        let grey = |terms: &[(i128, i128)]| {
            let area = of(terms);
            assert_eq!(area.grey(1, 0), area.times(-1).grey(1, 0));
            area.grey(1, 0)
        };
        assert_eq!([grey(&[(0, 1)]), grey(&[(pixel, 1)]), grey(&[(2 * pixel, 1)]), grey(&[(9, 1)])], [0, 255, 255, 0]);
        // 1/510 of a pixel is half a grey, and halves go up.
        assert_eq!(grey(&[(pixel, 510)]), 1);
        assert_eq!(grey(&[(pixel, 510), (-1, 1 << 40)]), 0);
        assert_eq!(grey(&[(pixel, 765), (pixel, 1530)]), 1);
        assert_eq!(grey(&[(3 * pixel, 510)]), 2);
        assert_eq!(grey(&[(509 * pixel, 510)]), 255);
        assert_eq!(grey(&[(509 * pixel, 510), (-1, 1 << 40)]), 254);
        // The same share of any cell is the same grey.
        assert_eq!(of(&[(-pixel, 2)]).grey(64, 6), 128);
        assert_eq!(of(&[(64 * 64 * pixel, 2)]).grey(64, 0), 128);
    }

    /// The magnitude is taken before rounding, so that half a grey goes up below
    /// zero as well; with the sign it goes to 0.
    #[test]
    fn halves_below_zero_go_up() {
        let pixel = i128::from(PIXEL);
        for (num, grey, signed) in [(-1, 1, 0), (-3, 2, -1), (-509, 255, -254)] {
            let area = of(&[(num * pixel, 510)]);
            assert_eq!((area.grey(1, 0), area.nearest_grey(1, 0)), (grey, signed));
        }
    }
}

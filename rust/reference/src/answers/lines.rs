//! What the test programs' cases and answers have in common: lines of numbers,
//! and a checksum in place of many.

/// The lines that are cases, with their numbers from 1 on: blank lines and
/// those that begin with `#` are passed over.
pub fn cases(text: &str) -> impl Iterator<Item = (usize, &str)> {
    let numbered = text.lines().enumerate().map(|(i, line)| (i + 1, line));
    numbered.filter(|(_, line)| !line.is_empty() && !line.starts_with('#'))
}

/// A decimal number, with a minus or without: its digits are at least one. One
/// that has no room in 128 bits is taken for the nearest that has.
pub fn number(word: &str) -> Option<i128> {
    let (sign, digits) = match word.strip_prefix('-') {
        Some(digits) => (-1, digits),
        None => (1, word),
    };
    if digits.is_empty() {
        return None;
    }
    let mut number = 0i128;
    for digit in digits.chars() {
        number = number.saturating_mul(10).saturating_add(sign * i128::from(digit.to_digit(10)?));
    }
    Some(number)
}

/// A line of more numbers has a checksum in their place.
const SHORT: usize = 64;

/// A checksum takes the numbers for digits to this base, and keeps the
/// remainder by this modulus.
const BASE: i128 = 1_000_003;
const MODULUS: i128 = 1_000_000_007;

/// A list as it is printed: a space before each number, or the checksum.
pub fn list<T: Copy + Into<i128>>(numbers: &[T]) -> String {
    let numbers = numbers.iter().map(|&number| number.into());
    if numbers.len() <= SHORT {
        numbers.map(|number: i128| format!(" {number}")).collect()
    } else {
        let checksum = numbers.fold(0, |sum, number| (sum * BASE + number).rem_euclid(MODULUS));
        format!(" checksum {checksum}")
    }
}

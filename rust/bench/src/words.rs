//! Numbers as the page writes them.

use crate::timing::Spread;
use std::fmt::Write;

pub fn line(text: &mut String, words: &str) {
    writeln!(text, "{words}").expect("a string takes all that is written to it");
}

/// A line under a table whose instructions are missing.
pub fn not_counted<T>(text: &mut String, counts: &Result<T, String>) {
    if let Err(reason) = counts {
        line(text, &format!("\nInstructions were not counted: {reason}."));
    }
}

/// Three digits that count.
pub fn digits(number: f64) -> String {
    let places = match number {
        n if n >= 99.95 => 0,
        n if n >= 9.995 => 1,
        n if n >= 0.9995 => 2,
        _ => 3,
    };
    format!("{number:.places$}")
}

/// The quartiles of a ratio.
pub fn quartiles(ratio: Spread) -> String {
    format!("{} – {}", digits(ratio.lower), digits(ratio.upper))
}

/// A time's unit, by its median: what is to be compared in a line has one unit.
fn unit(seconds: f64) -> (f64, &'static str) {
    match seconds {
        s if s >= 0.9995e-3 => (1e3, "ms"),
        s if s >= 0.9995e-7 => (1e6, "µs"),
        _ => (1e9, "ns"),
    }
}

pub fn seconds(seconds: f64) -> String {
    let (scale, name) = unit(seconds);
    format!("{} {name}", digits(seconds * scale))
}

/// The quartiles of a time, in the unit of its median.
pub fn range(time: Spread) -> String {
    let (scale, _) = unit(time.median);
    format!("{} – {}", digits(time.lower * scale), digits(time.upper * scale))
}

pub fn percent(part: i64, total: i64) -> String {
    format!("{:.1} %", 100.0 * part as f64 / total as f64)
}

/// Commas between thousands.
pub fn thousands(number: i64) -> String {
    let digits = number.abs().to_string();
    let mut text = if number < 0 { String::from("−") } else { String::new() };
    for (i, digit) in digits.chars().enumerate() {
        if i > 0 && (digits.len() - i).is_multiple_of(3) {
            text.push(',');
        }
        text.push(digit);
    }
    text
}

#[cfg(test)]
mod tests {
    use super::*;

    #[test]
    fn thousands_are_separated() {
        let words = [0, 999, 1_000, 1_234_567, -1_024].map(thousands);
        assert_eq!(words, ["0", "999", "1,000", "1,234,567", "−1,024"]);
    }

    #[test]
    fn times_have_three_digits_and_a_unit() {
        let words = [1.23e-9, 9.96e-8, 1.234e-7, 3.4567e-5, 1.9e-4, 9.996e-4, 0.0057].map(seconds);
        assert_eq!(words, ["1.23 ns", "99.6 ns", "0.123 µs", "34.6 µs", "190 µs", "1.00 ms", "5.70 ms"]);
        assert_eq!(range(Spread { lower: 0.9e-3, median: 1.1e-3, upper: 12.3e-3 }), "0.900 – 12.3");
        assert_eq!(quartiles(Spread { lower: 0.5, median: 2.0, upper: 12.34 }), "0.500 – 12.3");
    }
}

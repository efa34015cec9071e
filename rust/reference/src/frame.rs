//! The tile program: its input, and what it prints.

use crate::picture::greys;
use crate::questions::depth;
use crate::rules::Rules;
use crate::table::build;

/// The longest text that is read, in bytes.
const LONGEST: usize = 16_384;

/// The refusal of a text that is too long or not formed as it should be.
const NOT_FORMED: u8 = 11;

/// How many noughts the program's table has before building: the side × side
/// entries of the largest tile.
pub(crate) const LARGEST_TABLE: usize = 4096;

/// What a well-formed text says. Whether it can be drawn is not yet asked.
#[derive(Clone, Debug, PartialEq, Eq)]
pub struct Frame {
    /// The side, from 0 to 255.
    pub side: u32,
    /// The level, from 0 to 255.
    pub level: u32,
    /// x, y pairs of all contours, each number from 0 to 65,535.
    pub points: Vec<i64>,
    /// The points of each contour, at least one.
    pub counts: Vec<u32>,
}

/// Reads the tile program's input, or refuses it with 11: "line one: side, two
/// digits, then level, two digits. Each further line is a contour: for each
/// point four digits of x and four of y."
pub fn frame(text: &[u8]) -> Result<Frame, u8> {
    read(text).ok_or(NOT_FORMED)
}

fn read(text: &[u8]) -> Option<Frame> {
    if text.len() > LONGEST {
        return None;
    }
    // "Each line closed by byte 0A", the last one too.
    let mut lines = text.strip_suffix(b"\n")?.split(|&byte| byte == b'\n');
    let first = lines.next()?;
    if first.len() != 4 {
        return None;
    }
    let mut frame =
        Frame { side: number(&first[..2])?, level: number(&first[2..])?, points: Vec::new(), counts: Vec::new() };
    for line in lines {
        if line.is_empty() || line.len() % 8 != 0 {
            return None;
        }
        for digits in line.chunks(4) {
            frame.points.push(i64::from(number(digits)?));
        }
        frame.counts.push((line.len() / 8) as u32);
    }
    Some(frame)
}

/// The number that some lowercase hexadecimal digits, at most four, stand for.
fn number(digits: &[u8]) -> Option<u32> {
    let mut number = 0;
    for &digit in digits {
        let value = match digit {
            b'0'..=b'9' => digit - b'0',
            b'a'..=b'f' => digit - b'a' + 10,
            _ => return None,
        };
        number = 16 * number + u32::from(value);
    }
    Some(number)
}

/// What the tile program prints for an input: "a line of four digits of edge
/// count and sixteen of the root in two's complement; then one line a row of
/// greys, two digits each", or the refusal's line.
pub fn tile_program(rules: &dyn Rules, text: &[u8]) -> String {
    printed(rules, text).unwrap_or_else(|number| format!("refused {number:02}\n"))
}

fn printed(rules: &dyn Rules, text: &[u8]) -> Result<String, u8> {
    let frame = frame(text)?;
    let noughts = [0; LARGEST_TABLE];
    // A side above 64 is refused for itself, whatever part of the table is lent.
    let used = (frame.side as usize).pow(2).min(LARGEST_TABLE);
    let (edges, table) = build(rules, frame.side, &frame.points, &frame.counts, &noughts[..used])?;
    // A level above the depth is refused for itself, whatever the places.
    let places = 1 << (2 * frame.level.min(depth(frame.side)));
    let greys = greys(rules, frame.side, frame.level, &table, places)?;
    let mut text = format!("{edges:04x}{:016x}\n", table[0]);
    for row in greys.chunks(1 << frame.level) {
        for grey in row {
            text.push_str(&format!("{grey:02x}"));
        }
        text.push('\n');
    }
    Ok(text)
}

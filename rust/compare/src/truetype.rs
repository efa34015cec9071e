//! Letters of TrueType fonts, which are contours of straight edges and quadratic Bézier curves: as real outlines as there are to be had.
//!
//! A font is a file of tables. `head` says how wide the places in `loca` are, `maxp` how many glyphs there are, `cmap` which glyph a character has,
//! `loca` where each glyph begins in `glyf`, and `glyf` has the glyphs: points that are on the outline or off it. A point that is off is the control
//! point of a curve; between two such points that follow one another, there is one on the outline in the middle, which is not written. Only simple
//! glyphs are read. Those that are put together of others are passed over.
use crate::curves::Piece;
use crate::outlines::Point;
use std::collections::HashMap;
use std::ffi::OsStr;
use std::path::{Path, PathBuf};

/// Where fonts are installed.
const FOLDER: &str = "/usr/share/fonts";

/// The flags of a point in `glyf`.
const ON_THE_OUTLINE: u8 = 1;
const SHORT: [u8; 2] = [2, 4];
const REPEATED: u8 = 8;
/// Of a short number: it is not below zero. Of one that is not short: it is the same as the one before.
const SAME_OR_POSITIVE: [u8; 2] = [16, 32];

/// A font that was read.
pub struct Font {
    bytes: Vec<u8>,
    /// where each table begins, and how long it is
    tables: HashMap<[u8; 4], (usize, usize)>,
    glyphs: u16,
    /// whether a place in `loca` has four bytes, and not two for half of it
    wide: bool,
}

impl Font {
    /// The font in a file of these bytes, if there is one.
    pub fn read(bytes: Vec<u8>) -> Option<Font> {
        let mut font = Font { bytes, tables: HashMap::new(), glyphs: 0, wide: false };
        for i in 0..usize::from(font.unsigned(4)?) {
            let entry = 12 + 16 * i;
            let tag = font.bytes.get(entry..entry + 4)?.try_into().ok()?;
            font.tables.insert(tag, (font.long(entry + 8)?, font.long(entry + 12)?));
        }
        font.wide = font.unsigned(font.table(b"head")? + 50)? == 1;
        font.glyphs = font.unsigned(font.table(b"maxp")? + 4)?;
        font.table(b"loca").and(font.table(b"glyf"))?;
        Some(font)
    }

    fn table(&self, tag: &[u8; 4]) -> Option<usize> {
        self.tables.get(tag).map(|&(begin, _)| begin)
    }

    fn byte(&self, at: usize) -> Option<u8> {
        self.bytes.get(at).copied()
    }

    /// A number of two bytes, the higher one first.
    fn unsigned(&self, at: usize) -> Option<u16> {
        Some(u16::from_be_bytes([self.byte(at)?, self.byte(at + 1)?]))
    }

    fn signed(&self, at: usize) -> Option<i16> {
        self.unsigned(at).map(|number| number as i16)
    }

    fn long(&self, at: usize) -> Option<usize> {
        Some(usize::from(self.unsigned(at)?) << 16 | usize::from(self.unsigned(at + 2)?))
    }

    /// The glyph of a character of the first 65,536, by the part of `cmap` that has format 4: runs of characters, each with what is added to them, or
    /// with a list.
    pub fn glyph_of(&self, character: char) -> Option<u16> {
        let character = u16::try_from(u32::from(character)).ok()?;
        let cmap = self.table(b"cmap")?;
        let parts = (0..usize::from(self.unsigned(cmap + 2)?)).filter_map(|i| self.long(cmap + 4 + 8 * i + 4));
        let part = parts.map(|offset| cmap + offset).find(|&part| self.unsigned(part) == Some(4))?;
        let twice_runs = usize::from(self.unsigned(part + 6)?);
        let (ends, starts) = (part + 14, part + 16 + twice_runs);
        let (deltas, lists) = (starts + twice_runs, starts + 2 * twice_runs);
        let run = (0..twice_runs).step_by(2).find(|&i| self.unsigned(ends + i).is_some_and(|end| character <= end))?;
        let start = self.unsigned(starts + run)?;
        let delta = self.unsigned(deltas + run)?;
        let past = usize::from(character.checked_sub(start)?);
        let glyph = match usize::from(self.unsigned(lists + run)?) {
            0 => character.wrapping_add(delta),
            // the list begins so many bytes after this number
            list => match self.unsigned(lists + run + list + 2 * past)? {
                0 => 0,
                glyph => glyph.wrapping_add(delta),
            },
        };
        (glyph != 0 && glyph < self.glyphs).then_some(glyph)
    }

    /// The contours of a simple glyph, in halves of the font's units, y growing upwards. There are none of a glyph that is put together of others,
    /// and none of a blank.
    pub fn contours(&self, glyph: u16) -> Option<Vec<Vec<Piece>>> {
        let place = |i: usize| match self.wide {
            true => self.long(self.table(b"loca")? + 4 * i),
            false => self.unsigned(self.table(b"loca")? + 2 * i).map(|half| 2 * usize::from(half)),
        };
        let (begin, end) = (place(glyph.into())?, place(usize::from(glyph) + 1)?);
        if begin == end {
            return None;
        }
        let at = self.table(b"glyf")? + begin;
        let contours = usize::try_from(self.signed(at)?).ok().filter(|&contours| contours > 0)?;
        let last_points: Option<Vec<usize>> =
            (0..contours).map(|i| self.unsigned(at + 10 + 2 * i).map(usize::from)).collect();
        let last_points = last_points?;
        let instructions = at + 10 + 2 * contours;
        let flags_at = instructions + 2 + usize::from(self.unsigned(instructions)?);
        let (on, points) = self.points(flags_at, last_points.last()? + 1)?;

        let mut first = 0;
        let mut found = Vec::new();
        for last in last_points {
            let contour = points.get(first..=last)?.iter().copied().zip(on.get(first..=last)?.iter().copied());
            found.push(pieces(&contour.collect::<Vec<_>>()));
            first = last + 1;
        }
        Some(found)
    }

    /// So many points from this place on, each doubled, and whether each is on the outline.
    fn points(&self, mut at: usize, count: usize) -> Option<(Vec<bool>, Vec<Point>)> {
        let mut flags = Vec::new();
        while flags.len() < count {
            let flag = self.byte(at)?;
            at += 1;
            flags.push(flag);
            if flag & REPEATED != 0 {
                flags.extend(vec![flag; self.byte(at)?.into()]);
                at += 1;
            }
        }
        flags.truncate(count);
        let mut coordinates = [Vec::new(), Vec::new()];
        for (c, list) in coordinates.iter_mut().enumerate() {
            let mut value = 0;
            for flag in &flags {
                let other = flag & SAME_OR_POSITIVE[c] != 0;
                if flag & SHORT[c] != 0 {
                    let step = i64::from(self.byte(at)?);
                    at += 1;
                    value += if other { step } else { -step };
                } else if !other {
                    value += i64::from(self.signed(at)?);
                    at += 2;
                }
                list.push(2 * value);
            }
        }
        let [x, y] = coordinates;
        Some((flags.iter().map(|flag| flag & ON_THE_OUTLINE != 0).collect(), x.into_iter().zip(y).collect()))
    }
}

/// The edges of a contour, from its points and whether each is on the outline. Coordinates are even, so that the middle of two is whole.
fn pieces(points: &[(Point, bool)]) -> Vec<Piece> {
    let mut all = Vec::new();
    for (i, &(point, on)) in points.iter().enumerate() {
        let (before, before_on) = points[(i + points.len() - 1) % points.len()];
        if !on && !before_on {
            all.push((((before.0 + point.0) / 2, (before.1 + point.1) / 2), true));
        }
        all.push((point, on));
    }
    // now a point that is off lies between two that are on, in the round
    let first = all.iter().position(|&(_, on)| on).unwrap_or(0);
    all.rotate_left(first);
    let mut pieces: Vec<Piece> = Vec::new();
    for (point, on) in all {
        match pieces.last_mut() {
            Some(last) if !on => last.1 = Some(point),
            _ => pieces.push((point, None)),
        }
    }
    pieces
}

/// The font files that are installed, in order.
pub fn installed() -> Vec<PathBuf> {
    let mut fonts = Vec::new();
    look_into(Path::new(FOLDER), &mut fonts);
    fonts.sort();
    fonts
}

fn look_into(folder: &Path, fonts: &mut Vec<PathBuf>) {
    let entries = std::fs::read_dir(folder).into_iter().flatten().flatten();
    for path in entries.map(|entry| entry.path()) {
        if path.is_dir() {
            look_into(&path, fonts);
        } else if path.extension().and_then(OsStr::to_str) == Some("ttf") {
            fonts.push(path);
        }
    }
}

#[cfg(test)]
mod tests {
    use super::*;

    #[test]
    fn points_between_two_that_are_off() {
        let (on, off) = (true, false);
        // a straight edge, a curve, and two curves with a point between them
        let points = [((0, 0), on), ((10, 0), on), ((20, 0), off), ((20, 10), on), ((20, 20), off), ((10, 30), off)];
        let expected =
            [((0, 0), None), ((10, 0), Some((20, 0))), ((20, 10), Some((20, 20))), ((15, 25), Some((10, 30)))];
        assert_eq!(pieces(&points), expected);
        // none that is on: all are between two
        let points = [((0, 0), off), ((10, 0), off), ((10, 10), off)];
        assert_eq!(pieces(&points), [((5, 5), Some((0, 0))), ((5, 0), Some((10, 0))), ((10, 5), Some((10, 10)))]);
        // begun with one that is off
        let points = [((20, 0), off), ((20, 10), on), ((0, 10), on), ((10, 0), on)];
        assert_eq!(pieces(&points), [((20, 10), None), ((0, 10), None), ((10, 0), Some((20, 0)))]);
    }

    /// A font of two glyphs, the second a triangle with one edge bent, as the characters B and C.
    fn small_font() -> Vec<u8> {
        let words = |words: &[u16]| words.iter().flat_map(|word| word.to_be_bytes()).collect::<Vec<u8>>();
        // one contour of four points; (0, 0), then by a short step and by a long one, the third off the outline
        let glyph = [
            words(&[1, 0, 0, 300, 200, 3, 0]),
            vec![1 | 16 | 32, 1 | 2 | 16 | 32, 32, 1 | 2 | 4],
            vec![100],
            words(&[200]),
            vec![250],
            vec![200],
        ]
        .concat();
        let mut glyph = glyph;
        glyph.resize(glyph.len().div_ceil(2) * 2, 0);
        let cmap = words(&[
            0, 1, 3, 1, 0, 12, // one part, after 12 bytes
            4, 40, 0, 4, 4, 1, 0, // two runs
            0x43, 0xffff, 0, 0x42, 0xffff, 0xffbf, 1, 0, 0,
        ]);
        let mut head = vec![0; 54];
        head[51] = 0; // places in `loca` are halves
        let loca = words(&[0, 0, glyph.len() as u16 / 2]);
        let maxp = words(&[0, 1, 2]);
        let tables: [(&[u8; 4], Vec<u8>); 5] =
            [(b"cmap", cmap), (b"glyf", glyph), (b"head", head), (b"loca", loca), (b"maxp", maxp)];
        let mut file = words(&[0, 1, tables.len() as u16, 0, 0, 0]);
        let mut begin = file.len() + 16 * tables.len();
        for (tag, table) in &tables {
            file.extend(&tag[..]);
            file.extend([0; 4]);
            file.extend((begin as u32).to_be_bytes());
            file.extend((table.len() as u32).to_be_bytes());
            begin += table.len();
        }
        tables.into_iter().for_each(|(_, table)| file.extend(table));
        file
    }

    #[test]
    fn a_small_font() {
        let font = Font::read(small_font()).unwrap();
        // 0x42 + 0xffbf is 1, in 16 bits
        assert_eq!(font.glyph_of('B'), Some(1));
        assert_eq!((font.glyph_of('A'), font.glyph_of('D'), font.glyph_of('€')), (None, None, None));
        // its glyph would be the third of two
        assert_eq!(font.glyph_of('C'), None);
        assert_eq!(font.contours(0), None);
        let expected = [((0, 0), None), ((200, 0), Some((600, 0))), ((100, -400), None)];
        assert_eq!(font.contours(1), Some(vec![expected.to_vec()]));
        // a file that ends early has no glyph, and makes nothing panic
        let whole = small_font();
        for length in 0..whole.len() {
            if let Some(font) = Font::read(whole[..length].to_vec()) {
                let _ = (font.glyph_of('B'), font.contours(1), font.contours(u16::MAX));
            }
        }
    }
}

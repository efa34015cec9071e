//! A headline: a frame's outline that lies on a sheet, drawn by the library tile by tile and put together as one picture. The tile program knows no
//! sheet, so `draw` calls this program where it is asked for tiles.
use compare::outlines::Outline;
use compare::{placements, printing, sheets};
use reference::Placement;
use std::ffi::OsString;
use std::process::ExitCode;

const USAGE: &str = "usage: tiled SIDE [--shift X Y | --scale S | --turn A B C D E F]
Reads a frame from standard input whose side is that of a sheet, and prints of the outline, as placed, what the tile program prints of a frame, with
the sheet drawn in tiles of SIDE pixels: the edge count, the sum of the tiles' roots, and the greys of all tiles, row by row of the sheet. The level
is the sheet's: level L has 2^L greys a row.";

fn main() -> ExitCode {
    let words: Vec<OsString> = std::env::args_os().skip(1).collect();
    let side = words.first().and_then(|word| word.to_str()?.parse().ok());
    let (Some(side), Some((placement, []))) = (side, words.get(1..).and_then(placements::read)) else {
        eprintln!("{USAGE}");
        return ExitCode::from(2);
    };
    printing::answer("tiled", |text| printed(text, side, placement))
}

fn printed(text: &[u8], side: u32, placement: Placement) -> Result<String, u8> {
    let reference::Frame { side: sheet, level, points, counts } = reference::frame(text)?;
    let outline = Outline { side: sheet, points, counts };
    let sheet = sheets::put_together(&outline, side, level, placement)?;
    Ok(printing::in_form(sheet.edges, sheet.roots, &sheet.greys, sheet.across))
}

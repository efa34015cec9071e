//! A frame's outline at every level, drawn by one call of the library. The tile program draws one level, so `draw --picture` calls this program where
//! there is Rust.
use compare::{outlines, placements, printing};
use mattuliyan::Refusal;
use reference::Placement;
use std::ffi::OsString;
use std::process::ExitCode;

const USAGE: &str = "usage: levels [--shift X Y | --scale S | --turn A B C D E F]
Reads a frame from standard input, and prints of the outline, as placed, what the tile program prints of a frame, with the rows of greys of level 0, of
level 1 and so on to the depth. The frame's own level makes no difference.";

fn main() -> ExitCode {
    let words: Vec<OsString> = std::env::args_os().skip(1).collect();
    let Some((placement, [])) = placements::read(&words) else {
        eprintln!("{USAGE}");
        return ExitCode::from(2);
    };
    printing::answer("levels", |text| printed(text, placement))
}

fn printed(text: &[u8], placement: Placement) -> Result<String, u8> {
    let frame = reference::frame(text)?;
    let mut table = vec![0; (frame.side as usize).pow(2)];
    let placement = placements::for_library(placement);
    let edges = mattuliyan::build_placed(frame.side, &frame.points, &frame.counts, placement, &mut table)
        .map_err(Refusal::number)?;
    let mut pictures = vec![0; outlines::all_places(frame.side)];
    mattuliyan::pyramid(frame.side, &table, &mut pictures).map_err(Refusal::number)?;
    let rows = outlines::each_level(&pictures).map(|(level, greys)| printing::rows(greys, 1 << level));
    Ok(printing::first_line(edges, table[0]) + &rows.collect::<String>())
}

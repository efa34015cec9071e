//! A frame's outline as placed, drawn by the library: what the tile program would print for a frame of the placed outline. A frame has no
//! placement, so `draw` calls this program where one is given.
use compare::{placements, printing};
use mattuliyan::Refusal;
use reference::Placement;
use std::ffi::OsString;
use std::process::ExitCode;

const USAGE: &str = "usage: placed [--shift X Y | --scale S | --turn A B C D E F]
Reads a frame from standard input, and prints what the tile program prints for a frame, of the outline as placed.";

fn main() -> ExitCode {
    let words: Vec<OsString> = std::env::args_os().skip(1).collect();
    let Some((placement, [])) = placements::read(&words) else {
        eprintln!("{USAGE}");
        return ExitCode::from(2);
    };
    printing::answer("placed", |text| printed(text, placement))
}

fn printed(text: &[u8], placement: Placement) -> Result<String, u8> {
    let frame = reference::frame(text)?;
    let mut table = vec![0; (frame.side as usize).pow(2)];
    let placement = placements::for_library(placement);
    let edges = mattuliyan::build_placed(frame.side, &frame.points, &frame.counts, placement, &mut table)
        .map_err(Refusal::number)?;
    // a level past the depth is refused for itself, whatever the places
    let across = 1 << frame.level.min(frame.side.trailing_zeros());
    let mut greys = vec![0; across * across];
    mattuliyan::greys(frame.side, frame.level, &table, &mut greys).map_err(Refusal::number)?;
    Ok(printing::in_form(edges, table[0], &greys, across))
}

//! What the programs `placed`, `levels` and `tiled` share: a frame from standard input, and an answer in the form of the tile program's.
use std::io::{Read, Write};
use std::process::ExitCode;

/// Reads a text from standard input and prints what is answered to it, or the refusal's line.
pub fn answer(name: &str, printed: impl FnOnce(&[u8]) -> Result<String, u8>) -> ExitCode {
    let mut text = Vec::new();
    let read = std::io::stdin().read_to_end(&mut text);
    let answer = printed(&text).unwrap_or_else(|number| format!("refused {number:02}\n"));
    if let Err(error) = read.and_then(|_| std::io::stdout().write_all(answer.as_bytes())) {
        eprintln!("{name}: {error}");
        return ExitCode::from(2);
    }
    ExitCode::SUCCESS
}

/// The edge count, the root and the rows of greys, so many in each.
pub fn in_form(edges: u32, root: i64, greys: &[u8], across: usize) -> String {
    first_line(edges, root) + &rows(greys, across)
}

/// The edge count and the root.
pub fn first_line(edges: u32, root: i64) -> String {
    format!("{edges:04x}{root:016x}\n")
}

/// Rows of so many greys.
pub fn rows(greys: &[u8], across: usize) -> String {
    let mut text = String::new();
    for row in greys.chunks(across) {
        text.extend(row.iter().map(|grey| format!("{grey:02x}")));
        text.push('\n');
    }
    text
}

//! The tile program beside the reference, on frames of every kind of outline and on damaged ones.
use compare::grouped;
use compare::outlines::{outline, SIDES};
use compare::random::Random;
use std::io::{ErrorKind, Read, Write};
use std::process::{Command, ExitCode, Stdio};

const USAGE: &str = "usage: frames PROGRAM [SEED]
Runs the tile program PROGRAM on some thousand texts made from the seed, 1 if left out, and compares what it prints with the reference.
It ends at the first difference, with status 1, and prints the text.";

/// As many as take some seconds, most of which go into starting the program.
const TEXTS: u64 = 3_000;
/// One outline in so many is large: up to 1,024 edges.
const LARGE_ONE_IN: u64 = 20;

fn main() -> ExitCode {
    let words: Vec<String> = std::env::args().skip(1).collect();
    let (program, seed) = match &words[..] {
        [program] => (program, Some(1)),
        [program, seed] => (program, seed.parse().ok()),
        _ => (&String::new(), None),
    };
    let Some(seed) = seed else {
        eprintln!("{USAGE}");
        return ExitCode::from(2);
    };
    let (mut refused, mut bytes) = (0, 0);
    for number in 0..TEXTS {
        let text = text(&mut Random::of_case(seed, number));
        let printed = match answer(program, &text) {
            Ok(printed) => printed,
            Err(error) => {
                eprintln!("{program}: {error}");
                return ExitCode::from(2);
            }
        };
        let expected = reference::tile_program(&reference::Spec, &text);
        if printed != expected.as_bytes() {
            println!("seed {seed}, text {number}: the program prints\n{}", String::from_utf8_lossy(&printed));
            println!("where this is right\n{expected}\nThe text was\n{}", String::from_utf8_lossy(&text));
            return ExitCode::FAILURE;
        }
        refused += expected.starts_with("refused") as u64;
        bytes += printed.len() as u64;
    }
    println!(
        "frames: {} texts, {} of them refused, {} bytes of answers, 0 failed",
        grouped(TEXTS),
        grouped(refused),
        grouped(bytes)
    );
    ExitCode::SUCCESS
}

/// A frame, or half the time one that is damaged in one or two places.
fn text(random: &mut Random) -> Vec<u8> {
    let side = random.pick(&SIDES);
    let large = random.once_in(LARGE_ONE_IN);
    // once in a while one past the depth, which is refused
    let deepest = side.trailing_zeros() + random.once_in(8) as u32;
    let level = random.within(0, deepest.into()) as u32;
    let mut text = outline(random, side, large).frame(level).into_bytes();
    if random.once_in(2) {
        for _ in 0..random.within(1, 2) {
            damage(random, &mut text);
        }
    }
    text
}

fn damage(random: &mut Random, text: &mut Vec<u8>) {
    let at = random.index(text.len() + 1);
    match random.index(6) {
        0 => text.insert(at, random.pick(b"\n\r 0fF\0\xff")),
        1 => text.truncate(at),
        2 => text.extend_from_within(at..),
        3 => text.extend(std::iter::repeat_n(b'0', 8 * random.index(2100))),
        // another side or level, or another digit anywhere
        4 if text.len() >= 4 => text[random.index(4)] = random.pick(b"01248af"),
        _ if at < text.len() => text[at] = random.pick(b"0123456789abcdefgA\n"),
        _ => text.push(b'\n'),
    }
}

/// What the program prints. It may stop reading a text that is too long, which is no error.
fn answer(program: &str, text: &[u8]) -> std::io::Result<Vec<u8>> {
    let mut running = Command::new(program).stdin(Stdio::piped()).stdout(Stdio::piped()).spawn()?;
    let mut printed = Vec::new();
    match running.stdin.take().unwrap().write_all(text) {
        Err(error) if error.kind() != ErrorKind::BrokenPipe => return Err(error),
        _ => (), // the pipe is closed here, which ends the text
    }
    running.stdout.take().unwrap().read_to_end(&mut printed)?;
    match running.wait()? {
        status if status.success() => Ok(printed),
        status => Err(std::io::Error::other(format!("ended with {status}"))),
    }
}

//! Calls that may be refused: sound ones with some part damaged, often two parts, so that the order of the questions matters.
use crate::calls::{Correcting, Ground, Tile};
use crate::curves::Curved;
use crate::outlines::{self, Outline, MOST_EDGES, SIDES};
use crate::placements::{self, FACTOR, HIGHEST, LOWEST, OFFSET, PART};
use crate::random::Random;
use crate::sheets::{self, PAIRS};
use reference::{Correction, Limits, Placement, SheetTile, STEPS};

/// Question 9: an entry's limit, either way.
pub const ENTRY_LIMIT: i64 = Limits::SPEC.largest_entry;

/// Added to a number, this is lost where only 16 bits are looked at.
const BEYOND_16_BITS: u32 = 1 << 16;
/// Numbers that are no side of a tile: small ones, the next powers of two, the ends.
const NO_SIDES: [u32; 10] = [0, 3, 15, 17, 31, 63, 65, 128, 1 << 31, u32::MAX];
/// Numbers that are no side of a sheet, likewise, and numbers that are no side of a tile on one.
const NO_SHEETS: [u32; 9] = [0, 3, 33, 96, 127, 129, 256, 1 << 31, u32::MAX];
const NO_SIDES_ON_SHEET: [u32; 9] = [0, 3, 12, 31, 33, 64, 128, 1 << 31, u32::MAX];
/// Counts that no contour has.
const NO_COUNTS: [u32; 9] = [0, 1, 2, 1025, 2000, BEYOND_16_BITS + 3, BEYOND_16_BITS + 1024, 1 << 31, u32::MAX];
/// Bytes that are no mark.
const NO_MARKS: [u8; 6] = [2, 3, 128, 129, 254, 255];
/// Levels past every depth, some of which would shift a word out of its width.
const NO_LEVELS: [u32; 11] = [7, 8, 16, 31, 32, 64, 100, 256, BEYOND_16_BITS, 1 << 31, u32::MAX];
/// Entries at the limit, and past it by little and by much.
const ENTRIES: [i64; 9] = [
    ENTRY_LIMIT,
    -ENTRY_LIMIT,
    ENTRY_LIMIT + 1,
    -ENTRY_LIMIT - 1,
    2 * ENTRY_LIMIT,
    1 << 48,
    -(1 << 62),
    i64::MIN,
    i64::MAX,
];

/// Coordinates at the ends of those that are moved, and past them by little and by much.
const REACHES: [i64; 8] = [LOWEST - 1, LOWEST, HIGHEST, HIGHEST + 1, 1 << 16, 1 << 32, i64::MIN, i64::MAX];
/// Numbers of a placement at the limits and past them by little and by much, numbers between two 65,536ths, and what is no number.
const FLOATS: [f64; 20] = [
    0.0,
    PART,
    PART / 2.0,
    0.1,
    1.0 + f64::EPSILON,
    1.0 + PART / 2.0,
    FACTOR - PART / 2.0,
    FACTOR,
    FACTOR + PART,
    FACTOR + 0.5,
    2.0 * FACTOR,
    OFFSET - PART / 2.0,
    OFFSET,
    OFFSET + PART,
    2.0 * OFFSET,
    f64::MIN_POSITIVE / 2.0, // subnormal
    f64::MIN_POSITIVE,
    f64::MAX,
    f64::INFINITY,
    f64::NAN,
];

pub struct Building {
    pub ground: Ground,
    pub points: Vec<i64>,
    pub counts: Vec<u32>,
    pub table: Vec<i64>,
}

pub struct Drawing {
    pub side: u32,
    pub level: u32,
    pub cx: u32,
    pub cy: u32,
    pub table: Vec<i64>,
    pub places: usize,
}

pub struct EveryLevel {
    pub side: u32,
    pub table: Vec<i64>,
    pub places: usize,
}

/// What a table may hold before it is built: anything.
pub fn any_table(random: &mut Random, length: usize) -> Vec<i64> {
    (0..length).map(|_| random.number() as i64).collect()
}

/// A table that question 9 lets pass, its entries of any size up to the limit or all at it.
pub fn table_in_range(random: &mut Random, length: usize) -> Vec<i64> {
    let limit = ENTRY_LIMIT >> random.pick(&[0, 0, 0, 10, 20, 30, 40]);
    let extreme = random.once_in(4);
    (0..length).map(|_| if extreme { random.pick(&[limit, -limit]) } else { random.within(-limit, limit) }).collect()
}

/// Building an outline that lies on this ground, undamaged.
fn sound(random: &mut Random, ground: Ground, outline: &Outline) -> Building {
    let table = any_table(random, (ground.side() * ground.side()) as usize);
    Building { ground, points: outline.points.clone(), counts: outline.counts.clone(), table }
}

/// Building an outline, damaged in one or two parts. (Not every damage shows: a coordinate may stay on the tile.)
pub fn building(random: &mut Random, ground: Ground, outline: &Outline) -> Building {
    let mut call = sound(random, ground, outline);
    for _ in 0..random.within(1, 2) {
        match random.index(9) {
            0 => no_ground(random, &mut call.ground, &mut call.table),
            1 => another_ground(random, &mut call.ground),
            2 => resize(random, &mut call.table),
            3 => put(random, &mut call.counts, NO_COUNTS),
            4 => call.counts.push(random.pick(&[3, 1024])),
            5 => sum_to(random, &mut call),
            6 => resize(random, &mut call.points),
            7 => {
                let limit = STEPS * ground.reach() as i64;
                put(random, &mut call.points, [-1, limit, limit + 1, i64::MIN, i64::MAX, 1 << 32])
            }
            _ => {
                // more contours than any outline has, each a right one; 64 of the longest have a sum of 2^16
                let many = random.within(342, 3000) as usize;
                call.counts = if random.once_in(4) { vec![1024; 64] } else { vec![3; many] };
                call.points = vec![0; if random.once_in(2) { 6 * call.counts.len() } else { call.points.len() }];
            }
        }
    }
    call
}

/// Building an outline from points that are placed, damaged in the placement or in what it moves, and now and then as any building can be.
pub fn placing(random: &mut Random, ground: Ground, outline: &Outline) -> (Building, Placement) {
    let (placement, points) = placements::onto_the_tile(random, outline);
    let before = Outline { points, ..outline.clone() };
    let mut call = if random.once_in(4) { building(random, ground, &before) } else { sound(random, ground, &before) };
    let mut numbers = placements::numbers(placement);
    for _ in 0..random.within(1, 2) {
        match random.index(8) {
            0..5 => {
                let (float, any) = (random.pick(&FLOATS), f64::from_bits(random.number()));
                put(random, &mut numbers, [float, -float, any]);
            }
            5..7 => put(random, &mut call.points, REACHES),
            _ => (call.points, call.counts) = (Vec::new(), Vec::new()),
        }
    }
    (call, placements::of_numbers(&numbers))
}

/// Building an outline with curved edges, from points that are placed: what is built, its marks and the placement.
pub struct Curving {
    pub building: Building,
    pub marks: Vec<u8>,
    pub placement: Placement,
}

/// Building an outline with curved edges, damaged in one or two parts.
pub fn curving(random: &mut Random, ground: Ground, curved: &Curved) -> Curving {
    let (placement, points) = placements::onto_the_tile(random, &curved.outline);
    let building = sound(random, ground, &Outline { points, ..curved.outline.clone() });
    let mut call = Curving { building, marks: curved.marks.clone(), placement };
    let limit = STEPS * ground.reach() as i64;
    for _ in 0..random.within(1, 2) {
        let Curving { building, marks, placement } = &mut call;
        match random.index(13) {
            0 => no_ground(random, &mut building.ground, &mut building.table),
            1 => another_ground(random, &mut building.ground),
            2 => resize(random, &mut building.table),
            3 => put(random, &mut building.counts, NO_COUNTS),
            4 => {
                // an edge goes from one contour to the next, or comes from nowhere
                let last = building.counts.len().saturating_sub(1);
                building.counts.iter_mut().take(1).for_each(|count| *count = count.wrapping_add(1));
                if random.once_in(2) {
                    building.counts.iter_mut().skip(last).for_each(|count| *count = count.wrapping_sub(1));
                }
            }
            5..8 => no_marks(random, marks),
            8 => resize(random, &mut building.points),
            9 => put(random, &mut building.points, [-1, limit, limit + 1, i64::MIN, i64::MAX, 1 << 32]),
            10 => put(random, &mut building.points, REACHES),
            11 => {
                let mut numbers = placements::numbers(*placement);
                let (float, any) = (random.pick(&FLOATS), f64::from_bits(random.number()));
                put(random, &mut numbers, [float, -float, any]);
                *placement = placements::of_numbers(&numbers);
            }
            _ => (), // as it is, if it is not damaged elsewhere
        }
    }
    call
}

/// The marks become such as there are not, or others: one that is neither 0 nor 1, one that is the other of the two, another number of them.
fn no_marks(random: &mut Random, marks: &mut Vec<u8>) {
    match random.index(4) {
        0 => put(random, marks, NO_MARKS),
        1 => {
            let at = random.index(marks.len().max(1));
            marks.iter_mut().skip(at).take(1).for_each(|mark| *mark ^= 1);
        }
        _ => {
            let (length, mark) = (marks.len(), random.index(2) as u8);
            let length = random.pick(&[
                0,
                2 * length,
                length + 1,
                length.saturating_sub(1),
                length + 256,
                length + BEYOND_16_BITS as usize,
            ]);
            marks.resize(length, mark);
        }
    }
}

/// A correction of a tile, damaged in one or two parts. (Again, not every damage shows.)
pub fn correcting(random: &mut Random, mut call: Correcting) -> Correcting {
    let limit = STEPS * call.ground.reach() as i64;
    for _ in 0..random.within(1, 2) {
        if let Some(marks) = call.marks.as_mut().filter(|_| random.once_in(3)) {
            no_marks(random, marks);
            continue;
        }
        match random.index(14) {
            0 => no_ground(random, &mut call.ground, &mut call.tile.table),
            1 => another_ground(random, &mut call.ground),
            2 => resize(random, &mut call.tile.table),
            3 => call.count = random.pick(&NO_COUNTS),
            4 => call.count = random.pick(&[3, call.count.saturating_sub(1), call.count.wrapping_add(1), MOST_EDGES]),
            5 => resize(random, &mut call.points),
            6 => put(random, &mut call.points, [-1, limit, limit + 1, i64::MIN, i64::MAX, 1 << 32]),
            7 => put(random, &mut call.points, REACHES),
            8 => {
                let mut numbers = placements::numbers(call.placement);
                let (float, any) = (random.pick(&FLOATS), f64::from_bits(random.number()));
                put(random, &mut numbers, [float, -float, any]);
                call.placement = placements::of_numbers(&numbers);
            }
            9..11 => call.tile.record = any_record(random, call.count),
            11 => put(random, &mut call.tile.table, ENTRIES),
            12 => call.tile.table = table_in_range(random, call.tile.table.len()),
            _ => to_the_limit(random, &mut call),
        }
    }
    call
}

/// A record that may be any, and mostly is near to where questions 5 and 13 turn: with the contour's edges about as many as there may be, about as
/// many as the contour has, about 0, and so at both ends of 32 bits, and what is lost where only 16 bits are looked at.
pub fn any_record(random: &mut Random, count: u32) -> u32 {
    let beside = random.within(-2, 2) as u32;
    let about = match random.index(6) {
        0..2 => MOST_EDGES.wrapping_sub(count),
        2 => count,
        3 => 0,
        4 => BEYOND_16_BITS.wrapping_mul(random.number() as u32).wrapping_add(count),
        _ => random.number() as u32,
    };
    about.wrapping_add(beside)
}

/// The table becomes one that the contour takes to the limit, in every entry or in one, and half the time one past it there.
fn to_the_limit(random: &mut Random, call: &mut Correcting) {
    let mut own = vec![0; call.tile.table.len()];
    let (points, counts, placement) = (&call.points, &[call.count], placements::for_library(call.placement));
    let built = match call.ground {
        ground if call.marks.is_some() => {
            let marks = call.marks.as_deref().unwrap_or_default();
            mattuliyan::build_curves(ground.for_library(), points, counts, marks, placement, &mut own)
        }
        Ground::Tile(side) => mattuliyan::build_placed(side, points, counts, placement, &mut own),
        Ground::Sheet(place) => {
            mattuliyan::build_on_sheet(sheets::for_library(place), points, counts, placement, &mut own)
        }
    };
    if built.is_err() {
        return; // a damage from before
    }
    if call.correction == Correction::TakeOut {
        own.iter_mut().for_each(|value| *value = -*value);
    }
    // the end towards which the contour changes an entry, so that the entry is in range before
    let end = |value: i64| if value < 0 { -ENTRY_LIMIT } else { ENTRY_LIMIT };
    let at = random.index(own.len());
    let at = random.pick(&[0, own.len() - 1, at]);
    if random.once_in(2) {
        call.tile.table = own.iter().map(|&value| end(value) - value).collect();
    } else {
        call.tile.table[at] = end(own[at]) - own[at];
    }
    if random.once_in(2) {
        call.tile.table[at] += end(own[at]).signum();
    }
}

/// A tile whose table question 9 lets pass, and any record.
pub fn any_tile(random: &mut Random, side: u32, count: u32) -> Tile {
    Tile { record: any_record(random, count), table: table_in_range(random, (side * side) as usize) }
}

/// Counts that add up to just what is allowed, or to one more, with their points.
fn sum_to(random: &mut Random, call: &mut Building) {
    let sum = MOST_EDGES + random.index(2) as u32;
    let first = random.within(3, sum as i64 - 3) as u32;
    call.counts = vec![first, sum - first];
    call.points.resize(2 * sum as usize, 0);
}

/// A cell or a picture of a table, damaged in one or two parts.
pub fn drawing(random: &mut Random, side: u32) -> Drawing {
    let level = random.within(0, side.trailing_zeros() as i64) as u32;
    let across = 1u32 << level;
    let table = table_in_range(random, (side * side) as usize);
    let mut call = Drawing {
        side,
        level,
        cx: random.index(across as usize) as u32,
        cy: random.index(across as usize) as u32,
        table,
        places: (across * across) as usize,
    };
    for _ in 0..random.within(1, 2) {
        match random.index(8) {
            0 => no_side(random, &mut call.side, &mut call.table),
            1 => call.side = random.pick(&SIDES),
            2 => resize(random, &mut call.table),
            3 => call.level = random.pick(&NO_LEVELS),
            4 => call.level = side.trailing_zeros() + random.index(2) as u32,
            5 => {
                let places = call.places;
                call.places = random.pick(&[
                    0,
                    places + 1,
                    places.saturating_sub(1),
                    places / 4,
                    2 * places,
                    4 * places,
                    across as usize,
                    places + BEYOND_16_BITS as usize,
                ]);
            }
            6 => put(random, &mut call.table, ENTRIES),
            _ => {
                let beyond = across + random.index(across as usize) as u32;
                let number = random.pick(&[across, across - 1, 2 * across, beyond, BEYOND_16_BITS, 1 << 31, u32::MAX]);
                *random.pick_mut(&mut call.cx, &mut call.cy) = number;
            }
        }
    }
    call
}

/// The greys of every level of a table, damaged in one or two parts.
pub fn every_level(random: &mut Random, side: u32) -> EveryLevel {
    let table = table_in_range(random, (side * side) as usize);
    let (deepest, places) = ((side * side) as usize, outlines::all_places(side));
    let mut call = EveryLevel { side, table, places };
    for _ in 0..random.within(1, 2) {
        match random.index(5) {
            0 => no_side(random, &mut call.side, &mut call.table),
            1 => call.side = random.pick(&SIDES),
            2 => resize(random, &mut call.table),
            3 => {
                call.places = random.pick(&[
                    0,
                    places + 1,
                    places - 1,
                    deepest,
                    places - deepest,
                    places + 4 * deepest,
                    places + BEYOND_16_BITS as usize,
                ]);
            }
            _ => put(random, &mut call.table, ENTRIES),
        }
    }
    call
}

/// Some entry becomes one of these: the first, the last or any.
fn put<T: Copy, const N: usize>(random: &mut Random, list: &mut [T], values: [T; N]) {
    if let Some(last) = list.len().checked_sub(1) {
        let at = random.index(list.len());
        list[random.pick(&[0, last, at])] = random.pick(&values);
    }
}

/// The list becomes one or two longer or shorter, empty, twice as long, or longer by 2^16.
fn resize(random: &mut Random, list: &mut Vec<i64>) {
    let length = list.len();
    let length = random.pick(&[
        0,
        2 * length,
        length + 1,
        length + 2,
        length.saturating_sub(1),
        length.saturating_sub(2),
        length + BEYOND_16_BITS as usize,
    ]);
    list.resize(length, 0);
}

/// What the tile lies on becomes something that there is not.
fn no_ground(random: &mut Random, ground: &mut Ground, table: &mut Vec<i64>) {
    match ground {
        Ground::Tile(side) => no_side(random, side, table),
        Ground::Sheet(place) => no_place(random, place, table),
    }
}

/// The tile becomes another one, and all else stays.
fn another_ground(random: &mut Random, ground: &mut Ground) {
    match ground {
        Ground::Tile(side) => *side = random.pick(&SIDES),
        Ground::Sheet(place) => {
            let same = (place.sheet, place.side);
            let (sheet, side) = if random.once_in(2) && PAIRS.contains(&same) { same } else { random.pick(&PAIRS) };
            *place = sheets::any_tile(random, sheet, side);
        }
    }
}

/// The side becomes one that no tile has, and half the time the table one that would fit it.
fn no_side(random: &mut Random, side: &mut u32, table: &mut Vec<i64>) {
    const MOST: u32 = 100; // a table for a greater side would be a large one
    let any = random.within(0, MOST.into()) as u32;
    *side = match random.index(4) {
        0 => side.wrapping_add(256), // lost where only 8 bits are looked at
        1 => side.wrapping_add(BEYOND_16_BITS),
        2 if !SIDES.contains(&any) => any,
        _ => random.pick(&NO_SIDES),
    };
    if *side <= MOST && random.once_in(2) {
        table.resize((*side * *side) as usize, 0);
    }
}

/// A tile of a sheet becomes one that there is not: by the sheet's side, by its own, by one that is larger than the sheet, or by its place. Half the
/// time the table becomes one that would fit it.
fn no_place(random: &mut Random, place: &mut SheetTile, table: &mut Vec<i64>) {
    const MOST: u32 = 256; // as in `no_side`
    match random.index(8) {
        0 => place.sheet = random.pick(&NO_SHEETS),
        1 => place.side = random.pick(&NO_SIDES_ON_SHEET),
        2 => place.sheet = place.side / 2,
        3 => {
            // lost where only 8 or 16 bits are looked at
            let more = random.pick(&[256, BEYOND_16_BITS]);
            let side = random.pick_mut(&mut place.sheet, &mut place.side);
            *side = side.wrapping_add(more);
        }
        _ => {
            let (across, round) = (place.sheet.checked_div(place.side).unwrap_or(0), 1u64 << u32::BITS);
            // times the side, this is 0 in 32 bits, where the side is more than 1
            let round = (round / u64::from(place.side.max(2))) as u32;
            let number = random.pick_mut(&mut place.column, &mut place.row);
            let any = across.saturating_add(random.index(1 << 10) as u32);
            *number = random.pick(&[
                across,
                across.saturating_add(1),
                any,
                round,
                round.wrapping_add(*number),
                BEYOND_16_BITS.wrapping_add(*number),
                (1 << 31) | *number,
                u32::MAX,
            ]);
        }
    }
    if place.side <= MOST && random.once_in(2) {
        table.resize((place.side * place.side) as usize, 0);
    }
}

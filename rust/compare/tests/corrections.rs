//! What random series meet too seldom: each entry of the table, before a call and after it; each coordinate; records about each border; entries at
//! the ends of 64 bits; the largest values; every fault with every other; a tile that is filled to the last edge.
use compare::calls::{correct, Correcting, Ground, Tile};
use compare::damage::ENTRY_LIMIT;
use compare::outlines::{MOST_EDGES, SIDES};
use compare::random::Random;
use mattuliyan::Refusal;
use reference::Correction::{PutIn, TakeOut};
use reference::{Placement, SheetTile, Spec, STEPS};

const CORRECTIONS: [reference::Correction; 2] = [PutIn, TakeOut];

/// A call on a tile with this record and table, of a contour that is not moved.
fn call(correction: reference::Correction, side: u32, points: &[i64], record: u32, table: &[i64]) -> Correcting {
    let tile = Tile { record, table: table.to_vec() };
    Correcting {
        correction,
        ground: Ground::Tile(side),
        points: points.to_vec(),
        marks: None,
        count: points.len() as u32 / 2,
        placement: Placement::None,
        tile,
    }
}

fn answer(call: &Correcting) -> Result<(), u8> {
    correct(&Spec, call).unwrap().map(|_| ())
}

/// For each entry of a table of this side, its place, a triangle that adds to it, and by how much: right-angled, half of an upper left quarter of the
/// entry's cell, so that all three of the cell's entries are its area, which is exact.
fn triangles(side: u32) -> Vec<(usize, [i64; 6], i64)> {
    let limit = STEPS * i64::from(side);
    let triangle = |x: i64, y: i64, width: i64| [x, y, x + width, y, x, y + width];
    let mut all = vec![(0, triangle(0, 0, limit), limit * limit)];
    for j in 0..side.trailing_zeros() {
        for cy in 0..1 << j {
            for cx in 0..1 << j {
                let (width, first) = (limit >> j, (1usize << (2 * j)) + 3 * (((cy as usize) << j) + cx as usize));
                let half = width / 2;
                all.extend(
                    (first..first + 3).map(|place| (place, triangle(cx * width, cy * width, half), half * half)),
                );
            }
        }
    }
    all
}

#[test]
fn every_entry_is_asked_for_before_and_after() {
    // The library alone: what is expected is worked by hand.
    for side in SIDES {
        let places = triangles(side);
        assert_eq!(places.len(), (side * side) as usize);
        let mut table = vec![0; places.len()];
        for (i, (place, points, value)) in places.into_iter().enumerate() {
            assert_eq!(place, i);
            let mut with = |putting: bool, entry: i64| {
                let make = if putting { mattuliyan::put } else { mattuliyan::take };
                let mut edges = 500;
                table[place] = entry;
                let answer = make(side, &points, 3, mattuliyan::Placement::None, &mut edges, &mut table);
                let left = table[place];
                // what the triangle adds in other places is far from the limit
                if answer.is_ok() {
                    table.fill(0);
                } else {
                    table[place] = 0;
                    assert!(edges == 500 && table.iter().all(|&entry| entry == 0), "something is not put back");
                }
                (answer.map_err(Refusal::number), left)
            };
            for (putting, sign) in [(true, 1), (false, -1)] {
                let last = sign * (ENTRY_LIMIT - value);
                assert_eq!(with(putting, last), (Ok(()), sign * ENTRY_LIMIT), "side {side}, entry {place}");
                assert_eq!(with(putting, last + sign), (Err(9), last + sign), "side {side}, entry {place}");
                // out of range before the call, and in range after it
                let before = -sign * (ENTRY_LIMIT + 1);
                assert_eq!(with(putting, before), (Err(9), before), "side {side}, entry {place}");
            }
        }
    }
}

#[test]
fn every_coordinate_is_asked_for() {
    let mut points = vec![0; 2 * MOST_EDGES as usize];
    for at in 0..points.len() {
        points[at] = STEPS + 1;
        for (correction, record) in [(PutIn, 0), (TakeOut, MOST_EDGES)] {
            assert_eq!(answer(&call(correction, 1, &points, record, &[5])), Err(6), "coordinate {at}");
        }
        points[at] = 0;
    }
}

#[test]
fn records_about_every_border() {
    for count in [3, 4, 5, 511, 512, 513, 1022, 1023, 1024] {
        let about = [0, count, MOST_EDGES - count, MOST_EDGES, 1 << 16, (1 << 16) + count, 1 << 31, (1 << 31) + count];
        let records = about.into_iter().flat_map(|record| (-3..=3).map(move |by: i32| record.wrapping_add_signed(by)));
        let wrapped = (0..=count + 2).map(|by| u32::MAX - by); // with the count, these are few edges in 32 bits
        for record in records.chain(wrapped) {
            let points = vec![0; 2 * count as usize];
            let put = if u64::from(record) + u64::from(count) <= 1024 { Ok(()) } else { Err(5) };
            let taken = if record >= count { Ok(()) } else { Err(13) };
            assert_eq!(answer(&call(PutIn, 1, &points, record, &[5])), put, "{count} put to {record}");
            assert_eq!(answer(&call(TakeOut, 1, &points, record, &[5])), taken, "{count} taken from {record}");
        }
    }
}

#[test]
fn entries_at_the_ends_of_64_bits() {
    // Sums and differences of which 64 bits hold nothing that is right. Round a tile of two pixels, or back, no entry but 0 has a value.
    let (round, back) = ([0, 0, 512, 0, 512, 512, 0, 512], [0, 0, 0, 512, 512, 512, 512, 0]);
    for points in [round, back] {
        for correction in CORRECTIONS {
            for place in 0..4 {
                for entry in [i64::MIN, i64::MIN + 1, -ENTRY_LIMIT - 1, ENTRY_LIMIT + 1, i64::MAX - 1, i64::MAX] {
                    let mut table = [7; 4];
                    table[place] = entry;
                    assert_eq!(answer(&call(correction, 2, &points, 500, &table)), Err(9), "{entry} at {place}");
                }
            }
        }
    }
}

#[test]
fn largest_values() {
    // The tile's border 256 times round is 2^37, either way: from one end of the range to the other takes 16 of these.
    let round = [0, 0, 16384, 0, 16384, 16384, 0, 16384].repeat(256);
    let mut table = vec![0; 4096];
    table[0] = -ENTRY_LIMIT;
    for times in 1..=17 {
        let put = call(PutIn, 64, &round, 0, &table);
        let left = correct(&Spec, &put).unwrap();
        if times == 17 {
            assert_eq!(left, Err(9));
            break;
        }
        let left = left.unwrap();
        assert_eq!((left.record, left.table[0]), (MOST_EDGES, -ENTRY_LIMIT + (times << 37)));
        assert_eq!(correct(&Spec, &call(TakeOut, 64, &round, MOST_EDGES, &left.table)).unwrap(), Ok(put.tile));
        table = left.table;
    }
    assert_eq!(table[0], ENTRY_LIMIT);
}

/// 01's letter E, by a scale of 1, on a tile alone or in the second of four tiles of a sheet.
fn letter_e(correction: reference::Correction, on_sheet: bool) -> Correcting {
    let mut call = call(correction, 2, &[0, 0, 512, 0, 0, 512], 3, &[7; 4]);
    call.placement = Placement::Scale(1.0);
    if on_sheet {
        call.ground = Ground::Sheet(SheetTile { sheet: 4, side: 2, column: 1, row: 0 });
        call.points.iter_mut().step_by(2).for_each(|x| *x += 512);
    }
    call
}

/// The letter with each of these faults and no other. Of the last two, one is of the table that would be left.
fn with_faults(correction: reference::Correction, on_sheet: bool, faults: &[usize]) -> Correcting {
    let mut call = letter_e(correction, on_sheet);
    for fault in faults {
        match (fault, &mut call.ground) {
            (1, Ground::Tile(side)) => *side = 3,
            (14, Ground::Sheet(place)) => place.sheet = 5,
            (15, Ground::Sheet(place)) => place.row = u32::MAX,
            _ => (),
        }
        match fault {
            1 | 14 | 15 => (),
            2 => call.tile.table.push(7),
            4 => call.count = 1025,
            5 => call.tile.record = 1022,
            3 => call.points.push(0),
            12 => call.placement = Placement::Scale(2.0 + 1.0 / 65_536.0),
            6 => call.points[3] = -1,
            13 => call.tile.record = 2,
            9 => call.tile.table[0] = ENTRY_LIMIT + 1,
            _ => call.tile.table[1] = if correction == PutIn { ENTRY_LIMIT } else { -ENTRY_LIMIT },
        }
    }
    call
}

/// The fault that question 9 finds in the table that would be left.
const LEFT: usize = 90;

#[test]
fn every_fault_with_every_other() {
    for (correction, on_sheet, order) in [
        (PutIn, false, &[1, 2, 4, 5, 3, 12, 6, 9, LEFT][..]),
        (TakeOut, false, &[1, 2, 4, 3, 12, 6, 13, 9, LEFT]),
        (PutIn, true, &[14, 15, 2, 4, 5, 3, 12, 6, 9, LEFT]),
        (TakeOut, true, &[14, 15, 2, 4, 3, 12, 6, 13, 9, LEFT]),
    ] {
        for chosen in 0..1u32 << order.len() {
            let faults: Vec<usize> =
                order.iter().enumerate().filter(|&(i, _)| chosen >> i & 1 == 1).map(|(_, &fault)| fault).collect();
            let expected = match faults.first() {
                None => Ok(()),
                Some(&LEFT) => Err(9),
                Some(&fault) => Err(fault as u8),
            };
            let call = with_faults(correction, on_sheet, &faults);
            assert_eq!(answer(&call), expected, "{correction:?} with {faults:?}");
        }
    }
}

#[test]
fn a_tile_filled_to_the_last_edge() {
    // 340 triangles and a square are 1,024 edges. Another triangle is too many, until one is taken out.
    let random = &mut Random::new(7);
    let mut contours: Vec<Vec<i64>> =
        (0..341).map(|i| (0..if i == 0 { 8 } else { 6 }).map(|_| random.within(0, 16 * STEPS)).collect()).collect();
    let mut tile = mattuliyan::Tile::new(16).unwrap();
    for contour in &contours {
        tile.put(contour, mattuliyan::Placement::None).unwrap();
    }
    assert_eq!(tile.edges(), MOST_EDGES);
    for last in (1..contours.len()).rev() {
        contours.swap(last, random.index(last + 1));
    }
    let counts: Vec<u32> = contours.iter().map(|contour| contour.len() as u32 / 2).collect();
    let built = mattuliyan::Tile::build(16, &contours.concat(), &counts, mattuliyan::Placement::None).unwrap();
    assert_eq!(tile, built);

    let triangle = [0, 0, 7, 0, 0, 7];
    let refused = tile.put(&triangle, mattuliyan::Placement::None);
    assert_eq!((refused.map_err(Refusal::number), &tile), (Err(5), &built));
    for contour in &contours {
        tile.take(contour, mattuliyan::Placement::None).unwrap();
        tile.put(&triangle, mattuliyan::Placement::None).unwrap();
        tile.take(&triangle, mattuliyan::Placement::None).unwrap();
    }
    assert_eq!(tile, mattuliyan::Tile::new(16).unwrap());
    let refused = tile.take(&triangle, mattuliyan::Placement::None);
    assert_eq!((refused.map_err(Refusal::number), &tile), (Err(13), &mattuliyan::Tile::new(16).unwrap()));
}

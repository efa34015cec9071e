//! What random placements meet too seldom: floats at and about each border, in each position; the ends of what is moved, in each place; halves;
//! the greatest products; the order of the questions.
use compare::calls::{build, build_placed};
use compare::outlines::MOST_EDGES;
use compare::placements::{of_numbers, FACTOR, HIGHEST, LOWEST, OFFSET, PART};
use compare::random::Random;
use reference::{Placement, Spec, PARTS, STEPS};

#[derive(Clone, Copy, PartialEq)]
enum Use {
    Factor,
    Offset,
}

/// What each number of a scale, a shift and a turn is used for.
const USES: [&[Use]; 3] = {
    use Use::{Factor, Offset};
    [&[Factor], &[Offset, Offset], &[Factor, Factor, Offset, Factor, Factor, Offset]]
};

/// Each position of each placement, with what it is used for and the placement that has the float there, and zeros elsewhere.
fn with(float: f64) -> Vec<(Use, Placement)> {
    let mut all = Vec::new();
    for uses in USES {
        for (at, &used) in uses.iter().enumerate() {
            let mut numbers = vec![0.0; uses.len()];
            numbers[at] = float;
            all.push((used, of_numbers(&numbers)));
        }
    }
    all
}

/// The answer to an outline of one contour, or of none if there is no point.
fn answer(side: u32, points: &[i64], placement: Placement) -> Result<u32, u8> {
    let counts: &[u32] = if points.is_empty() { &[] } else { &[points.len() as u32 / 2] };
    let table = vec![5; (side * side) as usize];
    build_placed(&Spec, side, points, counts, placement, &table).unwrap().map(|(edges, _)| edges)
}

/// The answer where there is no point at all, so that only the floats are asked for.
fn of_floats(placement: Placement) -> Result<u32, u8> {
    answer(1, &[], placement)
}

/// Not-a-numbers, signalling and quiet: each bit of the payload alone, and all of them.
fn not_numbers() -> Vec<f64> {
    let payloads = (0..52).map(|bit| 1 << bit).chain([(1 << 52) - 1]);
    payloads.map(|payload: u64| f64::from_bits(f64::INFINITY.to_bits() | payload)).collect()
}

#[test]
fn floats_at_every_border() {
    const HALF: f64 = PART / 2.0;
    // multiples of a 65,536th: up to the greatest factor, and up to the greatest offset
    let factors = [0.0, PART, 3.0 * PART, 1.0, FACTOR - PART, FACTOR];
    let offsets = [FACTOR + PART, 2.0 * FACTOR, 100.5, OFFSET - PART, OFFSET];
    let past = [OFFSET + PART, OFFSET + 1.0, 2.0 * OFFSET, 65_536.0];
    let between = [HALF, 3.0 * HALF, 1.0 + HALF, FACTOR - HALF, FACTOR + HALF, OFFSET - HALF, OFFSET + HALF, 0.1];
    let beside = [0.0, PART, 1.0, FACTOR, OFFSET].map(f64::next_up).into_iter();
    let beside = beside.chain([PART, 1.0, FACTOR, OFFSET].map(f64::next_down));
    // the first and the last subnormal, the first that is normal
    let tiny = [1, (1 << 52) - 1, 1 << 52].map(f64::from_bits);
    // with 65,536 times each at the ends of whole numbers of 32, 53, 63, 64 and 128 bits, and at the end of floats
    let huge =
        [15, 16, 31, 32, 37, 38, 46, 47, 48, 52, 53, 62, 63, 64, 111, 112, 1007, 1008, 1023].map(|n| 2f64.powi(n));
    let endless = [f64::MAX, f64::INFINITY];

    let neither = past.into_iter().chain(between).chain(beside).chain(tiny).chain(huge).chain(endless);
    let neither = neither.chain(not_numbers()).map(|float| (float, false, false));
    let usable = factors.map(|float| (float, true, true)).into_iter().chain(offsets.map(|float| (float, false, true)));
    for (float, factor, offset) in usable.chain(neither) {
        for float in [float, -float] {
            for (used, placement) in with(float) {
                let usable = if used == Use::Factor { factor } else { offset };
                assert_eq!(of_floats(placement), if usable { Ok(0) } else { Err(12) }, "{placement:?}");
                // the origin goes to the offsets, and stays where there is none
                let on_tile = used == Use::Factor || (-0.5..64.0 * STEPS as f64 + 0.5).contains(&float);
                let expected = match (usable, on_tile) {
                    (false, _) => Err(12),
                    (true, false) => Err(6),
                    (true, true) => Ok(3),
                };
                assert_eq!(answer(64, &[0; 6], placement), expected, "{placement:?}");
            }
        }
    }
}

#[test]
fn every_bit_of_a_float() {
    // 2^n with each lower bit, from the least of which no bit is a 65,536th to past all limits
    for n in -20..=20 {
        for bit in 0..52 {
            let float = f64::from_bits(2f64.powi(n).to_bits() | 1 << bit);
            let multiple = n >= -16 && n - 52 + bit >= -16;
            for float in [float, -float] {
                for (used, placement) in with(float) {
                    let most = if used == Use::Factor { FACTOR } else { OFFSET };
                    let usable = multiple && float.abs() <= most;
                    assert_eq!(of_floats(placement), if usable { Ok(0) } else { Err(12) }, "{placement:?}");
                }
            }
        }
    }
}

#[test]
fn every_exponent_of_a_float() {
    let mut usable = 0;
    for exponent in 0..1u64 << 11 {
        for fraction in [0, 1, 1 << 51, (1 << 52) - 1] {
            let float = f64::from_bits(exponent << 52 | fraction);
            for (_, placement) in with(float).into_iter().chain(with(-float)) {
                usable += of_floats(placement).is_ok() as u32;
            }
        }
    }
    // Zero; the powers 2^-16 to 2^1 as factors and to 2^14 as offsets; these and a half of each more, from 2^-15 to 2^0 and to 2^13. All of
    // it with both signs, in five positions for factors and in four for offsets.
    assert_eq!(usable, 2 * (5 * (1 + 18 + 16) + 4 * (1 + 31 + 29)));
}

#[test]
fn every_coordinate_that_is_moved_is_asked_for() {
    let far = [i64::MIN, -(1 << 32), LOWEST - 1, HIGHEST + 1, 1 << 16, 1 << 32, i64::MAX];
    let mut points = vec![0; 2 * MOST_EDGES as usize];
    for at in 0..points.len() {
        // far ones in turn, so that every place meets one
        for (coordinate, expected) in
            [(LOWEST, Ok(MOST_EDGES)), (HIGHEST, Ok(MOST_EDGES)), (far[at % far.len()], Err(12))]
        {
            points[at] = coordinate;
            assert_eq!(answer(1, &points, Placement::Scale(0.0)), expected, "{coordinate} at {at}");
        }
        points[at] = 0;
    }
    // whatever the placement, and wherever it takes them
    for (placement, lowest, highest) in [
        (Placement::Turn([0.0; 6]), Ok(3), Ok(3)),
        (Placement::Scale(0.25), Err(6), Ok(3)),
        (Placement::Shift(OFFSET, OFFSET), Err(6), Err(6)),
    ] {
        for (coordinate, expected) in
            far.map(|coordinate| (coordinate, Err(12))).into_iter().chain([(LOWEST, lowest), (HIGHEST, highest)])
        {
            assert_eq!(answer(64, &[0, 0, 0, coordinate, 0, 0], placement), expected, "{placement:?}, {coordinate}");
        }
    }
}

#[test]
fn points_that_stay_are_not_asked_for() {
    // no placement moves nothing, and each of the others moves, also by nothing
    let identity = Placement::Turn([1.0, 0.0, 0.0, 0.0, 1.0, 0.0]);
    for (placement, number) in
        [(Placement::None, 6), (Placement::Scale(1.0), 12), (Placement::Shift(0.0, 0.0), 12), (identity, 12)]
    {
        for coordinate in [-40_000, 40_000, i64::MIN, i64::MAX] {
            assert_eq!(answer(64, &[0, coordinate, 0, 0, 0, 0], placement), Err(number), "{placement:?}, {coordinate}");
        }
    }
}

#[test]
fn halves_go_towards_the_larger() {
    let turn = |factor, c, f| Placement::Turn([factor, 0.0, c, 0.0, factor, f]);
    let twice_rounded = Placement::Turn([0.5, 0.5, 0.0, 0.25, 0.25, 0.5]);
    let points = [3, 3, 40, 7, 21, 60];
    for (placement, before, after) in [
        // −1/2 to 3 1/2
        (Placement::Scale(0.5), [-1, 1, 3, 5, 7, 2], [0, 1, 2, 3, 4, 1]),
        (Placement::Scale(-0.5), [1, -1, -3, -5, -7, -2], [0, 1, 2, 3, 4, 1]),
        (Placement::Shift(0.5, -0.5), points, [4, 3, 41, 7, 22, 60]),
        // a 65,536th beside a half
        (Placement::Shift(0.5 - PART, -0.5 - PART), points, [3, 2, 40, 6, 21, 59]),
        (Placement::Shift(0.5 + PART, -0.5 + PART), points, [4, 3, 41, 7, 22, 60]),
        // products below zero, and the sum above: −1 1/2 + 4, −4 + 4, −5 1/2 + 9, 1 1/2 + 9
        (turn(0.5, 4.0, 9.0), [-3, 3, -8, 3, -3, -11], [3, 11, 0, 11, 3, 4]),
        // halves of products and offsets that make whole steps: rounded one by one, they would go too far
        (twice_rounded, [1, 1, 2, 4, 7, 3], [1, 1, 3, 2, 5, 3]),
    ] {
        let placed = build_placed(&Spec, 64, &before, &[3], placement, &[5; 4096]).unwrap();
        assert!(placed.is_ok());
        assert_eq!(placed, build(&Spec, 64, &after, &[3], &[5; 4096]).unwrap(), "{placement:?}");
    }
    // at the ends of the tile
    for (by, lowest, highest) in
        [(-0.5, Ok(3), Ok(3)), (-0.5 - PART, Err(6), Ok(3)), (0.5 - PART, Ok(3), Ok(3)), (0.5, Ok(3), Err(6))]
    {
        for (end, expected) in [(0, lowest), (64 * STEPS, highest)] {
            for placement in
                [Placement::Shift(by, 0.0), Placement::Shift(0.0, by), turn(1.0, by, 0.0), turn(1.0, 0.0, by)]
            {
                assert_eq!(answer(64, &[end; 6], placement), expected, "{end}, {placement:?}");
            }
        }
    }
}

#[test]
fn greatest_products() {
    // Two products of up to 2^16 either way, all bits of which count, that all but cancel: the offset brings the sum onto the tile.
    let mut random = Random::new(1);
    let parts = |number: i128| number as f64 * PART;
    let mut built = 0;
    while built < 2_000 {
        let factor = |random: &mut Random| i128::from(random.within(0, 9)) - 2 * PARTS;
        let [a, b, d, e] = [(); 4].map(|()| factor(&mut random) * i128::from(random.pick(&[1, -1])));
        let (x, y) = (random.pick(&[LOWEST, HIGHEST]), random.pick(&[LOWEST, HIGHEST]));
        // to the middle of the tile, or a fraction beside it
        let mut offset = |one: i128, other: i128| {
            let beside = random.within(-(1 << 16), 1 << 16);
            32 * i128::from(STEPS) * PARTS + i128::from(beside) - one * i128::from(x) - other * i128::from(y)
        };
        let (c, f) = (offset(a, b), offset(d, e));
        let placement = Placement::Turn([a, b, c, d, e, f].map(parts));
        if parts(c).abs() > OFFSET || parts(f).abs() > OFFSET {
            continue; // these do not cancel
        }
        // inwards by less than would leave the tile
        let (dx, dy) = (-x.signum() * random.within(1, 1500), -y.signum() * random.within(1, 1500));
        assert_eq!(answer(64, &[x, y, x + dx, y, x, y + dy], placement), Ok(3), "{placement:?}");
        built += 1;
    }
}

#[test]
fn order_of_the_questions() {
    let (bad, good) = (Placement::Scale(f64::NAN), Placement::Scale(1.0));
    let points = [0, 0, 256, 0, 0, 256];
    let off_the_tile = [0, 0, 300, 0, 0, 256];
    for (number, side, table, counts, points, placement) in [
        (1, 3, 1, &[2][..], &points[..], bad),
        (2, 1, 4, &[2], &points, bad),
        (4, 1, 1, &[2, 1024], &points, bad),
        (5, 1, 1, &[3, 1024], &points, bad),
        (3, 1, 1, &[3], &points[..5], bad),
        (12, 1, 1, &[3], &off_the_tile, bad),
        (6, 1, 1, &[3], &off_the_tile, good),
    ] {
        assert_eq!(build_placed(&Spec, side, points, counts, placement, &vec![5; table]).unwrap(), Err(number));
    }
}

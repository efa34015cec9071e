//! The letters and the further cases that 01 gives, number by number, and the
//! one grey that 02's P4 changes.

mod common;

use reference::{build, cell, exact_areas, figures, frame, greys, tile_program, Frame, Spec};

const A: [i64; 8] = [0, 0, 256, 0, 256, 256, 0, 256];
const G: [i64; 6] = [255, 0, 259, 1, 255, 1];

fn table(side: u32, points: &[i64]) -> Vec<i64> {
    let noughts = vec![0; (side * side) as usize];
    let count = points.len() as u32 / 2;
    let (edges, table) = build(&Spec, side, points, &[count], &noughts).unwrap();
    assert_eq!(edges, count);
    table
}

/// The figures and greys of a level, each figure the same as its cell alone.
fn drawn(side: u32, level: u32, table: &[i64]) -> (Vec<i64>, Vec<u8>) {
    let (figures, greys) = common::drawn(side, level, table);
    for (i, &figure) in figures.iter().enumerate() {
        let (cx, cy) = (i as u32 & ((1 << level) - 1), i as u32 >> level);
        assert_eq!(cell(&Spec, side, level, cx, cy, table), Ok(figure));
    }
    (figures, greys)
}

fn reversed(points: &[i64]) -> Vec<i64> {
    points.chunks(2).rev().flatten().copied().collect()
}

#[test]
fn a_full_pixel() {
    assert_eq!(table(1, &A), [131_072]);
    assert_eq!(drawn(1, 0, &[131_072]), (vec![131_072], vec![255]));
}

/// 02's P4: "case B's grey becomes 255", and "no figure and no table moves."
#[test]
fn b_reversed() {
    assert_eq!(table(1, &reversed(&A)), [-131_072]);
    assert_eq!(drawn(1, 0, &[-131_072]), (vec![-131_072], vec![255]));
}

#[test]
fn c_half_a_pixel() {
    assert_eq!(table(1, &[0, 0, 256, 0, 0, 256]), [65_536]);
    assert_eq!(drawn(1, 0, &[65_536]).1, [128]);
}

#[test]
fn d_one_pixel_of_four() {
    let table = table(2, &A);
    assert_eq!(table, [131_072; 4]);
    assert_eq!(drawn(2, 1, &table).0, [524_288, 0, 0, 0]);
    assert_eq!(drawn(2, 0, &table).1, [64]);
}

#[test]
fn e_half_the_tile() {
    let table = table(2, &[0, 0, 512, 0, 0, 512]);
    assert_eq!(table, [262_144, 131_072, 131_072, 0]);
    assert_eq!(drawn(2, 1, &table).1, [255, 128, 128, 0]);
}

#[test]
fn f_a_sliver() {
    let points = [0, 0, 384, 1, 0, 1];
    let table = table(2, &points);
    assert_eq!(table, [384, 299, 384, 299]);
    assert_eq!(drawn(2, 1, &table).0, [1366, 170, 0, 0]);
    // Exact: h is 298 2/3, so the upper quarters have 341 1/3 and 42 2/3.
    let exact: Vec<String> = exact_areas(2, &points, &[3], 1).iter().map(|a| a.decimal(3)).collect();
    assert_eq!(exact, ["341.333", "42.667", "0.000", "0.000"]);
}

#[test]
fn g_and_h_are_opposites() {
    let g = table(2, &G);
    assert_eq!(g, [4, 0, 4, 0]);
    assert_eq!(drawn(2, 1, &g).0, [8, 8, 0, 0]);
    assert_eq!(table(2, &reversed(&G)), [-4, 0, -4, 0]);
}

#[test]
fn coordinates_of_the_largest_tile() {
    let noughts = vec![0; 4096];
    let with = |x| build(&Spec, 64, &[x, 0, 5, 7, 9, 20], &[3], &noughts).map(|(edges, _)| edges);
    assert_eq!(with(16_384), Ok(3));
    assert_eq!(with(16_385), Err(6));
    assert_eq!(with(-1), Err(6));
}

#[test]
fn counts() {
    let noughts = [0];
    let with = |counts: &[u32]| {
        let points = vec![0; 2 * counts.iter().sum::<u32>() as usize];
        build(&Spec, 1, &points, counts, &noughts)
    };
    assert_eq!(with(&[3]), Ok((3, vec![0])));
    assert_eq!(with(&[2]), Err(4));
    assert_eq!(with(&[1024]), Ok((1024, vec![0])));
    assert_eq!(with(&[1025]), Err(4));
    assert_eq!(with(&[1021, 3]), Ok((1024, vec![0])));
    assert_eq!(with(&[1022, 3]), Err(5));
    assert_eq!(with(&[]), Ok((0, vec![0])));
}

#[test]
fn side_3_with_a_stray_point() {
    // The side is asked first, though the points are not those of the counts
    // and the table has no 9 entries.
    assert_eq!(build(&Spec, 3, &[0, 0, 1, 1, 2, 0, 7], &[3], &[0; 4]), Err(1));
}

#[test]
fn entries_that_are_drawn() {
    for (entry, expected) in [(1i64 << 40, Ok(())), ((1 << 40) + 1, Err(9))] {
        for entry in [entry, -entry] {
            let table = [0, entry, 0, 0];
            assert_eq!(figures(&Spec, 2, 1, &table, 4).map(|_| ()), expected);
            assert_eq!(greys(&Spec, 2, 1, &table, 4).map(|_| ()), expected);
            assert_eq!(cell(&Spec, 2, 1, 0, 0, &table).map(|_| ()), expected);
        }
    }
}

#[test]
fn the_program_s_example() {
    let text = b"0201\n00000000010000000100010000000100\n";
    let expected = Frame { side: 2, level: 1, points: A.to_vec(), counts: vec![4] };
    assert_eq!(frame(text), Ok(expected));
    assert_eq!(tile_program(&Spec, text), "00040000000000020000\nff00\n0000\n");
}

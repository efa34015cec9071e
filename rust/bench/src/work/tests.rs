use super::*;
use crate::inputs::{Shape, DEPTH, EDGES, KINDS};
use crate::library::{with_another, ARCHIVE};
use Size::{All, Full};

const LETTERS: Input = Input::full(Shape::Letter);

/// The others that were found when this program was built.
fn libraries() -> Vec<Library> {
    let (there, missing): (Vec<_>, Vec<_>) = LIBRARIES.into_iter().partition(|library| library.is_there());
    missing.iter().for_each(|library| println!("{} is not installed; its pictures are not compared", library.name()));
    there
}

#[test]
fn levels_follow_one_another() {
    assert_eq!([0, 1, 2, 6].map(places), [0..1, 1..5, 5..21, 1365..5461]);
}

#[test]
fn every_case_runs_and_writes_its_pictures() {
    for input in KINDS {
        let mut work = Work::new(input, 2, Some(Path::new(ARCHIVE))).unwrap();
        assert!(work.tiles.iter().all(|tile| tile.table.iter().any(|&entry| entry != 0)));
        for case in work.cases() {
            // over two greys in turn: a picture of one pixel may have one of them, but not both
            let mut drawn = vec![false; DEPTH as usize + 1];
            for before in [77, 78] {
                work.pictures.fill(before);
                work.run_all(case).unwrap();
                for (level, drawn) in (0..).zip(&mut drawn) {
                    *drawn |= work.pictures[places(level)].iter().any(|&grey| grey != before);
                }
            }
            let levels = drawn.into_iter().filter(|&drawn| drawn).count();
            let expected = match case {
                Case::Build | Case::BuildPlaced | Case::Correct | Case::Before(Step::Build) => 0,
                Case::Draw(Full) | Case::BuildAndDraw(Full) | Case::Pixels(_) | Case::Other(_, Full) => 1,
                Case::Before(Step::Draw(Full)) => 1,
                Case::Draw(All) | Case::Pyramid | Case::BuildAndDraw(All) | Case::Other(_, All) => 7,
                Case::Before(Step::Draw(All) | Step::BuildAndDrawAll) => 7,
            };
            assert_eq!(levels, expected, "{input:?}, {case:?}");
        }
    }
}

#[test]
fn smaller_tiles_and_fewer_edges_are_drawn_too() {
    for (side, edges) in [(1, 64), (8, 1024), (32, 128)] {
        let mut work = Work::new(Input { side, edges, ..LETTERS }, 2, None).unwrap();
        assert_eq!(work.check(), Ok(()));
        for library in libraries() {
            work.run_all(Case::Other(library, All)).unwrap();
        }
    }
}

#[test]
fn all_kinds_pass_the_check() {
    for input in KINDS {
        let mut work = Work::new(input, 2, Some(Path::new(ARCHIVE))).unwrap();
        assert_eq!(work.check(), Ok(()));
    }
}

#[test]
fn what_is_not_the_same_is_told() {
    let mut work = Work::new(LETTERS, 1, None).unwrap();
    work.tiles[0].table[0] += 1 << 30;
    assert!(work.check().is_err_and(|message| message.contains("pixel by pixel")));
    // an entry that moves no grey, and the library as it is now in place of one before
    let mut work = Work::new(LETTERS, 1, Some(Path::new(ARCHIVE))).unwrap();
    work.tiles[0].table[4095] += 1;
    assert!(work.check().is_err_and(|message| message.contains("another table")));
    // a library that answers otherwise
    let opened = with_another(|object| Work::new(LETTERS, 1, Some(object)));
    assert!(opened.is_err_and(|message| message.contains("the library before")));
    work.before = Some(with_another(Opened::open).unwrap());
    assert!(work.run_all(Case::Before(Step::Draw(Full))).is_err());
}

#[test]
fn without_an_earlier_library_its_cases_are_not_there() {
    let mut work = Work::new(LETTERS, 1, None).unwrap();
    assert!(work.cases().iter().all(|case| !matches!(case, Case::Before(_))));
    assert!(work.run_all(Case::Before(Step::Build)).is_err());
    assert!(work.run_all(Case::Before(Step::Draw(All))).is_err());
}

#[test]
fn a_placed_outline_is_the_same_on_its_side() {
    let mut work = Work::new(LETTERS, 1, None).unwrap();
    work.run_all(Case::BuildPlaced).unwrap();
    let drawn = |table: &[i64]| {
        let mut picture = vec![0; places(DEPTH).len()];
        mattuliyan::greys(SIDE, DEPTH, table, &mut picture).unwrap();
        picture
    };
    let (upright, side) = (drawn(&work.tiles[0].table), SIDE as usize);
    for (at, grey) in drawn(&work.tiles[0].placed).into_iter().enumerate() {
        let (x, y) = (at % side, at / side);
        assert!(grey.abs_diff(upright[(side - 1 - x) * side + y]) <= 1, "({x}, {y})");
    }
}

#[test]
fn a_speck_taken_out_and_put_back_leaves_the_table() {
    let mut work = Work::new(LETTERS, 1, None).unwrap();
    let before = work.tiles[0].table.clone();
    work.run_all(Case::Correct).unwrap();
    assert_eq!(work.tiles[0].table, before);

    // and the speck is somewhere
    let mut edges = EDGES;
    mattuliyan::take(SIDE, &SPECK, 8, Placement::None, &mut edges, &mut work.tiles[0].table).unwrap();
    assert_ne!(work.tiles[0].table, before);
}

#[test]
fn the_letter_has_ink_paper_and_a_counter() {
    for shape in [Shape::Letter, Shape::Traced] {
        let mut work = Work::new(Input::full(shape), 2, None).unwrap();
        work.run_all(Case::Draw(Full)).unwrap();
        let picture = &work.pictures[places(DEPTH)];
        let at = |x: usize, y: usize| picture[y * SIDE as usize + x];
        assert_eq!((at(0, 0), at(32, 32), at(32, 12), at(12, 32)), (0, 0, 255, 255), "{shape:?}");
    }
}

/// Every contour from its last point to its first.
fn trace_back(outline: &mut Outline) {
    let mut rest = &mut outline.points[..];
    for &count in &outline.counts {
        let (contour, others) = rest.split_at_mut(2 * count as usize);
        contour.reverse();
        contour.chunks_mut(2).for_each(|point| point.swap(0, 1));
        rest = others;
    }
}

/// Greys that the others may be off: FreeType rounds points to 1/64 pixel, and both cut the share of ink off at 1/256. With
/// random edges a thousand such errors add up, but a pixel filled by another rule would be off by far more.
#[test]
fn the_others_draw_the_same() {
    const ALLOWED: [(Shape, u8); 3] = [(Shape::Letter, 6), (Shape::Random, 40), (Shape::Traced, 6)];
    for library in libraries() {
        for (shape, allowed) in ALLOWED {
            let mut work = Work::new(Input::full(shape), 2, None).unwrap();
            let roots = |work: &Work| work.tiles.iter().map(|tile| tile.table[0]).collect::<Vec<i64>>();
            let before = roots(&work);
            for hand in [1, -1] {
                assert!(roots(&work).into_iter().eq(before.iter().map(|root| hand * root)));
                let differences = work.differences(library).unwrap();
                assert!(differences.iter().all(|&d| d <= allowed), "{library:?}, {shape:?} × {hand}: {differences:?}");
                // pixel by pixel too draws the magnitude
                assert_eq!(work.check(), Ok(()));
                work.tiles.iter_mut().for_each(|tile| trace_back(&mut tile.outline));
                work.run_all(Case::Build).unwrap();
            }
        }
    }
}

//! Questions in their order, and answers to any input at all.

use reference::{build, cell, figures, frame, greys, tile_program, Question, Rules, Spec};

const SQUARE: [i64; 8] = [0, 0, 256, 0, 256, 256, 0, 256];

#[test]
fn building_asks_1_2_4_5_3_6() {
    let ask = |side, points: &[i64], counts: &[u32], length| {
        build(&Spec, side, points, counts, &vec![0; length]).map(|(edges, _)| edges)
    };
    // From a call with every fault, one fault less at a time.
    assert_eq!(ask(3, &[-1], &[2, 1024], 1), Err(1));
    assert_eq!(ask(2, &[-1], &[2, 1024], 1), Err(2));
    assert_eq!(ask(2, &[-1], &[2, 1024], 4), Err(4));
    assert_eq!(ask(2, &[-1], &[3, 1024], 4), Err(5));
    assert_eq!(ask(2, &[-1], &[3], 4), Err(3));
    assert_eq!(ask(2, &[-1, 0, 0, 0, 0, 513], &[3], 4), Err(6));
    assert_eq!(ask(2, &[0, 0, 0, 0, 0, 513], &[3], 4), Err(6));
    assert_eq!(ask(2, &[0, 0, 0, 0, 0, 512], &[3], 4), Ok(3));
}

#[test]
fn pictures_ask_1_2_7_8_9() {
    let large = (1 << 40) + 1;
    let ask = |side, level, table: &[i64], places| {
        let drawn = figures(&Spec, side, level, table, places).map(|figures| figures.len());
        assert_eq!(greys(&Spec, side, level, table, places).map(|greys| greys.len()), drawn);
        drawn
    };
    assert_eq!(ask(0, 9, &[large], 5), Err(1));
    assert_eq!(ask(2, 9, &[large], 5), Err(2));
    assert_eq!(ask(2, 9, &[large; 4], 5), Err(7));
    assert_eq!(ask(2, 2, &[large; 4], 16), Err(7));
    assert_eq!(ask(2, 1, &[large; 4], 5), Err(8));
    assert_eq!(ask(2, 1, &[large; 4], 3), Err(8));
    assert_eq!(ask(2, 1, &[0, 0, 0, -large], 4), Err(9));
    assert_eq!(ask(2, 1, &[0, 0, 0, 1 - large], 4), Ok(4));
    // Every entry is asked about, drawn or not.
    assert_eq!(ask(2, 0, &[0, 0, 0, large], 1), Err(9));
}

#[test]
fn one_cell_asks_1_2_7_10_9() {
    let large = (1 << 40) + 1;
    assert_eq!(cell(&Spec, 65, 9, 9, 9, &[large]), Err(1));
    assert_eq!(cell(&Spec, 2, 9, 9, 9, &[large]), Err(2));
    assert_eq!(cell(&Spec, 2, 9, 9, 9, &[large; 4]), Err(7));
    assert_eq!(cell(&Spec, 2, 1, 2, 0, &[large; 4]), Err(10));
    assert_eq!(cell(&Spec, 2, 1, 0, 2, &[large; 4]), Err(10));
    assert_eq!(cell(&Spec, 2, 0, 1, 0, &[large; 4]), Err(10));
    assert_eq!(cell(&Spec, 2, 1, 1, 1, &[large; 4]), Err(9));
    assert_eq!(cell(&Spec, 2, 1, 1, 1, &[5, 1, 2, 4]), Ok(6));
}

#[test]
fn sides() {
    for side in (0..200).chain([256, 1 << 16, 1 << 31, u32::MAX]) {
        let good = [1, 2, 4, 8, 16, 32, 64].contains(&side);
        let no_table = build(&Spec, side, &[], &[], &[]);
        assert_eq!(no_table, Err(if good { 2 } else { 1 }), "side {side}");
        if good {
            let noughts = vec![0; (side * side) as usize];
            assert_eq!(build(&Spec, side, &[], &[], &noughts), Ok((0, noughts.clone())));
        }
    }
}

#[test]
fn extreme_inputs_are_answered() {
    let ends = [i64::MIN, i64::MIN + 1, -1, i64::MAX - 1, i64::MAX];
    for end in ends {
        assert_eq!(build(&Spec, 1, &[end, 0, 0, 0, 0, 0], &[3], &[end]), Err(6));
        assert_eq!(build(&Spec, 1, &[0, 0, 0, 0, 0, end], &[3], &[end]), Err(6));
        let outside = end != -1;
        assert_eq!(figures(&Spec, 1, 0, &[end], 1), if outside { Err(9) } else { Ok(vec![-1]) });
        assert_eq!(greys(&Spec, 1, 0, &[end], 1), if outside { Err(9) } else { Ok(vec![0]) });
        assert_eq!(cell(&Spec, 1, 0, 0, 0, &[end]), if outside { Err(9) } else { Ok(-1) });
    }
    for count in [0, 1, 2, 1025, 1 << 31, u32::MAX] {
        assert_eq!(build(&Spec, 1, &SQUARE, &[4, count], &[0]), Err(4));
    }
    assert_eq!(build(&Spec, 1, &SQUARE, &vec![u32::MAX; 100_000], &[0]), Err(4));
    assert_eq!(build(&Spec, 1, &SQUARE, &vec![1024; 100_000], &[0]), Err(5));
    for level in [1, 31, 32, 63, 64, 127, 128, u32::MAX] {
        assert_eq!(figures(&Spec, 1, level, &[0], usize::MAX), Err(7));
        assert_eq!(greys(&Spec, 1, level, &[0], 0), Err(7));
        assert_eq!(cell(&Spec, 1, level, u32::MAX, u32::MAX, &[0]), Err(7));
    }
    assert_eq!(figures(&Spec, 1, 0, &[0], usize::MAX), Err(8));
    assert_eq!(cell(&Spec, 1, 0, u32::MAX, u32::MAX, &[0]), Err(10));
}

/// Each question has an answer of its own, so that any order can be tried:
/// here 8 and 10 before 7.
#[test]
fn questions_in_any_order() {
    struct LevelLast;
    impl Rules for LevelLast {
        fn picture(&self) -> Vec<Question> {
            vec![Question::Places, Question::Level]
        }
        fn one_cell(&self) -> Vec<Question> {
            vec![Question::CellNumbers, Question::Level]
        }
    }
    for level in [2, 40, 64, 128, u32::MAX] {
        assert_eq!(figures(&LevelLast, 1, level, &[0], 3), Err(8));
        assert_eq!(cell(&LevelLast, 1, level, 3, 3, &[0]), Err(7));
    }
    assert_eq!(figures(&LevelLast, 1, 2, &[0], 16), Err(7));
    assert_eq!(cell(&LevelLast, 1, 2, 4, 0, &[0]), Err(10));
}

/// Entries at the ends of question 9's range give the largest figures there
/// are: 2^40 × (1 + 3 × (1 + 4 + ... + 4^5)) = 2^52.
#[test]
fn largest_figures() {
    for sign in [1, -1] {
        let table = vec![sign << 40; 4096];
        let figures = figures(&Spec, 64, 6, &table, 4096).unwrap();
        assert_eq!(figures[0], sign << 52);
        assert_eq!(cell(&Spec, 64, 6, 0, 0, &table), Ok(sign << 52));
        assert_eq!(greys(&Spec, 64, 6, &table, 4096).unwrap()[0], 255);
    }
}

#[test]
fn the_largest_outline() {
    // 512 times across the whole tile and back.
    let points: Vec<i64> = (0..1024).flat_map(|i| if i % 2 == 0 { [0, 0] } else { [16_384, 16_383] }).collect();
    let (edges, table) = build(&Spec, 64, &points, &[1024], &[0; 4096]).unwrap();
    assert_eq!((edges, table), (1024, vec![0; 4096]));
}

#[test]
fn texts_that_are_not_formed() {
    let formed = |text: &[u8]| frame(text).is_ok();
    assert!(formed(b"0100\n") && formed(b"0100\n00000000\n") && formed(b"ffff\nffffffff\n"));
    let bad: [&[u8]; 17] = [
        b"",
        b"\n",
        b"0100",
        b"0100\n\n",
        b"\n0100\n",
        b"0100\n00000000",
        b"0100\n0000000\n",
        b"0100\n000000000\n",
        b"0100\n0000\n",
        b"0100\n00000000\n\n00000000\n",
        b"010\n",
        b"01000\n",
        b"010A\n",
        b"01 0\n",
        b"0100\r\n",
        b"0100\n0000000g\n",
        b"0100\n+0000000\n",
    ];
    for text in bad {
        assert_eq!(frame(text), Err(11), "{}", String::from_utf8_lossy(text));
    }
    for byte in 0..=255u8 {
        let digit = byte.is_ascii_digit() || (b'a'..=b'f').contains(&byte);
        assert_eq!(formed(&[b'0', byte, b'0', b'0', b'\n']), digit, "byte {byte}");
        assert_eq!(formed(&[b"0100\n0000000", &[byte][..], b"\n"].concat()), digit, "byte {byte}");
    }
}

#[test]
fn texts_of_the_largest_length() {
    // 5 + 2 × 9 + 8 × 2045 + 1 = 16,384 bytes.
    let mut text = b"0100\n".to_vec();
    for points in [1, 1, 2045] {
        text.extend(vec![b'0'; 8 * points]);
        text.push(b'\n');
    }
    assert_eq!(text.len(), 16_384);
    assert_eq!(frame(&text).unwrap().counts, [1, 1, 2045]);
    text.extend(b"00000000\n");
    assert_eq!(frame(&text), Err(11));
    assert_eq!(frame(&vec![b'0'; 16_385]), Err(11));
}

#[test]
fn the_program_refuses() {
    let prints = |text: &[u8]| tile_program(&Spec, text);
    assert_eq!(prints(b"0300\n"), "refused 01\n");
    assert_eq!(prints(b"ff00\n"), "refused 01\n");
    assert_eq!(prints(b"0100\n0000000000000000\n"), "refused 04\n");
    assert_eq!(prints(b"0100\n000000000000000001010000\n"), "refused 06\n");
    assert_eq!(prints(b"0101\n"), "refused 07\n");
    assert_eq!(prints(b"01ff\n"), "refused 07\n");
    assert_eq!(prints(b"0100"), "refused 11\n");
    // Building comes first.
    assert_eq!(prints(b"01ff\n00000000\n"), "refused 04\n");
    let many = [&b"0100\n"[..], &[b'0'; 8 * 1022], b"\n", &[b'0'; 24], b"\n"].concat();
    assert_eq!(prints(&many), "refused 05\n");
    assert_eq!(prints(b"0200\n"), "00000000000000000000\n00\n");
    // A reversed: the root is −131,072.
    assert_eq!(prints(b"0100\n00000000000001000100010001000000\n"), "0004fffffffffffe0000\nff\n");
}

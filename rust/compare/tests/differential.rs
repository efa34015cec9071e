//! Tens of thousands of cases, always the same ones: all is made in whole numbers from the seed.

/// Any seed will do; it is fixed so that a failure can be seen again.
const SEED: u64 = 1;
/// As many as take well under two minutes on two processors.
const CASES: u64 = 35_000;

/// The numbers that building and drawing answer.
const NUMBERS: [usize; 12] = [0, 1, 2, 3, 4, 5, 6, 7, 8, 9, 10, 12];

#[test]
fn library_and_reference_agree() {
    let seen = compare::run(SEED, 0..CASES)
        .unwrap_or_else(|(number, difference)| panic!("seed {SEED}, case {number}: {difference}"));
    println!("differential: {seen}");
    // The run did what it says: every number was answered many times, and there were the outlines that matter most.
    assert_eq!((seen.outlines, seen.placed.iter().sum()), (CASES, CASES));
    assert!(NUMBERS.iter().all(|&number| seen.answered[number] > 500), "answered: {:?}", seen.answered);
    assert_eq!(NUMBERS.iter().map(|&number| seen.answered[number]).sum::<u64>(), seen.calls);
    assert!(seen.placed.iter().all(|&outlines| outlines > CASES / 10), "placed: {:?}", seen.placed);
    assert!(seen.octilinear > CASES / 20 && seen.empty > CASES / 400);
    assert!(
        seen.with_ink_below_zero > CASES / 3
            && seen.with_ink_of_both_signs > CASES / 5
            && seen.inked_below_zero > seen.cells / 20,
        "with ink below zero: {} outlines, {} of them with ink above it too, {} cells of {}",
        seen.with_ink_below_zero,
        seen.with_ink_of_both_signs,
        seen.inked_below_zero,
        seen.cells
    );
    assert!(seen.largest.iter().all(|&outlines| outlines > 10), "with the most edges: {:?}", seen.largest);
}

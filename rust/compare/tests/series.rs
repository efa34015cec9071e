//! Thousands of series of corrections, always the same ones: all is made in whole numbers from the seed.
use compare::series;

/// Any seed will do; it is fixed so that a failure can be seen again.
const SEED: u64 = 1;
/// As many as take a quarter of a minute or so on two processors.
const SERIES: u64 = 8_000;

/// The numbers that putting in and taking out answer, in the order of their questions. Question 5 has been answered by question 4 where a contour
/// is taken out.
const NUMBERS: [&[usize]; 2] = [&[0, 1, 2, 4, 5, 3, 12, 6, 9], &[0, 1, 2, 4, 3, 12, 6, 13, 9]];

#[test]
fn library_and_reference_agree_in_series() {
    let seen = series::run(SEED, 0..SERIES)
        .unwrap_or_else(|(number, difference)| panic!("seed {SEED}, series {number}: {difference}"));
    println!("series: {seen}");
    // The run did what it says: every number was answered many times, and no other; and there were the series that matter most.
    assert_eq!(seen.series.iter().sum::<u64>(), SERIES);
    assert!(seen.series.iter().all(|&series| series > SERIES / 5), "begun: {:?}", seen.series);
    for (what, numbers, answered) in
        [("putting in", NUMBERS[0], seen.answered[0]), ("taking out", NUMBERS[1], seen.answered[1])]
    {
        let times: Vec<String> = numbers.iter().map(|&number| format!("{number}: {}", answered[number])).collect();
        println!("series: answers to {what}: {}", times.join(", "));
        assert!(numbers.iter().all(|&number| answered[number] > 500), "{what}: {answered:?}");
        assert_eq!(
            numbers.iter().map(|&number| answered[number]).sum::<u64>(),
            answered.iter().sum(),
            "{what}: {answered:?}"
        );
    }
    assert!(seen.would_leave.iter().all(|&calls| calls > 500), "9 by the table left: {:?}", seen.would_leave);
    assert!(seen.to_the_limit.iter().all(|&calls| calls > 100), "entries at the limit: {:?}", seen.to_the_limit);
    let [put, taken] = seen.corrected;
    assert!(put > 5 * SERIES && taken > 4 * SERIES, "corrected: {:?}", seen.corrected);
    assert!(seen.put_under.iter().all(|&contours| contours > put / 10), "put in: {:?}", seen.put_under);
    assert!(seen.taken_under.iter().all(|&contours| contours > taken / 10), "taken out: {:?}", seen.taken_under);
    assert!(seen.under_another > taken * 9 / 10, "{} of {taken} under another placement", seen.under_another);
    assert!(seen.longest > 100 && seen.full > 100, "{} longest, {} full", seen.longest, seen.full);
    assert!(
        seen.emptied > SERIES / 5 && seen.remained > 2 * SERIES,
        "{} emptied, {} remained",
        seen.emptied,
        seen.remained
    );
    assert!(seen.near > SERIES / 10 && seen.not_in > SERIES && seen.undone > SERIES);
}

//! Times, taken in rounds: each round runs every case, so that a processor that slows down slows all of them.

use std::time::{Duration, Instant};

/// Odd, so that the median is a round's own number.
pub const ROUNDS: usize = 101;

/// For a look at a page whose times nobody keeps.
pub const FEW_ROUNDS: usize = 5;

/// A sample runs one case again and again for at least this long: the clock's own cost and grain are lost in it.
pub const SAMPLE: Duration = Duration::from_millis(2);

/// The median and the quartiles.
#[derive(Clone, Copy, PartialEq, Debug)]
pub struct Spread {
    pub lower: f64,
    pub median: f64,
    pub upper: f64,
}

impl Spread {
    pub fn of(numbers: &[f64]) -> Spread {
        let mut sorted = numbers.to_vec();
        sorted.sort_by(f64::total_cmp);
        let at = |share: f64| {
            let place = share * (sorted.len() - 1) as f64;
            let (below, above) = (sorted[place.floor() as usize], sorted[place.ceil() as usize]);
            below + (above - below) * place.fract()
        };
        Spread { lower: at(0.25), median: at(0.5), upper: at(0.75) }
    }
}

/// The seconds that each case took for one outline, or one call, in each round.
pub struct Times<C> {
    cases: Vec<C>,
    rounds: Vec<Vec<f64>>,
}

impl<C: Copy + PartialEq> Times<C> {
    /// One run of a case is so many outlines or calls.
    pub fn measure(
        cases: Vec<C>,
        each: usize,
        rounds: usize,
        mut run: impl FnMut(C) -> Result<(), String>,
    ) -> Result<Times<C>, String> {
        let mut repeats = Vec::new();
        for &case in &cases {
            repeats.push(enough(|| run(case))?);
        }
        let mut all = Vec::new();
        for _ in 0..rounds {
            let mut round = Vec::new();
            for (&case, &n) in cases.iter().zip(&repeats) {
                round.push(seconds_each(time(|| run(case), n)?, n, each));
            }
            all.push(round);
        }
        Ok(Times { cases, rounds: all })
    }

    /// As if they had been measured.
    #[cfg(test)]
    pub fn of(cases: Vec<C>, rounds: Vec<Vec<f64>>) -> Times<C> {
        Times { cases, rounds }
    }

    fn place(&self, case: C) -> Option<usize> {
        self.cases.iter().position(|&each| each == case)
    }

    pub fn spread(&self, case: C) -> Option<Spread> {
        let place = self.place(case)?;
        let times: Vec<f64> = self.rounds.iter().map(|round| round[place]).collect();
        Some(Spread::of(&times))
    }

    /// A case's time over that of another in the same round.
    pub fn ratio(&self, case: C, to: C) -> Option<Spread> {
        let (place, other) = (self.place(case)?, self.place(to)?);
        let ratios: Vec<f64> = self.rounds.iter().map(|round| round[place] / round[other]).collect();
        Some(Spread::of(&ratios))
    }
}

/// Of so many runs, each of so many outlines or calls.
fn seconds_each(total: Duration, runs: usize, each: usize) -> f64 {
    total.as_secs_f64() / (runs * each) as f64
}

/// How many runs make a sample. Finding it out warms caches and the processor up.
fn enough(mut run: impl FnMut() -> Result<(), String>) -> Result<usize, String> {
    let mut n = 1;
    while time(&mut run, n)? < SAMPLE {
        n *= 2;
    }
    Ok(n)
}

fn time(mut run: impl FnMut() -> Result<(), String>, n: usize) -> Result<Duration, String> {
    let start = Instant::now();
    for _ in 0..n {
        run()?;
    }
    Ok(start.elapsed())
}

#[cfg(test)]
mod tests {
    use super::*;

    #[test]
    fn quartiles_are_between_the_numbers() {
        let spread = |numbers: &[f64]| {
            let s = Spread::of(numbers);
            (s.lower, s.median, s.upper)
        };
        assert_eq!(spread(&[7.0]), (7.0, 7.0, 7.0));
        assert_eq!(spread(&[4.0, 1.0, 3.0, 2.0]), (1.75, 2.5, 3.25));
        let hundred_and_one: Vec<f64> = (0..101).rev().map(f64::from).collect();
        assert_eq!(spread(&hundred_and_one), (25.0, 50.0, 75.0));
    }

    #[test]
    fn ratios_are_taken_round_by_round() {
        // the second round is three times as slow, and the ratio is the same
        let times = Times { cases: vec!['a', 'b'], rounds: vec![vec![2.0, 8.0], vec![6.0, 24.0]] };
        let ratio = times.ratio('b', 'a').unwrap();
        assert_eq!((ratio.lower, ratio.median, ratio.upper), (4.0, 4.0, 4.0));
        assert_eq!(times.spread('a').unwrap().median, 4.0);
        assert_eq!(times.spread('c'), None);
    }

    #[test]
    fn every_case_runs_in_every_round_and_an_error_ends_it() {
        let mut runs = [0; 2];
        let times = Times::measure(vec![0, 1], 1, FEW_ROUNDS, |case: usize| {
            runs[case] += 1;
            std::thread::sleep(SAMPLE);
            Ok(())
        });
        assert!(times.is_ok() && runs.iter().all(|&n| n > FEW_ROUNDS));
        assert_eq!(seconds_each(Duration::from_secs(3), 2, 5), 0.3);
        let mut left = FEW_ROUNDS;
        let failing = Times::measure(vec![0], 1, FEW_ROUNDS, |_| {
            std::thread::sleep(SAMPLE);
            left -= 1;
            if left == 0 {
                Err("no".to_string())
            } else {
                Ok(())
            }
        });
        assert!(failing.is_err_and(|message| message == "no"));
    }
}

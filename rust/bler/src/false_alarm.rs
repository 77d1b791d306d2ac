//! Noise that is taken for a message.

use crate::batches::{Batches, summed};
use crate::interval::poisson;
use crate::progress::Progress;
use channel::{MOST, Noise, Random};
use speltfeather::{Refusal, decode};
use std::ops::AddAssign;

/// Sizes that are decoded, and their share of the batches. Most are of the sizes that decode fastest.
pub struct Case {
    pub a: u64,
    pub e: u64,
    share: u64,
}

pub const CASES: [Case; 4] = [
    Case::new(12, 108, 14),
    Case::new(40, 108, 3),
    Case::new(40, 432, 2),
    Case::new(140, 1728, 1),
];

/// What 24 parity bits let through of one decision: 2^-24.
pub const ONE_DECISION: f64 = 1.0 / (1u64 << 24) as f64;

/// What is asked of the whole (source 003 of docs/SOURCES.md): 1.5 times 2^-21.
pub const TARGET: f64 = 1.5 / (1u64 << 21) as f64;

const BATCH: u64 = 10_000;

impl Case {
    const fn new(a: u64, e: u64, share: u64) -> Self {
        Self { a, e, share }
    }

    /// The place in `CASES` of the one that a batch decodes: they take turns by their shares.
    fn of_batch(batch: u64) -> usize {
        let shares = CASES.iter().enumerate();
        let mut turns = shares.flat_map(|(k, case)| (0..case.share).map(move |_| k));
        let round: u64 = CASES.iter().map(|case| case.share).sum();
        let place = (batch % round) as usize;
        turns.nth(place).expect("a place in the round")
    }
}

/// What sets a run.
#[derive(Clone, Copy, Debug)]
pub struct Run {
    pub rows: u64,
    pub seed: u64,
    pub threads: usize,
}

/// Rows of noise, and how many of them were accepted.
#[derive(Clone, Copy, Debug, Default, PartialEq, Eq)]
pub struct Count {
    pub rows: u64,
    pub accepted: u64,
}

impl AddAssign for Count {
    fn add_assign(&mut self, other: Self) {
        self.rows += other.rows;
        self.accepted += other.accepted;
    }
}

impl Count {
    pub fn rate(&self) -> f64 {
        self.accepted as f64 / self.rows as f64
    }

    /// The interval that holds the rate in 95 of 100 cases.
    pub fn interval(&self) -> (f64, f64) {
        let (low, high) = poisson(self.accepted);
        (low / self.rows as f64, high / self.rows as f64)
    }
}

/// The counts of the cases.
#[derive(Clone, Copy, Debug, Default, PartialEq, Eq)]
pub struct Counts(pub [Count; CASES.len()]);

impl AddAssign for Counts {
    fn add_assign(&mut self, other: Self) {
        let pairs = self.0.iter_mut().zip(other.0);
        pairs.for_each(|(count, other)| *count += other);
    }
}

impl Counts {
    pub fn total(&self) -> Count {
        let mut total = Count::default();
        self.0.iter().for_each(|&count| total += count);
        total
    }
}

/// Decodes rows of noise.
pub fn counted(run: &Run, progress: &mut Progress) -> Counts {
    let batches = Batches {
        total: run.rows,
        size: BATCH,
    };
    // What lies four deviations out is clipped.
    let noise = Noise::new(f64::from(MOST) / 4.0);
    let batch = |number| {
        let mut random = Random::of(&[run.seed, number]);
        let mut counts = Counts::default();
        let k = Case::of_batch(number);
        counts.0[k] = accepted(&CASES[k], batches.units(number), &noise, &mut random);
        counts
    };
    let mut tenths = 0;
    summed(run.threads, batches.count(), batch, |counts: &Counts| {
        tell(&counts.total(), run.rows, &mut tenths, progress);
        true
    })
}

/// Tells how far it is; each tenth of the rows is a step.
fn tell(total: &Count, rows: u64, tenths: &mut u64, progress: &mut Progress) {
    let text = || {
        let percent = 100.0 * total.rows as f64 / rows as f64;
        format!(
            "{} rows of noise ({percent:.0} %), {} accepted",
            total.rows, total.accepted
        )
    };
    if total.rows * 10 / rows == *tenths {
        return progress.show(text);
    }
    *tenths = total.rows * 10 / rows;
    progress.done(text);
}

/// Decodes rows of noise, each for any RNTI and identity.
fn accepted(case: &Case, rows: u64, noise: &Noise, random: &mut Random) -> Count {
    let mut soft = vec![0; case.e as usize];
    let mut out = vec![0; case.a as usize];
    let mut count = Count { rows, accepted: 0 };
    for _ in 0..rows {
        noise.fill(&mut soft, random);
        match decode(&random.common_numbers(case.a, case.e), &soft, &mut out) {
            Ok(_) => count.accepted += 1,
            Err(Refusal::ParityMismatch) => {}
            Err(refusal) => panic!("{refusal} for a row that can be decoded"),
        }
    }
    count
}

#[cfg(test)]
mod tests {
    use super::*;

    #[test]
    fn cases_take_turns_by_their_shares() {
        let mut turns = [0; CASES.len()];
        (0..40).for_each(|batch| turns[Case::of_batch(batch)] += 1);
        assert_eq!(turns, [28, 6, 4, 2]);
    }

    #[test]
    fn noise_is_refused_and_threads_do_not_change_the_counts() {
        let counts = |threads| {
            let run = Run {
                rows: 21_000,
                seed: 3,
                threads,
            };
            counted(&run, &mut Progress::Nowhere)
        };
        let one = counts(1);
        assert_eq!(one, counts(2));
        assert_eq!((one.total().rows, one.total().accepted), (21_000, 0));
    }

    #[test]
    fn noise_of_every_size_is_refused() {
        let (noise, mut random) = (Noise::new(30.0), Random::new(4));
        for case in &CASES {
            let none = Count {
                rows: 2000,
                accepted: 0,
            };
            assert_eq!(accepted(case, 2000, &noise, &mut random), none);
        }
    }

    #[test]
    fn rates_have_the_interval_of_their_count() {
        let count = Count {
            rows: 1000,
            accepted: 10,
        };
        let (low, high) = count.interval();
        assert_eq!(count.rate(), 0.01);
        assert!((low - 0.004795).abs() < 1e-6 && (high - 0.018390).abs() < 1e-6);
    }

    #[test]
    fn both_numbers_are_those_of_the_sources() {
        assert!((ONE_DECISION - 5.96e-8).abs() < 1e-10);
        assert!((TARGET - 7.15e-7).abs() < 1e-9);
    }
}

//! The block error rate of a coded length, from a signal-to-noise ratio at which hardly a block is
//! read to one at which hardly one is lost.

use crate::batches::{Batches, summed};
use crate::block::{Block, Tally};
use crate::progress::Progress;
use channel::{Channel, Random};

/// Aggregation levels, each with the ratio in dB at which its curve begins for 40 payload bits.
pub const LEVELS: [(u64, f64); 5] = [(1, -1.0), (2, -5.0), (4, -8.0), (8, -11.0), (16, -14.0)];

/// Between two points of a curve.
pub const STEP_DB: f64 = 0.5;

/// More points than any curve needs.
const MOST_POINTS: u64 = 60;

/// Errors after which a point ends.
pub const ENOUGH: u64 = 500;

/// The rate below which a curve ends.
pub const LEAST_RATE: f64 = 1e-4;

/// Errors below which a curve ends: a rate from fewer says little.
const FEW: u64 = 10;

/// Blocks in a batch. A point has at least one batch.
const BATCH: u64 = 1000;

/// What sets a run.
#[derive(Clone, Copy, Debug)]
pub struct Run {
    /// Payload size.
    pub a: u64,
    /// The most blocks for a point.
    pub blocks: u64,
    pub seed: u64,
    pub threads: usize,
}

impl Run {
    /// Where a curve begins that would begin there for 40 payload bits: each of more bits, the parity
    /// counted, has less of the energy.
    pub fn shifted(&self, from_db: f64) -> f64 {
        from_db + (10.0 * ((self.a + 24) as f64 / 64.0).log10()).floor()
    }
}

#[derive(Clone, Copy, Debug, PartialEq)]
pub struct Point {
    pub snr_db: f64,
    pub tally: Tally,
}

#[derive(Clone, Debug, PartialEq)]
pub struct Curve {
    pub level: u64,
    pub points: Vec<Point>,
}

impl Curve {
    /// The coded length: a level is so many control channel elements of 108 bits.
    pub fn e(&self) -> u64 {
        108 * self.level
    }

    /// The ratio in dB at which the curve crosses a rate.
    pub fn crossing(&self, rate: f64) -> Option<f64> {
        let rates = self.points.iter().map(|p| (p.snr_db, p.tally.rate()));
        crossing(&rates.collect::<Vec<_>>(), rate)
    }
}

/// The place at which falling rates, with their places, cross one: on the straight line between the
/// logarithms of the two around it.
pub fn crossing(rates: &[(f64, f64)], rate: f64) -> Option<f64> {
    let around = |pair: &&[(f64, f64)]| pair[0].1 >= rate && rate > pair[1].1 && pair[1].1 > 0.0;
    let pair = rates.windows(2).find(around)?;
    let [(x0, y0), (x1, y1)] = [pair[0], pair[1]];
    Some(x0 + (x1 - x0) * (y0 / rate).ln() / (y0 / y1).ln())
}

/// Measures the curve of a level, beginning at a ratio.
pub fn curve(run: &Run, level: u64, from_db: f64, progress: &mut Progress) -> Curve {
    let mut curve = Curve {
        level,
        points: vec![],
    };
    for step in 0..MOST_POINTS {
        let point = point(run, curve.e(), from_db + STEP_DB * step as f64, progress);
        curve.points.push(point);
        if point.tally.errors < FEW || point.tally.rate() < LEAST_RATE {
            break;
        }
    }
    curve
}

/// Measures a point, until there are enough errors or no more blocks.
pub fn point(run: &Run, e: u64, snr_db: f64, progress: &mut Progress) -> Point {
    let batches = Batches {
        total: run.blocks,
        size: BATCH,
    };
    let part = [run.seed, run.a, e, snr_db.to_bits()];
    let channel = Channel::at(snr_db);
    let batch = |number| {
        let mut random = Random::of(&[&part[..], &[number]].concat());
        tallied(run.a, e, batches.units(number), &channel, &mut random)
    };
    let text = |tally: &Tally| {
        let Tally { blocks, errors, .. } = tally;
        let rate = tally.rate();
        format!(
            "E = {e:<4} {snr_db:>5.1} dB {blocks:>9} blocks {errors:>6} errors, BLER {rate:.2e}"
        )
    };
    let tally = summed(run.threads, batches.count(), batch, |tally: &Tally| {
        progress.show(|| text(tally));
        tally.errors < ENOUGH
    });
    progress.done(|| text(&tally));
    Point { snr_db, tally }
}

fn tallied(a: u64, e: u64, blocks: u64, channel: &Channel, random: &mut Random) -> Tally {
    let mut tally = Tally::default();
    for _ in 0..blocks {
        tally.count(Block::drawn(a, e, channel, random).verdict());
    }
    tally
}

#[cfg(test)]
mod tests {
    use super::*;
    use channel::normal_below;

    const RUN: Run = Run {
        a: 40,
        blocks: 2500,
        seed: 5,
        threads: 1,
    };

    #[test]
    fn crossing_is_on_the_line_between_logarithms() {
        let rates = [(1.0, 1.0), (2.0, 1e-1), (4.0, 1e-3), (5.0, 0.0)];
        assert_eq!(crossing(&rates, 1e-1), Some(2.0));
        assert!((crossing(&rates, 1e-2).unwrap() - 3.0).abs() < 1e-12);
        assert!((crossing(&rates, 10f64.powf(-0.25)).unwrap() - 1.25).abs() < 1e-12);
    }

    #[test]
    fn what_is_not_crossed_has_no_place() {
        assert_eq!(crossing(&[(1.0, 0.5), (2.0, 0.2)], 1e-1), None);
        assert_eq!(crossing(&[(1.0, 0.05), (2.0, 0.02)], 1e-1), None);
        // No line can be drawn to a rate of which nothing is known.
        assert_eq!(crossing(&[(1.0, 0.5), (2.0, 0.0)], 1e-1), None);
        assert_eq!(crossing(&[], 1e-1), None);
    }

    #[test]
    fn curves_of_more_bits_begin_later() {
        let shifted = |a| Run { a, ..RUN }.shifted(-5.0);
        assert_eq!(
            [12, 39, 40, 57, 84].map(shifted),
            [-8.0, -6.0, -5.0, -4.0, -3.0]
        );
    }

    #[test]
    fn threads_do_not_change_a_curve() {
        let one = curve(&RUN, 1, 3.5, &mut Progress::Nowhere);
        assert!(one.points.len() > 2);
        for threads in [2, 3] {
            let run = Run { threads, ..RUN };
            assert_eq!(curve(&run, 1, 3.5, &mut Progress::Nowhere), one);
        }
        let other = Run { seed: 6, ..RUN };
        assert_ne!(curve(&other, 1, 3.5, &mut Progress::Nowhere), one);
    }

    #[test]
    fn without_a_code_every_sign_must_be_right() {
        // 84 payload bits and the parity fill all 108 bits.
        let run = Run { a: 84, ..RUN };
        for snr_db in [8.0, 9.0, 10.0] {
            let wrong = normal_below(-10f64.powf(snr_db / 20.0));
            let expected = 1.0 - (1.0 - wrong).powi(108);
            let rate = point(&run, 108, snr_db, &mut Progress::Nowhere)
                .tally
                .rate();
            assert!((rate / expected - 1.0).abs() < 0.1, "{rate} {expected}");
        }
    }

    #[test]
    fn points_end_with_enough_errors_or_no_more_blocks() {
        let blocks = |snr_db| {
            point(&RUN, 108, snr_db, &mut Progress::Nowhere)
                .tally
                .blocks
        };
        assert_eq!(blocks(-20.0), BATCH);
        assert_eq!(blocks(20.0), RUN.blocks);
    }

    #[test]
    fn curves_end_at_the_first_point_with_few_errors() {
        let points = curve(&RUN, 1, 4.0, &mut Progress::Nowhere).points;
        let (last, others) = points.split_last().unwrap();
        assert!(last.tally.errors < FEW);
        assert!(others.iter().all(|point| point.tally.errors >= FEW));
        let apart = |pair: &[Point]| pair[1].snr_db - pair[0].snr_db;
        assert!(points.windows(2).all(|pair| apart(pair) == STEP_DB));
    }
}

//! Rows of soft values in which there is no message.

use crate::{MOST, Random};
use std::f64::consts::TAU;

const ENTRIES: usize = 1 << 16;

/// Soft values of Gaussian noise alone, out of a table of its quantiles. Four come out of one random
/// number, so that a row takes less time than its decoding.
pub struct Noise {
    table: Box<[i8; ENTRIES]>,
}

impl Noise {
    /// Noise of this standard deviation, rounded, and clipped to the largest soft values.
    pub fn new(deviation: f64) -> Self {
        let mut table = Box::new([MOST as i8; ENTRIES]);
        let mut first = 0;
        for value in -MOST..MOST {
            let share = normal_below((f64::from(value) + 0.5) / deviation);
            let end = (share * ENTRIES as f64).round() as usize;
            table[first..end].fill(value as i8);
            first = end;
        }
        Self { table }
    }

    /// Fills a row with noise.
    pub fn fill(&self, soft: &mut [i32], random: &mut Random) {
        for values in soft.chunks_mut(4) {
            let word = random.u64();
            let drawn =
                [0, 16, 32, 48].map(|shift| self.table[usize::from((word >> shift) as u16)]);
            values
                .iter_mut()
                .zip(drawn)
                .for_each(|(v, d)| *v = i32::from(d));
        }
    }
}

/// How much of the normal distribution with mean 0 and variance 1 lies below `x`, by the series
/// 1/2 + density (x + x^3 / 3 + x^5 / (3 5) + ..). Beyond 8 nothing is left that 64 bits show.
pub fn normal_below(x: f64) -> f64 {
    let x = x.clamp(-8.0, 8.0);
    let (mut sum, mut term, mut odd) = (0.0, x, 1.0);
    while sum + term != sum {
        sum += term;
        odd += 2.0;
        term *= x * x / odd;
    }
    0.5 + sum * (-x * x / 2.0).exp() / TAU.sqrt()
}

#[cfg(test)]
mod tests {
    use super::*;

    /// Mean of a power of the values in a row.
    fn mean(row: &[i32], power: i32) -> f64 {
        let sum: f64 = row.iter().map(|&v| f64::from(v).powi(power)).sum();
        sum / row.len() as f64
    }

    #[test]
    fn shares_are_those_of_the_tables() {
        let known = [
            (0.0, 0.5),
            (1.0, 0.841_344_746_068_543),
            (-1.959_963_984_540_054, 0.025),
            (-3.0, 0.001_349_898_031_630),
            (40.0, 1.0),
        ];
        for (x, share) in known {
            assert!((normal_below(x) - share).abs() < 1e-14, "{x}");
        }
    }

    #[test]
    fn noise_has_mean_0_and_the_variance_asked_for() {
        let mut row = vec![0; 400_000];
        Noise::new(30.0).fill(&mut row, &mut Random::new(4));
        assert!(mean(&row, 1).abs() < 0.2);
        assert!((mean(&row, 2) / 900.0 - 1.0).abs() < 0.01);
        assert!((mean(&row, 4) / 900.0f64.powi(2) - 3.0).abs() < 0.05);
    }

    #[test]
    fn large_noise_is_clipped_on_both_sides() {
        let mut row = vec![0; 10_000];
        Noise::new(127.0).fill(&mut row, &mut Random::new(5));
        let clipped = |at| row.iter().filter(|&&value| value == at).count();
        // Beyond one deviation, less half a step: 15.96 %.
        assert!((1_450..1_750).contains(&clipped(MOST)));
        assert!((1_450..1_750).contains(&clipped(-MOST)));
        assert_eq!(row.iter().map(|value| value.abs()).max(), Some(MOST));
    }

    #[test]
    fn neighbouring_values_do_not_hang_together() {
        let mut row = vec![0; 400_000];
        Noise::new(30.0).fill(&mut row, &mut Random::new(6));
        for apart in 1..9 {
            let pairs = row.iter().zip(&row[apart..]);
            let sum: f64 = pairs.map(|(&a, &b)| f64::from(a * b)).sum();
            assert!((sum / 400_000.0 / 900.0).abs() < 0.01, "{apart}");
        }
    }
}

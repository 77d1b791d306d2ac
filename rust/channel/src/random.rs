//! Random numbers that a seed fixes.

use speltfeather::Numbers;
use std::f64::consts::TAU;

/// SplitMix64, so that a seed gives the same cases everywhere.
#[derive(Clone)]
pub struct Random {
    state: u64,
    /// The other half of a pair of normal numbers.
    spare: Option<f64>,
}

impl Random {
    pub fn new(seed: u64) -> Self {
        Self {
            state: seed,
            spare: None,
        }
    }

    /// The numbers of one part of a work, which these numbers name: each part has its own, whoever
    /// does it and when.
    pub fn of(part: &[u64]) -> Self {
        Self::new(part.iter().fold(0, |state, n| Self::new(state ^ n).u64()))
    }

    pub fn u64(&mut self) -> u64 {
        self.state = self.state.wrapping_add(0x9E37_79B9_7F4A_7C15);
        let mixed = (self.state ^ self.state >> 30).wrapping_mul(0xBF58_476D_1CE4_E5B9);
        let mixed = (mixed ^ mixed >> 27).wrapping_mul(0x94D0_49BB_1331_11EB);
        mixed ^ mixed >> 31
    }

    /// A number below `bound`.
    pub fn below(&mut self, bound: usize) -> usize {
        (self.u64() % bound as u64) as usize
    }

    pub fn pick<T: Copy>(&mut self, choices: &[T]) -> T {
        choices[self.below(choices.len())]
    }

    pub fn u16(&mut self) -> u16 {
        self.u64() as u16
    }

    pub fn bits(&mut self, count: usize) -> Vec<u8> {
        (0..count).map(|_| (self.u64() & 1) as u8).collect()
    }

    pub fn bytes(&mut self, count: usize) -> Vec<u8> {
        (0..count).map(|_| self.u64() as u8).collect()
    }

    /// A number from `least` to `most`.
    pub fn between(&mut self, least: i32, most: i32) -> i32 {
        least + self.below((most - least + 1) as usize) as i32
    }

    /// 1 or -1.
    pub fn sign(&mut self) -> i32 {
        self.pick(&[1, -1])
    }

    /// A number from 0 to 1, never 0.
    fn fraction(&mut self) -> f64 {
        ((self.u64() >> 11) + 1) as f64 / (1u64 << 53) as f64
    }

    /// A number of the normal distribution with mean 0 and variance 1, by Box and Muller's method,
    /// which makes two at a time.
    pub fn normal(&mut self) -> f64 {
        if let Some(spare) = self.spare.take() {
            return spare;
        }
        let radius = (-2.0 * self.fraction().ln()).sqrt();
        let (sin, cos) = (TAU * self.fraction()).sin_cos();
        self.spare = Some(radius * sin);
        radius * cos
    }

    /// Numbers for sizes, with any RNTI, n_ID and n_RNTI. The last two come out of one draw, so that
    /// what is drawn behind them is what a seed gave before there was an n_RNTI.
    pub fn numbers(&mut self, a: u64, e: u64) -> Numbers {
        let (rnti, start) = (self.u16(), self.u64());
        Numbers {
            a,
            e,
            rnti,
            n_id: start as u16,
            n_rnti: (start >> 16) as u16,
        }
    }

    /// The same in a common search space: n_RNTI is 0.
    pub fn common_numbers(&mut self, a: u64, e: u64) -> Numbers {
        Numbers {
            n_rnti: 0,
            ..self.numbers(a, e)
        }
    }
}

//! A message coded, sent through noise and decoded.

use channel::{Channel, Random};
use speltfeather::{Numbers, Refusal, decode, encode};
use std::ops::AddAssign;

/// A message and what arrives of it.
#[derive(Clone, Debug)]
pub struct Block {
    pub numbers: Numbers,
    pub payload: Vec<u8>,
    pub soft: Vec<i32>,
}

/// What comes of a block.
#[derive(Clone, Copy, Debug, PartialEq, Eq)]
pub enum Verdict {
    Read,
    /// The parity does not match.
    Refused,
    /// Another payload is accepted.
    Wrong,
}

impl Block {
    /// A random payload, with any RNTI and identity, after the channel.
    pub fn drawn(a: u64, e: u64, channel: &Channel, random: &mut Random) -> Self {
        let numbers = random.common_numbers(a, e);
        let payload = random.bits(a as usize);
        let mut coded = vec![0; e as usize];
        encode(&numbers, &payload, &mut coded).expect("accepted sizes");
        let soft = channel.received(&coded, random);
        Self {
            numbers,
            payload,
            soft,
        }
    }

    pub fn verdict(&self) -> Verdict {
        let mut out = vec![0; self.payload.len()];
        match decode(&self.numbers, &self.soft, &mut out) {
            Ok(_) if out == self.payload => Verdict::Read,
            Ok(_) => Verdict::Wrong,
            Err(Refusal::ParityMismatch) => Verdict::Refused,
            Err(refusal) => panic!("{refusal} for a row that can be decoded"),
        }
    }
}

/// Blocks by what came of them; one that was wrongly accepted is an error too.
#[derive(Clone, Copy, Debug, Default, PartialEq, Eq)]
pub struct Tally {
    pub blocks: u64,
    pub errors: u64,
    pub wrong: u64,
}

impl Tally {
    pub fn count(&mut self, verdict: Verdict) {
        self.blocks += 1;
        self.errors += u64::from(verdict != Verdict::Read);
        self.wrong += u64::from(verdict == Verdict::Wrong);
    }

    /// The block error rate.
    pub fn rate(&self) -> f64 {
        self.errors as f64 / self.blocks as f64
    }
}

impl AddAssign for Tally {
    fn add_assign(&mut self, other: Self) {
        self.blocks += other.blocks;
        self.errors += other.errors;
        self.wrong += other.wrong;
    }
}

#[cfg(test)]
mod tests {
    use super::*;
    use channel::normal_below;

    /// What comes of some blocks of each length.
    fn tallied(snr_db: f64, blocks: usize) -> Tally {
        let (channel, mut random) = (Channel::at(snr_db), Random::new(7));
        let mut tally = Tally::default();
        for e in [108, 216, 432, 864, 1728] {
            let drawn = (0..blocks).map(|_| Block::drawn(40, e, &channel, &mut random));
            drawn.for_each(|block| tally.count(block.verdict()));
        }
        tally
    }

    #[test]
    fn without_noise_all_blocks_are_read() {
        let all = Tally {
            blocks: 500,
            ..Tally::default()
        };
        assert_eq!(tallied(60.0, 100), all);
    }

    #[test]
    fn in_noise_alone_all_blocks_are_refused() {
        let all = Tally {
            blocks: 500,
            errors: 500,
            wrong: 0,
        };
        assert_eq!(tallied(-60.0, 100), all);
    }

    #[test]
    fn another_payload_is_an_error_and_wrongly_accepted() {
        let mut block = Block::drawn(40, 108, &Channel::at(60.0), &mut Random::new(8));
        block.payload[3] ^= 1;
        let mut tally = Tally::default();
        tally.count(block.verdict());
        assert_eq!((tally.blocks, tally.errors, tally.wrong), (1, 1, 1));
    }

    #[test]
    fn the_second_program_judges_the_same_rows_alike() {
        // About a quarter of the blocks of each length is lost.
        let lengths = [
            (108, 2.5),
            (216, -1.0),
            (432, -4.5),
            (864, -7.5),
            (1728, -10.5),
        ];
        for (e, snr_db) in lengths {
            let (channel, mut random) = (Channel::at(snr_db), Random::new(e));
            let mut read = 0;
            for _ in 0..60 {
                let block = Block::drawn(40, e, &channel, &mut random);
                let verdict = block.verdict();
                assert_eq!(verdict, second_verdict(&block), "{block:?}");
                read += u64::from(verdict == Verdict::Read);
            }
            assert!((10..=50).contains(&read), "{e}: {read}");
        }
    }

    fn second_verdict(block: &Block) -> Verdict {
        let Numbers {
            a,
            e,
            rnti,
            n_id,
            n_rnti,
        } = block.numbers;
        let numbers = reference::Numbers {
            a,
            e,
            rnti,
            n_id,
            n_rnti,
        };
        let mut out = vec![0; a as usize];
        match reference::decode(&numbers, &block.soft, &mut out) {
            (0, 0, _) if out == block.payload => Verdict::Read,
            (0, 0, _) => Verdict::Wrong,
            answer => {
                assert_eq!(answer, (7, 0, 0));
                Verdict::Refused
            }
        }
    }

    #[test]
    fn uncoded_bits_are_wrong_as_often_as_the_ratio_says() {
        for snr_db in [-10.0, -5.0, 0.0, 5.0] {
            let wrong = wrong_signs(snr_db, 200);
            // The amplitude in deviations of the noise is the root of the ratio.
            let expected = normal_below(-10f64.powf(snr_db / 20.0));
            assert!(
                (wrong / expected - 1.0).abs() < 0.02,
                "{snr_db}: {wrong} {expected}"
            );
        }
    }

    /// The share of soft values with the wrong sign; 0 is wrong half the time.
    fn wrong_signs(snr_db: f64, blocks: usize) -> f64 {
        let (channel, mut random) = (Channel::at(snr_db), Random::new(9));
        let mut doubled = 0;
        for _ in 0..blocks {
            let block = Block::drawn(40, 1728, &channel, &mut random);
            let mut coded = vec![0; 1728];
            encode(&block.numbers, &block.payload, &mut coded).expect("accepted sizes");
            let signs = coded.iter().map(|&bit| 1 - 2 * i32::from(bit));
            let agreed = signs
                .zip(&block.soft)
                .map(|(sign, value)| sign * value.signum());
            doubled += agreed.map(|sign| 1 - sign).sum::<i32>();
        }
        f64::from(doubled) / (2 * 1728 * blocks) as f64
    }
}

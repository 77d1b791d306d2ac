//! Trials of decoding for a pair (A, E). Each compares the library with the reference and counts.

use crate::rows::{SHAPES, Shape, strengths, turned};
use crate::{Call, Decode, Loopback, Outcome, Random};
use channel::{MOST, received};
use reference::{layout, noiseless};
use speltfeather::Numbers;

/// How many rows were decoded, by what was found.
#[derive(Clone, Copy, Debug, Default, PartialEq, Eq)]
pub struct Tally {
    pub accepted: usize,
    pub mismatched: usize,
    /// Of those accepted, the ones whose noise count is not 0.
    pub noisy: usize,
}

impl Tally {
    pub fn total(&self) -> usize {
        self.accepted + self.mismatched
    }

    /// Counts a decoded row.
    pub fn count(&mut self, outcome: &Outcome) {
        match outcome.number {
            0 => self.accepted += 1,
            7 => self.mismatched += 1,
            number => panic!("{number} for a row that can be decoded"),
        }
        self.noisy += usize::from(outcome.noise > 0);
    }
}

/// The coded bits of a payload.
pub fn coded(numbers: &Numbers, payload: &[u8]) -> Vec<u8> {
    let mut out = vec![0; numbers.e as usize];
    speltfeather::encode(numbers, payload, &mut out).expect("an accepted call");
    out
}

/// Puts a row to both; it must give this payload, and the noise count against the payload coded again.
pub fn expect_payload(
    numbers: Numbers,
    soft: Vec<i32>,
    payload: &[u8],
    random: &mut Random,
    tally: &mut Tally,
) {
    let noise = reference::noise(&coded(&numbers, payload), &soft);
    let call = Decode::fitting(numbers, soft, random);
    let outcome = call.compared();
    assert_eq!((outcome.number, &outcome.out[..]), (0, payload), "{call:?}");
    assert_eq!(outcome.noise, noise, "{call:?}");
    tally.count(&outcome);
}

/// A noiseless row.
pub fn noiseless_row(a: u64, e: u64, random: &mut Random, tally: &mut Tally) {
    let numbers = random.numbers(a, e);
    let payload = random.bits(a as usize);
    let strengths = strengths(e as usize, random);
    let soft = noiseless(&coded(&numbers, &payload), &strengths);
    expect_payload(numbers, soft, &payload, random, tally);
}

/// A message to be coded and decoded in one call.
pub fn loopback(a: u64, e: u64, random: &mut Random, tally: &mut Tally) {
    let payload = random.bits(a as usize);
    let strengths = strengths(e as usize, random);
    let call = Loopback::fitting(random.numbers(a, e), payload, strengths, random);
    let outcome = call.compared();
    let answer = (outcome.number, outcome.noise);
    assert_eq!((answer, &outcome.out), ((0, 0), &call.payload), "{call:?}");
    tally.count(&outcome);
}

/// A message whose repeats do not agree: of the values for a code position, where there are several,
/// one leans to the wrong side, as far as it can without turning their sum.
pub fn contradicted_row(a: u64, e: u64, random: &mut Random, tally: &mut Tally) {
    let length = layout(a, e).expect("an accepted pair").length();
    let numbers = random.numbers(a, e);
    let payload = random.bits(a as usize);
    let mut soft = noiseless(&coded(&numbers, &payload), &strengths(e as usize, random));
    for i in 0..length.min(e as usize) {
        let mut repeats: Vec<usize> = (i..e as usize).step_by(length).collect();
        let wrong = repeats.swap_remove(random.below(repeats.len()));
        let others: i32 = repeats.iter().map(|&k| soft[k].abs()).sum();
        if others > 0 {
            soft[wrong] = -soft[wrong].signum() * (others - 1).min(MOST);
        }
    }
    expect_payload(numbers, soft, &payload, random, tally);
}

/// A message, read with another RNTI, n_ID, n_RNTI or payload size and then with its own numbers.
pub fn other_numbers(a: u64, e: u64, random: &mut Random, tally: &mut Tally) {
    let numbers = random.numbers(a, e);
    let payload = random.bits(a as usize);
    let soft = noiseless(&coded(&numbers, &payload), &strengths(e as usize, random));
    let bit = 1 << random.below(16);
    // The top bit of n_RNTI falls out.
    let low_bit = 1 << random.below(15);
    let Numbers {
        rnti, n_id, n_rnti, ..
    } = numbers;
    let with = |rnti, n_id, n_rnti| Numbers {
        rnti,
        n_id,
        n_rnti,
        ..numbers
    };
    let others = [
        with(rnti ^ bit, n_id, n_rnti),
        with(rnti.rotate_left(8) ^ 1, n_id, n_rnti),
        with(rnti, n_id ^ bit, n_rnti),
        with(rnti, !n_id, n_rnti),
        with(rnti, n_id, n_rnti ^ low_bit),
        with(rnti, n_id, !n_rnti),
        Numbers {
            a: if a == 12 { 13 } else { a - 1 },
            ..numbers
        },
    ];
    for other in others {
        let call = Decode::fitting(other, soft.clone(), random);
        tally.count(&call.compared());
    }
    expect_payload(numbers, soft, &payload, random, tally);
}

/// Signal energy for each bit of payload and parity, as a multiple of the noise's variance: from
/// hopeless to easy.
pub const ENERGIES: [f64; 6] = [1.5, 2.0, 2.5, 3.0, 4.0, 6.0];

/// Soft values for the amplitude sent, from coarse to clipped.
pub const GAINS: [f64; 4] = [2.0, 8.0, 30.0, 100.0];

/// A message with Gaussian noise.
pub fn noisy_message(a: u64, e: u64, energy: f64, random: &mut Random, tally: &mut Tally) {
    let numbers = random.numbers(a, e);
    let payload = random.bits(a as usize);
    let rate = (a + 24) as f64 / e as f64;
    let noise = (energy * rate).sqrt().recip();
    let gain = random.pick(&GAINS);
    let soft = received(&coded(&numbers, &payload), noise, gain, random);
    tally.count(&Decode::fitting(numbers, soft, random).compared());
}

/// A row that is no message.
pub fn shaped_row(a: u64, e: u64, shape: Shape, random: &mut Random, tally: &mut Tally) {
    let numbers = random.numbers(a, e);
    let soft = shape(&numbers, random);
    tally.count(&Decode::fitting(numbers, soft, random).compared());
}

/// A row of that shape with its signs turned to a message, if it can be.
pub fn turned_row(a: u64, e: u64, shape: Shape, random: &mut Random, tally: &mut Tally) {
    let numbers = random.numbers(a, e);
    let soft = shape(&numbers, random);
    if let Some(row) = turned(numbers, &soft, random) {
        expect_payload(row.numbers, row.soft, &row.payload, random, tally);
    }
}

/// Every trial for a pair, some several times.
pub fn all(a: u64, e: u64, random: &mut Random, tally: &mut Tally) {
    noiseless_row(a, e, random, tally);
    loopback(a, e, random, tally);
    contradicted_row(a, e, random, tally);
    other_numbers(a, e, random, tally);
    for energy in ENERGIES {
        noisy_message(a, e, energy, random, tally);
    }
    for (_, shape) in SHAPES {
        shaped_row(a, e, shape, random, tally);
        turned_row(a, e, shape, random, tally);
    }
}

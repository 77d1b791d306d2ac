//! Rows of soft values: such as a receiver has, and such as it hardly ever has.

use channel::{MOST, Random};
use reference::decoding::{Decided, decided, descrambled, gathered};
use reference::{construction, interleaver, layout, parity, placed, rate_matching};
use reference::{scrambling, transform};
use speltfeather::Numbers;
use std::cmp::Reverse;

/// Makes a row of soft values for accepted numbers.
pub type Shape = fn(&Numbers, &mut Random) -> Vec<i32>;

/// Rows that are no message, by what they are like.
pub const SHAPES: [(&str, Shape); 10] = [
    ("any values", |numbers, random| {
        row(numbers, || random.between(-MOST, MOST))
    }),
    ("small values", |numbers, random| {
        row(numbers, || random.between(-3, 3))
    }),
    ("-1, 0 or 1", |numbers, random| {
        row(numbers, || random.between(-1, 1))
    }),
    ("one size", |numbers, random| {
        let size = random.between(1, MOST);
        row(numbers, || size * random.sign())
    }),
    ("the largest sizes", |numbers, random| {
        row(numbers, || MOST * random.sign())
    }),
    ("a few large among small", |numbers, random| {
        row(numbers, || random.sign() * random.pick(&[1, 1, 1, 1, MOST]))
    }),
    ("mostly 0", |numbers, random| {
        row(numbers, || match random.below(4) {
            0 => random.between(-MOST, MOST),
            _ => 0,
        })
    }),
    ("a stretch of 0", |numbers, random| {
        let mut values = row(numbers, || random.between(-MOST, MOST));
        let first = random.below(values.len());
        let end = values.len().min(first + values.len() / 4);
        values[first..end].fill(0);
        values
    }),
    ("repeats that contradict", repeats_that_contradict),
    ("a word of frozen positions", frozen_word),
];

fn row(numbers: &Numbers, mut value: impl FnMut() -> i32) -> Vec<i32> {
    (0..numbers.e).map(|_| value()).collect()
}

/// Where values 512 apart are of one code position, most sums are 0 or near it.
fn repeats_that_contradict(numbers: &Numbers, random: &mut Random) -> Vec<i32> {
    let mut values = row(numbers, || random.between(-MOST, MOST));
    for k in 512..values.len() {
        let off = random.pick(&[-1, 0, 0, 1]);
        values[k] = (off - values[k - 512]).clamp(-MOST, MOST);
    }
    values
}

/// The word that ones at a few frozen positions would give, at nearly the largest strength. The
/// decoder decides 0 there, against large values, and sees small differences of such values next.
fn frozen_word(numbers: &Numbers, random: &mut Random) -> Vec<i32> {
    let code = layout(numbers.a, numbers.e).expect("an accepted pair");
    let mut frozen: Vec<usize> = (0..code.length()).collect();
    frozen.retain(|position| !code.chosen.contains(position));
    frozen.sort_unstable_by_key(|&position| Reverse(construction::rank(position)));
    // The reliable ones have the largest values.
    let among = random.pick(&[4, 16, frozen.len()]);
    let mut u = vec![0; code.length()];
    for _ in 0..random.between(1, 3) {
        u[frozen[random.below(among.min(frozen.len()))]] = 1;
    }
    let sent = rate_matching::matched(&code, &transform::transform(&u));
    let strengths = row(numbers, || MOST - random.pick(&[0, 0, 0, 0, 0, 0, 1, 2]));
    let signs = scrambling::scrambled(&sent, numbers.n_id, numbers.n_rnti);
    let values = strengths.iter().zip(signs);
    values
        .map(|(s, bit)| s * (1 - 2 * i32::from(bit)))
        .collect()
}

/// Strengths for a noiseless row: even, uneven or very uneven.
pub fn strengths(e: usize, random: &mut Random) -> Vec<i32> {
    let choices = match random.below(5) {
        0 => vec![random.between(1, MOST)],
        1 => vec![1, MOST],
        2 => vec![1, 1, 1, 1, 1, 1, 1, MOST],
        _ => (1..=MOST).collect(),
    };
    (0..e).map(|_| random.pick(&choices)).collect()
}

/// A row that must be accepted, and the payload that it must give.
#[derive(Clone, Debug)]
pub struct Turned {
    pub numbers: Numbers,
    pub soft: Vec<i32>,
    pub payload: Vec<u8>,
}

/// Turns signs of a row, whatever it is, so that it is accepted.
///
/// The decoder is symmetric: where the code word of u' turns signs of its row, u' is added to what it
/// decides. So the strengths stay as noisy as they are, and every decision shows in the payload. A
/// position decided on 0 gives 0 either way, so the message must have a 0 there; there is no row if no
/// message is found that has all these.
pub fn turned(numbers: Numbers, soft: &[i32], random: &mut Random) -> Option<Turned> {
    let code = layout(numbers.a, numbers.e).expect("an accepted pair");
    let values = descrambled(soft, numbers.n_id, numbers.n_rnti);
    let values = gathered(&code, &values);
    let Decided { u, on } = decided(&code.chosen, values);
    let mut must_be_0 = vec![false; code.k];
    for (&position, source) in code.chosen.iter().zip(interleaver::order(code.k)) {
        must_be_0[source] = on[position] == 0;
    }
    let (rnti, payload) = (0..2000).find_map(|_| message(&must_be_0, random))?;
    let numbers = Numbers { rnti, ..numbers };
    let wanted = placed(numbers.a, numbers.e, rnti, &payload);
    let difference: Vec<u8> = u.iter().zip(&wanted).map(|(u, w)| u ^ w).collect();
    let turns = rate_matching::matched(&code, &transform::transform(&difference));
    let signs = turns.into_iter().map(|turn| 1 - 2 * i32::from(turn));
    let soft = soft.iter().zip(signs).map(|(v, sign)| v * sign).collect();
    Some(Turned {
        numbers,
        soft,
        payload,
    })
}

/// A random RNTI and payload whose row c is 0 where it must be; none if the parity bits that no RNTI
/// reaches are not.
fn message(must_be_0: &[bool], random: &mut Random) -> Option<(u16, Vec<u8>)> {
    let a = must_be_0.len() - parity::BITS;
    let mut payload = random.bits(a);
    for (bit, &must_be_0) in payload.iter_mut().zip(must_be_0) {
        *bit &= u8::from(!must_be_0);
    }
    let mut rnti = random.u16();
    let row = parity::attached(&payload, rnti);
    let wrong = |i: usize| must_be_0[i] && row[i] == 1;
    for bit in 0..16 {
        rnti ^= u16::from(wrong(row.len() - 1 - bit)) << bit;
    }
    (!(a..a + 8).any(wrong)).then_some((rnti, payload))
}

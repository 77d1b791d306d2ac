//! What the comparisons share: calls that are put to both programs, and rows of soft values.

pub mod built;
pub mod calls;
pub mod documents;
pub mod faults;
pub mod library;
pub mod rows;
pub mod searches;
pub mod trials;

pub use calls::{Call, Decode, Describe, Encode, Loopback, Outcome, assert_threads_agree};
pub use channel::Random;
pub use searches::{Region, Search};

use speltfeather::Numbers;
use std::env;

/// Pairs with every kind of rate matching, the smallest and largest among them.
pub const SOME_PAIRS: [(u64, u64); 6] = [
    (12, 108),
    (84, 108),
    (70, 216),
    (71, 216),
    (140, 432),
    (140, 1728),
];

/// The numbers of a pair with each of RNTI, n_ID and n_RNTI the least or the greatest.
pub fn extreme_numbers(a: u64, e: u64) -> impl Iterator<Item = Numbers> {
    let end = |set: u16, i: u16| if set >> i & 1 == 1 { 0xFFFF } else { 0 };
    (0..8).map(move |set| Numbers {
        a,
        e,
        rnti: end(set, 0),
        n_id: end(set, 1),
        n_rnti: end(set, 2),
    })
}

/// All accepted pairs (A, E).
pub fn accepted_pairs() -> Vec<(u64, u64)> {
    reference::CODED_LENGTHS
        .into_iter()
        .flat_map(|e| reference::PAYLOAD_SIZES.map(move |a| (a, e)))
        .filter(|&(a, e)| a + 24 <= e)
        .collect()
}

/// The bits that the library sends for a call that it must accept, with the scrambling undone.
pub fn sent_bits(numbers: Numbers, payload: &[u8], random: &mut Random) -> Vec<u8> {
    let outcome = Encode::fitting(numbers, payload.to_vec(), random).library();
    assert_eq!((outcome.number, outcome.place), (0, 0), "{numbers:?}");
    reference::scrambling::scrambled(&outcome.out, numbers.n_id, numbers.n_rnti)
}

/// A number from the environment, or what it is otherwise.
pub fn setting(name: &str, otherwise: u64) -> u64 {
    match env::var(name) {
        Ok(text) => text
            .parse()
            .unwrap_or_else(|_| panic!("{name} is no number: {text}")),
        Err(_) => otherwise,
    }
}

//! The input interleaver (TS 38.212 5.3.1.1), its table rebuilt from the generator of the CRC.

use crate::parity;
use std::sync::OnceLock;

/// The largest payload, in bits, that the table is made for.
const PAYLOAD: usize = 140;

/// Table 5.3.1.1-1: parity bit j directly follows the payload places, ascending and not listed
/// before, whose bit changes it.
pub fn table() -> &'static [usize] {
    static TABLE: OnceLock<Vec<usize>> = OnceLock::new();
    TABLE.get_or_init(rebuilt)
}

fn rebuilt() -> Vec<usize> {
    let mut listed = Vec::with_capacity(PAYLOAD + parity::BITS);
    for j in 0..parity::BITS {
        for place in 0..PAYLOAD {
            if changes(place, j) && !listed.contains(&place) {
                listed.push(place);
            }
        }
        listed.push(PAYLOAD + j);
    }
    listed
}

/// Whether the payload bit at `place` changes parity bit `j`.
fn changes(place: usize, j: usize) -> bool {
    let degree = PAYLOAD - 1 - place + parity::BITS;
    parity::power_remainder(degree as u32) >> (parity::BITS - 1 - j) & 1 == 1
}

/// For each place of the interleaved row of `k` bits, the place in c that it is taken from.
pub fn order(k: usize) -> Vec<usize> {
    let skipped = table().len() - k;
    let tail = table().iter().filter(|&&entry| entry >= skipped);
    tail.map(|entry| entry - skipped).collect()
}

#[cfg(test)]
mod tests {
    use super::*;

    #[test]
    fn rebuilt_table_is_the_printed_one() {
        let printed: Vec<usize> = include_str!("../data/printed-interleaver.txt")
            .split_whitespace()
            .map(|entry| entry.parse().unwrap())
            .collect();
        assert_eq!(table(), printed);
    }

    #[test]
    fn order_is_a_permutation_for_each_k() {
        for k in 36..=164 {
            let mut places = order(k);
            places.sort_unstable();
            assert!(places.into_iter().eq(0..k), "K = {k}");
        }
    }
}

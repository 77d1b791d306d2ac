//! Every accepted pair (A, E), with random and extreme payloads and numbers.

use conformance::{Call, Encode, Random, SOME_PAIRS, accepted_pairs, extreme_numbers};

const SEED: u64 = 0x38212;
const RANDOM_CALLS: usize = 8;

/// The payloads and numbers that are tried for a pair.
fn calls(a: u64, e: u64, random: &mut Random) -> Vec<Encode> {
    let mut calls = Vec::new();
    for bit in [0, 1] {
        for numbers in extreme_numbers(a, e) {
            calls.push(Encode::fitting(numbers, vec![bit; a as usize], random));
        }
    }
    for _ in 0..RANDOM_CALLS {
        let numbers = random.numbers(a, e);
        let payload = random.bits(a as usize);
        calls.push(Encode::fitting(numbers, payload, random));
    }
    calls
}

#[test]
fn library_gives_what_the_reference_gives() {
    let pairs = accepted_pairs();
    assert_eq!(pairs.len(), 589);
    let mut random = Random::new(SEED);
    let mut compared = 0;
    for (a, e) in pairs {
        for call in calls(a, e, &mut random) {
            let outcome = call.library();
            assert_eq!(outcome.number, 0, "seed {SEED:#x}, {call:?}");
            assert_eq!(outcome, call.reference(), "seed {SEED:#x}, {call:?}");
            compared += 1;
        }
    }
    assert_eq!(compared, 589 * (16 + RANDOM_CALLS));
}

#[test]
fn each_payload_bit_counts() {
    // A bit that is left out, or read from the wrong place, shows in a payload with a single 1.
    let mut random = Random::new(SEED);
    let mut compared = 0;
    for (a, e) in SOME_PAIRS {
        for place in 0..a as usize {
            let mut payload = vec![0; a as usize];
            payload[place] = 1;
            let call = Encode::fitting(random.numbers(a, e), payload, &mut random);
            let outcome = call.library();
            assert_eq!(outcome.number, 0, "seed {SEED:#x}, {call:?}");
            assert_eq!(outcome, call.reference(), "seed {SEED:#x}, {call:?}");
            compared += 1;
        }
    }
    assert_eq!(compared, 12 + 84 + 70 + 71 + 140 + 140);
}

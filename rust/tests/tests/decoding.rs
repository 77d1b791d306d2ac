//! Decoding of every accepted pair (A, E): noiseless, noisy and hopeless rows, about 121,000.

use conformance::rows::{SHAPES, strengths};
use conformance::trials::{self, ENERGIES, Tally};
use conformance::{
    Call, Decode, Outcome, Random, SOME_PAIRS, accepted_pairs, assert_threads_agree,
};
use reference::{CODED_LENGTHS, layout, parity, rate_matching, scrambling, transform};
use speltfeather::Numbers;

const SEED: u64 = 0x38212;
const PAIRS: usize = 589;

/// Does a trial for each pair, so many times, and gives what was counted.
fn for_each(
    pairs: &[(u64, u64)],
    times: usize,
    seed: u64,
    trial: impl Fn(u64, u64, &mut Random, &mut Tally),
) -> Tally {
    let mut random = Random::new(seed);
    let mut tally = Tally::default();
    for &(a, e) in pairs {
        for _ in 0..times {
            trial(a, e, &mut random, &mut tally);
        }
    }
    tally
}

/// The same for every accepted pair.
fn for_every_pair(
    times: usize,
    seed: u64,
    trial: impl Fn(u64, u64, &mut Random, &mut Tally),
) -> Tally {
    let pairs = accepted_pairs();
    assert_eq!(pairs.len(), PAIRS);
    for_each(&pairs, times, seed, trial)
}

/// All rows accepted, and none of them noisy.
fn all_accepted(count: usize) -> Tally {
    Tally {
        accepted: count,
        ..Tally::default()
    }
}

#[test]
fn noiseless_rows_give_their_payload() {
    const ROWS: usize = 40;
    let tally = for_every_pair(ROWS, SEED, trials::noiseless_row);
    assert_eq!(tally, all_accepted(PAIRS * ROWS));
}

#[test]
fn repeats_are_added() {
    const ROWS: usize = 4;
    let tally = for_every_pair(ROWS, SEED + 1, trials::contradicted_row);
    let accepted = Tally { noisy: 0, ..tally };
    assert_eq!(accepted, all_accepted(PAIRS * ROWS));
    // Where E is at least 864 there are repeats, and each time one of them is wrong.
    assert!(tally.noisy > 1000, "{tally:?}");
}

#[test]
fn noisy_messages_are_answered_as_the_reference_does() {
    const ROWS: usize = 10;
    let mut rows = 0;
    for length in CODED_LENGTHS {
        let mut pairs = accepted_pairs();
        pairs.retain(|&(_, e)| e == length);
        let tally = for_each(&pairs, ROWS, SEED + length, |a, e, random, tally| {
            for energy in ENERGIES {
                trials::noisy_message(a, e, energy, random, tally);
            }
        });
        // Near the border, where one wrong step shows, both answers are common.
        let share = |count: usize| count as f64 / tally.total() as f64;
        assert!(share(tally.accepted) > 0.3, "E = {length}: {tally:?}");
        assert!(share(tally.mismatched) > 0.3, "E = {length}: {tally:?}");
        assert!(
            5 * tally.noisy > 4 * tally.accepted,
            "E = {length}: {tally:?}"
        );
        rows += tally.total();
    }
    assert_eq!(rows, PAIRS * ROWS * ENERGIES.len());
}

#[test]
fn rows_that_are_no_message_are_answered_as_the_reference_does() {
    const ROWS: usize = 3;
    let tally = for_every_pair(ROWS, SEED + 3, |a, e, random, tally| {
        for (_, shape) in SHAPES {
            trials::shaped_row(a, e, shape, random, tally);
        }
    });
    assert_eq!(tally.total(), PAIRS * ROWS * SHAPES.len());
}

#[test]
fn every_decision_is_that_of_the_reference() {
    const ROWS: usize = 5;
    for (name, shape) in SHAPES {
        let tally = for_every_pair(ROWS, SEED + 4, |a, e, random, tally| {
            trials::turned_row(a, e, shape, random, tally);
        });
        // A row with many zeros may hold no message at all.
        let least = PAIRS * ROWS - if name == "mostly 0" { 200 } else { 0 };
        assert!(tally.accepted >= least, "{name}: {tally:?}");
        assert_eq!(tally.mismatched, 0, "{name}");
        assert!(3 * tally.noisy > 2 * PAIRS * ROWS, "{name}: {tally:?}");
    }
}

#[test]
fn messages_for_others_do_not_match() {
    const MESSAGES: usize = 2;
    let tally = for_every_pair(MESSAGES, SEED + 5, trials::other_numbers);
    assert_eq!(tally.accepted, PAIRS * MESSAGES);
    assert_eq!(tally.mismatched, 7 * PAIRS * MESSAGES);
}

#[test]
fn every_bit_of_payload_and_parity_counts() {
    let mut random = Random::new(SEED);
    for (a, e) in SOME_PAIRS {
        let code = layout(a, e).expect("an accepted pair");
        for wrong in 0..code.k {
            let numbers = random.numbers(a, e);
            let mut row = parity::attached(&random.bits(a as usize), numbers.rnti);
            row[wrong] ^= 1;
            let d = transform::transform(&reference::carrying(&code, &row));
            let sent = rate_matching::matched(&code, &d);
            let sent = scrambling::scrambled(&sent, numbers.n_id, numbers.n_rnti);
            let soft = reference::noiseless(&sent, &strengths(e as usize, &mut random));
            Decode::fitting(numbers, soft, &mut random).expect(7, 0);
        }
    }
}

#[test]
fn every_bit_of_rnti_and_identity_counts() {
    let mut random = Random::new(SEED);
    for (a, e) in SOME_PAIRS {
        let numbers = random.numbers(a, e);
        let soft = message(&numbers, &random.bits(a as usize));
        for bit in (0..16).map(|i| 1 << i) {
            let (rnti, n_id) = (numbers.rnti ^ bit, numbers.n_id ^ bit);
            for other in [Numbers { rnti, ..numbers }, Numbers { n_id, ..numbers }] {
                Decode::fitting(other, soft.clone(), &mut random).expect(7, 0);
            }
        }
    }
}

/// The soft values of a message, as weak as they can be.
fn message(numbers: &Numbers, payload: &[u8]) -> Vec<i32> {
    let coded = trials::coded(numbers, payload);
    reference::noiseless(&coded, &vec![1; coded.len()])
}

#[test]
fn every_bit_of_n_rnti_counts_but_the_top_one() {
    let mut random = Random::new(SEED);
    let mut tally = Tally::default();
    for (a, e) in SOME_PAIRS {
        for n_rnti in [0, 0x4601, 0x7FFF, 0x8000, 0xB5C2, 0xFFFF] {
            let numbers = Numbers {
                n_rnti,
                ..random.numbers(a, e)
            };
            let payload = random.bits(a as usize);
            let soft = message(&numbers, &payload);
            for bit in (0..15).map(|i| 1 << i) {
                let n_rnti = n_rnti ^ bit;
                let other = Numbers { n_rnti, ..numbers };
                Decode::fitting(other, soft.clone(), &mut random).expect(7, 0);
            }
            for n_rnti in [n_rnti, n_rnti ^ 0x8000] {
                let alike = Numbers { n_rnti, ..numbers };
                trials::expect_payload(alike, soft.clone(), &payload, &mut random, &mut tally);
            }
        }
    }
    assert_eq!(tally, all_accepted(2 * 6 * SOME_PAIRS.len()));
}

#[test]
fn rnti_and_n_rnti_are_not_taken_for_each_other() {
    let mut random = Random::new(SEED + 6);
    for (a, e) in SOME_PAIRS {
        for (rnti, n_rnti) in [(0x4601, 0), (0, 0x4601), (0x4601, 0x1234), (0xFFFF, 0x4601)] {
            let numbers = |rnti, n_rnti| Numbers {
                a,
                e,
                rnti,
                n_id: 500,
                n_rnti,
            };
            let soft = message(&numbers(rnti, n_rnti), &random.bits(a as usize));
            let others = [(rnti, rnti), (n_rnti, n_rnti), (n_rnti, rnti)];
            for (rnti, n_rnti) in others {
                let other = numbers(rnti, n_rnti);
                Decode::fitting(other, soft.clone(), &mut random).expect(7, 0);
            }
            let own = numbers(rnti, n_rnti);
            Decode::fitting(own, soft, &mut random).expect(0, 0);
        }
    }
}

#[test]
fn values_that_say_nothing_decide_0() {
    // Every bit is 0, and with an RNTI to suit, 8 parity bits are left to refuse that.
    let mut random = Random::new(SEED);
    let mut tally = Tally::default();
    for (a, e) in accepted_pairs() {
        let rnti = parity::parity(&vec![0; a as usize]) as u16;
        for rnti in [rnti, 0, random.u16()] {
            let numbers = Numbers {
                rnti,
                ..random.numbers(a, e)
            };
            let soft = vec![0; e as usize];
            tally.count(&Decode::fitting(numbers, soft, &mut random).compared());
        }
    }
    assert_eq!(tally.total(), 3 * PAIRS);
}

/// A row that can be decoded, a message with some noise.
fn noisy_call(random: &mut Random) -> Decode {
    let a = 12 + random.below(73) as u64;
    let e = random.pick(&CODED_LENGTHS);
    let numbers = random.numbers(a, e);
    let coded = trials::coded(&numbers, &random.bits(a as usize));
    let soft = channel::received(&coded, 0.4, 40.0, random);
    Decode::fitting(numbers, soft, random)
}

#[test]
fn nothing_is_kept_between_calls() {
    let mut random = Random::new(SEED);
    let calls: Vec<Decode> = (0..40).map(|_| noisy_call(&mut random)).collect();
    let first: Vec<Outcome> = calls.iter().map(Call::compared).collect();
    for round in 0..400 {
        // Other calls and refusals in between, and another content of the buffer.
        let chosen = random.below(calls.len());
        let mut again = calls[chosen].clone();
        again.out = random.bytes(again.out.len());
        let mut bad = calls[random.below(calls.len())].clone();
        bad.soft[3] = 128;
        assert_eq!(bad.library(), bad.refused(6, 3), "round {round}");
        let expected = match first[chosen].number {
            0 => first[chosen].clone(),
            number => again.refused(number, 0),
        };
        assert_eq!(again.library(), expected, "round {round}, {again:?}");
    }
}

#[test]
fn threads_do_not_disturb_each_other() {
    assert_threads_agree(5_000, SEED, noisy_call);
}

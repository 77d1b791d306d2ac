//! What the scrambling starts from, n_ID and n_RNTI, the masks of its jump, and that calls leave
//! nothing behind.

use conformance::built::root;
use conformance::{Call, Encode, Outcome, Random, assert_threads_agree};
use reference::{CODED_LENGTHS, scrambling};
use speltfeather::Numbers;
use std::fs;

const SEED: u64 = 0x521;

fn sum(one: &[u8], other: &[u8]) -> Vec<u8> {
    one.iter().zip(other).map(|(a, b)| a ^ b).collect()
}

/// An accepted call with random numbers.
fn accepted_call(random: &mut Random) -> Encode {
    let a = 12 + random.below(73);
    let e = random.pick(&CODED_LENGTHS);
    let numbers = random.numbers(a as u64, e);
    let payload = random.bits(a);
    Encode::fitting(numbers, payload, random)
}

/// A call of this length with random numbers, but for what the scrambling starts from.
fn call_with(e: u64, n_id: u16, n_rnti: u16, random: &mut Random) -> Encode {
    let mut call = accepted_call(random);
    call.numbers = Numbers {
        e,
        n_id,
        n_rnti,
        ..call.numbers
    };
    call.out = random.bytes(e as usize);
    call
}

/// n_ID and n_RNTI: every bit that counts alone, and some with several.
fn starts() -> impl Iterator<Item = (u16, u16)> {
    let of_n_id = (0..16).map(|i| (1 << i, 0));
    let of_n_rnti = (0..15).map(|i| (0, 1 << i));
    let others = [
        (3, 0),
        (1007, 0),
        (0x7FFF, 0),
        (0xFFFF, 0),
        (0, 0x7FFF),
        (0, 0xFFFF),
        (500, 0x4601),
        (0x4601, 500),
        (0xFFFF, 0xFFFF),
    ];
    of_n_id.chain(of_n_rnti).chain(others)
}

#[test]
fn starts_differ_by_their_gold_sequences() {
    let mut random = Random::new(SEED);
    let mut compared = 0;
    for e in CODED_LENGTHS {
        for (n_id, n_rnti) in starts() {
            let mut call = call_with(e, n_id, n_rnti, &mut random);
            let with = call.library();
            (call.numbers.n_id, call.numbers.n_rnti) = (0, 0);
            let without = call.library();
            assert_eq!((with.number, without.number), (0, 0), "{call:?}");
            let gold = |n_id, n_rnti| scrambling::gold(n_id, n_rnti, e as usize);
            let expected = sum(&gold(n_id, n_rnti), &gold(0, 0));
            assert!(expected.contains(&1));
            assert_eq!(
                sum(&with.out, &without.out),
                expected,
                "n_ID {n_id}, n_RNTI {n_rnti}, {call:?}"
            );
            compared += 1;
        }
    }
    assert_eq!(compared, 5 * (16 + 15 + 9));
}

#[test]
fn top_bit_of_n_rnti_falls_out() {
    // 0xFFFF with 0xFFFF is the greatest start: all of 32 bits, before it is cut to 31.
    let mut random = Random::new(SEED);
    for e in CODED_LENGTHS {
        for n_id in [0, 1, 500, 0x7FFF, 0x8000, 0xFFFE, 0xFFFF] {
            for n_rnti in [0, 1, 0x4601, 0x3FFF, 0x4000, 0x7FFF] {
                let mut call = call_with(e, n_id, n_rnti, &mut random);
                let low = call.compared();
                call.numbers.n_rnti |= 0x8000;
                assert_eq!(call.compared(), low, "{call:?}");
                call.numbers.n_rnti ^= 0x4000;
                assert_ne!(call.compared(), low, "{call:?}");
            }
        }
    }
}

#[test]
fn every_n_rnti_is_coded_as_the_reference_does() {
    let mut random = Random::new(SEED);
    for n_rnti in 0..=0xFFFF {
        let n_id = random.u16();
        let outcome = call_with(108, n_id, n_rnti, &mut random).compared();
        assert_eq!(outcome.number, 0, "n_ID {n_id}, n_RNTI {n_rnti}");
    }
}

/// The numbers in hexadecimal of a piece of source text.
fn hexadecimals(text: &str) -> Vec<u32> {
    let numbers = text.split("0x").skip(1);
    let digits = numbers.map(|rest| rest.split([',', ';']).next().unwrap());
    digits
        .map(|d| u32::from_str_radix(d, 16).unwrap())
        .collect()
}

#[test]
fn masks_of_the_jump_are_the_references() {
    // No call has x1 start from anything but 1, so its masks can be read in the source alone.
    let source = |name| fs::read_to_string(root().join("crates/jump/src").join(name)).unwrap();
    let (tables, code) = (source("masks.rt"), source("lib.rt"));
    let (x1, x2) = tables.split_once("static X2").expect("the second table");
    assert_eq!(hexadecimals(x1), scrambling::masks(&scrambling::X1));
    assert_eq!(hexadecimals(x2), scrambling::masks(&scrambling::X2));
    let from_one = scrambling::jumped(&scrambling::X1, 1);
    assert_eq!(hexadecimals(&code), [from_one]);
}

#[test]
fn a_start_is_the_sum_of_its_bits() {
    // The sequence of x2 from a start is the sum of those from its single bits; x1 is in each.
    let mut random = Random::new(SEED);
    for e in CODED_LENGTHS {
        let mut call = call_with(e, 0, 0, &mut random);
        let mut sent = |n_id, n_rnti| {
            (call.numbers.n_id, call.numbers.n_rnti) = (n_id, n_rnti);
            call.library().out
        };
        let none = sent(0, 0);
        for _ in 0..50 {
            let (n_id, n_rnti) = (random.u16(), random.u16());
            let bits_of_n_id = (0..16).map(|i| (n_id & 1 << i, 0));
            let bits_of_n_rnti = (0..16).map(|i| (0, n_rnti & 1 << i));
            let bits = bits_of_n_id.chain(bits_of_n_rnti);
            let total = bits.fold(none.clone(), |total, (n_id, n_rnti)| {
                sum(&total, &sum(&none, &sent(n_id, n_rnti)))
            });
            assert_eq!(sent(n_id, n_rnti), total, "n_ID {n_id}, n_RNTI {n_rnti}");
        }
    }
}

#[test]
fn nothing_is_kept_between_calls() {
    let mut random = Random::new(SEED);
    let calls: Vec<Encode> = (0..40).map(|_| accepted_call(&mut random)).collect();
    let first: Vec<Outcome> = calls.iter().map(Encode::library).collect();
    for round in 0..200 {
        // Other calls and refusals in between, and another content of the buffer.
        let chosen = random.below(calls.len());
        let mut again = calls[chosen].clone();
        again.out = random.bytes(again.out.len());
        let mut bad = calls[random.below(calls.len())].clone();
        bad.payload[3] = 9;
        assert_eq!(bad.library(), bad.refused(6, 3), "round {round}");
        assert_eq!(again.library(), first[chosen], "round {round}, {again:?}");
    }
    let expected: Vec<Outcome> = calls.iter().map(Encode::reference).collect();
    assert_eq!(first, expected);
}

#[test]
fn threads_do_not_disturb_each_other() {
    assert_threads_agree(20_000, SEED, accepted_call);
}

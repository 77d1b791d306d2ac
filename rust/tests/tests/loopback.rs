//! Coding and decoding in one call: every accepted pair (A, E), and every refusal.

use conformance::faults::{self, FAR, Faults, length};
use conformance::trials::{self, Tally};
use conformance::{Call, Loopback, Random, SOME_PAIRS, accepted_pairs, extreme_numbers, rows};

const SEED: u64 = 0x1007;

/// Strengths that are out of range.
const BAD_STRENGTHS: [i32; 8] = [0, 128, -1, -127, 257, 256 + 127, i32::MIN, i32::MAX];

fn call(a: u64, e: u64, lengths: [usize; 3], random: &mut Random) -> Loopback {
    let [payload, strengths, out] = lengths;
    Loopback {
        numbers: random.numbers(a, e),
        payload: random.bits(payload),
        strengths: (0..strengths).map(|_| random.between(1, 127)).collect(),
        out: random.bytes(out),
    }
}

fn fitting(a: u64, e: u64, random: &mut Random) -> Loopback {
    call(a, e, [a as usize, e as usize, a as usize], random)
}

#[test]
fn every_pair_gives_its_payload() {
    const MESSAGES: usize = 12;
    let mut random = Random::new(SEED);
    let mut tally = Tally::default();
    for (a, e) in accepted_pairs() {
        for _ in 0..MESSAGES {
            trials::loopback(a, e, &mut random, &mut tally);
        }
    }
    let accepted = 589 * MESSAGES;
    assert_eq!((tally.accepted, tally.mismatched), (accepted, 0));
}

#[test]
fn extreme_payloads_numbers_and_strengths() {
    let mut random = Random::new(SEED);
    let mut tally = Tally::default();
    for (a, e) in SOME_PAIRS {
        for (bit, strength) in [(0, 1), (0, 127), (1, 1), (1, 127)] {
            for numbers in extreme_numbers(a, e) {
                let payload = vec![bit; a as usize];
                let strengths = vec![strength; e as usize];
                let call = Loopback::fitting(numbers, payload, strengths, &mut random);
                let outcome = call.compared();
                assert_eq!(outcome.out, call.payload, "{call:?}");
                tally.count(&outcome);
            }
        }
    }
    assert_eq!((tally.accepted, tally.mismatched), (6 * 32, 0));
}

#[test]
fn every_n_rnti_gives_the_payload() {
    let mut random = Random::new(SEED);
    for n_rnti in 0..=0xFFFF {
        let mut call = fitting(12, 108, &mut random);
        call.numbers.n_rnti = n_rnti;
        let outcome = call.library();
        let answer = (outcome.number, outcome.noise);
        assert_eq!((answer, &outcome.out), ((0, 0), &call.payload), "{call:?}");
    }
}

/// A call whose lengths fit the low bits of its sizes, so that only the sizes can be at fault.
fn expect_sizes(a: u64, e: u64, number: u8, random: &mut Random) {
    let (low_a, low_e) = (a as u8 as usize, e as u16 as usize % 2048);
    call(a, e, [low_a, low_e, low_a], random).expect(number, 0);
}

#[test]
fn sizes() {
    faults::expect_all(faults::sizes(0), SEED, expect_sizes);
}

#[test]
fn lengths() {
    let mut random = Random::new(SEED);
    for (a, e) in [(12, 108), (84, 108), (37, 432), (140, 1728)] {
        let (fits_a, fits_e) = (a as usize, e as usize);
        for payload in [0, 1, fits_a - 1, fits_a + 1, fits_a + 256, fits_e] {
            call(a, e, [payload, fits_e, fits_a], &mut random).expect(4, 0);
            call(a, e, [payload, fits_e + 1, fits_a], &mut random).expect(4, 0);
        }
        for strengths in [0, 1, fits_a, fits_e - 1, fits_e + 1, fits_e + 256] {
            call(a, e, [fits_a, strengths, fits_a], &mut random).expect(4, 0);
        }
        // Lengths exchanged, and one too long by what the other is too short.
        call(a, e, [fits_e, fits_a, fits_a], &mut random).expect(4, 0);
        call(a, e, [fits_a + 1, fits_e - 1, fits_a], &mut random).expect(4, 0);
        for out in [0, 1, fits_a - 1, fits_a + 1, fits_a + 256, fits_e] {
            call(a, e, [fits_a, fits_e, out], &mut random).expect(5, 0);
        }
        call(a, e, [0, 0, 0], &mut random).expect(4, 0);
    }
}

#[test]
fn bad_payload_byte() {
    let mut random = Random::new(SEED);
    for (a, e) in [(12, 108), (84, 108), (140, 216), (37, 432), (140, 1728)] {
        let last = a as usize - 1;
        for bad in [2, 3, 127, 128, 255] {
            for place in 0..=last {
                let mut call = fitting(a, e, &mut random);
                call.payload[place] = bad;
                call.expect(6, place);

                // With more behind it, the first is given; the payload comes before the strengths.
                call.payload[last] = bad;
                call.strengths[0] = 0;
                call.strengths[place] = 128;
                call.expect(6, place);
            }
        }
    }
}

#[test]
fn bad_strength_counts_from_behind_the_payload() {
    let mut random = Random::new(SEED);
    for (a, e) in [(12, 108), (84, 108), (140, 216), (37, 432), (140, 1728)] {
        let last = e as usize - 1;
        let step = e as usize / 108;
        for bad in BAD_STRENGTHS {
            for place in (0..last).step_by(step).chain([last]) {
                let mut call = fitting(a, e, &mut random);
                call.strengths[place] = bad;
                call.expect(6, a as usize + place);

                call.strengths[last] = 0;
                call.strengths[place] = bad;
                call.expect(6, a as usize + place);
            }
        }
    }
}

#[test]
fn first_that_applies_is_given() {
    let mut random = Random::new(SEED);
    let mut tried = [0; 7];
    for faults in Faults::sets() {
        let (a, e) = faults.sizes();
        // What is at fault, where 4 or 6 applies: the payload, the strengths or both.
        for (in_payload, in_strengths) in [(true, false), (false, true), (true, true)] {
            for (shorter, place) in [(true, 0), (true, 5), (false, 0), (false, 5)] {
                let lengths = [
                    length(a, faults.has(4) && in_payload, shorter),
                    length(e, faults.has(4) && in_strengths, shorter),
                    length(a, faults.has(5), shorter),
                ];
                let mut call = call(a, e, lengths, &mut random);
                if faults.has(6) && in_payload {
                    call.payload[place] = 2 + (random.u64() % 254) as u8;
                }
                if faults.has(6) && in_strengths {
                    call.strengths[place] = random.pick(&BAD_STRENGTHS);
                }
                let number = faults.first().unwrap_or(0);
                let carried = match (number, in_payload) {
                    (6, true) => place,
                    (6, false) => a as usize + place,
                    _ => 0,
                };
                call.expect(number, carried);
                tried[usize::from(number)] += 1;
            }
        }
    }
    assert_eq!(tried, [12, 384, 192, 96, 48, 24, 12]);
}

#[test]
fn random_calls_are_answered_as_the_reference_does() {
    const CASES: usize = 10_000;
    let mut random = Random::new(SEED);
    let mut given = [0; 7];
    for _ in 0..CASES {
        let mut a = random.between(10, 142) as u64;
        let mut e: u64 = random.pick(&[108, 108, 216, 432, 864, 1728]);
        if random.below(8) == 0 {
            e = e.wrapping_add(random.pick(&[1, u64::MAX, 1 << 32]));
        }
        if random.below(16) == 0 {
            a = random.pick(&FAR).wrapping_add(a);
        }
        let (low_a, low_e) = (a as u8 as usize, e as u16 as usize);
        let mut call = call(a, e, [low_a, low_e, low_a], &mut random);
        call.strengths = rows::strengths(low_e, &mut random);
        match random.below(12) {
            0 => call.payload.push(0),
            1 => drop(call.strengths.pop()),
            2 => call.out.push(7),
            3 => call.payload.iter_mut().for_each(|bit| *bit *= 2),
            4 if low_e > 0 => call.strengths[random.below(low_e)] = random.u64() as i32,
            5 if low_a > 0 => call.payload[random.below(low_a)] = random.u64() as u8,
            _ => {}
        }
        given[usize::from(call.compared().number)] += 1;
    }
    assert_eq!(given.iter().sum::<usize>(), CASES);
    assert!(given.iter().all(|&count| count >= 300), "{given:?}");
}

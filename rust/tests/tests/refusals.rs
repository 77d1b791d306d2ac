//! Refusals of coding: each at its boundaries, in their order, with the buffer untouched.

use conformance::faults::{self, Faults, length};
use conformance::{Call, Encode, Random};

const SEED: u64 = 0x38211;

fn call(a: u64, e: u64, payload: Vec<u8>, out_len: usize, random: &mut Random) -> Encode {
    Encode {
        numbers: random.numbers(a, e),
        payload,
        out: random.bytes(out_len),
    }
}

/// A call whose lengths fit the low bits of its sizes, so that only the sizes can be at fault.
fn expect_sizes(a: u64, e: u64, number: u8, random: &mut Random) {
    let (input, output) = (a as u8 as usize, e as u16 as usize % 2048);
    let payload = random.bits(input);
    call(a, e, payload, output, random).expect(number, 0);
}

#[test]
fn sizes() {
    faults::expect_all(faults::sizes(0), SEED, expect_sizes);
}

#[test]
fn input_length() {
    let mut random = Random::new(SEED);
    for (a, e) in [(12, 108), (84, 108), (37, 432), (140, 1728)] {
        let fits = a as usize;
        for input in [0, 1, fits - 1, fits + 1, fits + 256, e as usize] {
            let payload = random.bits(input);
            call(a, e, payload, e as usize, &mut random).expect(4, 0);
        }
    }
}

#[test]
fn output_length() {
    let mut random = Random::new(SEED);
    for a in [12, 84] {
        for e in [108, 216, 432, 864, 1728] {
            let fits = e as usize;
            for output in [0, 1, a as usize, fits - 1, fits + 1, fits + 256] {
                let payload = random.bits(a as usize);
                call(a, e, payload, output, &mut random).expect(5, 0);
            }
        }
    }
}

#[test]
fn bad_entry() {
    let mut random = Random::new(SEED);
    for (a, e) in [(12, 108), (84, 108), (37, 432), (140, 216), (140, 1728)] {
        let last = a as usize - 1;
        for bad in [2, 3, 48, 49, 128, 254, 255] {
            for place in 0..=last {
                let mut payload = random.bits(a as usize);
                payload[place] = bad;
                let one = call(a, e, payload.clone(), e as usize, &mut random);
                one.expect(6, place);

                // With more behind it, the first is given.
                payload[last] = 255;
                payload[(place + last).div_ceil(2)] = 2;
                payload[place] = bad;
                call(a, e, payload, e as usize, &mut random).expect(6, place);
            }
        }
    }
}

#[test]
fn first_that_applies_is_given() {
    let mut random = Random::new(SEED);
    let mut tried = [0; 7];
    for faults in Faults::sets() {
        let (a, e) = faults.sizes();
        for (shorter, place) in [(true, 0), (true, 5), (false, 0), (false, 5)] {
            let mut payload = random.bits(length(a, faults.has(4), shorter));
            if faults.has(6) {
                payload[place] = 2 + (random.u64() % 254) as u8;
            }
            let out_len = length(e, faults.has(5), shorter);
            let number = faults.first().unwrap_or(0);
            let carried = if number == 6 { place } else { 0 };
            call(a, e, payload, out_len, &mut random).expect(number, carried);
            tried[usize::from(number)] += 1;
        }
    }
    assert_eq!(tried, [4, 128, 64, 32, 16, 8, 4]);
}

/// A call that is accepted or misses being so by a little, in one way or several.
fn near_accepted(random: &mut Random) -> Encode {
    let lengths = [108, 216, 432, 864, 1728];
    let mut a = 12 + random.below(129) as u64;
    let mut e = random.pick(&lengths);
    match random.below(8) {
        0 => a = random.pick(&[0, 11, 12, 84, 85, 140, 141, 1 << 32 | 40]),
        1 => a = random.u64(),
        _ => {}
    }
    match random.below(8) {
        0 => e = e - 1 + random.below(3) as u64,
        1 => e = random.pick(&[0, 128, 512, 1 << 32 | 432, u64::MAX]),
        2 => e = 108,
        _ => {}
    }
    // Lengths fit the low bits, so that a size cut short would be taken for an accepted one.
    let mut input = usize::from(a as u16).min(300);
    let mut output = usize::from(e as u16).min(2000);
    if random.below(6) == 0 {
        input = (input + random.below(5)).saturating_sub(2);
    }
    if random.below(6) == 0 {
        output = (output + random.below(5)).saturating_sub(2);
    }
    let mut payload = random.bits(input);
    if input > 0 && random.below(3) == 0 {
        for _ in 0..=random.below(3) {
            payload[random.below(input)] = random.u64() as u8;
        }
    }
    call(a, e, payload, output, random)
}

#[test]
fn random_calls_are_answered_as_the_reference_does() {
    const CASES: usize = 20_000;
    let mut random = Random::new(SEED);
    let mut given = [0; 7];
    for case in 0..CASES {
        let call = near_accepted(&mut random);
        let outcome = call.library();
        assert_eq!(
            outcome,
            call.reference(),
            "seed {SEED:#x}, case {case}, {call:?}"
        );
        given[usize::from(outcome.number)] += 1;
    }
    assert_eq!(given.iter().sum::<usize>(), CASES);
    assert!(given.iter().all(|&count| count >= 500), "{given:?}");
}

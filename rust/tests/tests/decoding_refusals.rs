//! Refusals of decoding: each at its boundaries, in their order, with the buffer untouched.

use conformance::faults::{self, BAD, Faults, length};
use conformance::{Call, Decode, Random, trials};
use speltfeather::Numbers;

const SEED: u64 = 0x38211;

fn soft_values(count: usize, random: &mut Random) -> Vec<i32> {
    (0..count).map(|_| random.between(-127, 127)).collect()
}

fn call(a: u64, e: u64, soft: Vec<i32>, out_len: usize, random: &mut Random) -> Decode {
    Decode {
        numbers: random.numbers(a, e),
        soft,
        out: random.bytes(out_len),
    }
}

/// A call whose lengths fit the low bits of its sizes, so that only the sizes can be at fault. Its
/// values are noise, so that 7 is given where the sizes are accepted.
fn expect_sizes(a: u64, e: u64, number: u8, random: &mut Random) {
    let (input, output) = (e as u16 as usize % 2048, a as u8 as usize);
    let soft = soft_values(input, random);
    call(a, e, soft, output, random).expect(number, 0);
}

#[test]
fn sizes() {
    faults::expect_all(faults::sizes(7), SEED, expect_sizes);
}

#[test]
fn input_length() {
    let mut random = Random::new(SEED);
    for (a, e) in [(12, 108), (84, 108), (37, 432), (140, 1728)] {
        let fits = e as usize;
        for input in [0, 1, a as usize, fits - 1, fits + 1, fits + 256, 2 * fits] {
            let soft = soft_values(input, &mut random);
            call(a, e, soft, a as usize, &mut random).expect(4, 0);
        }
    }
}

#[test]
fn output_length() {
    let mut random = Random::new(SEED);
    for a in [12, 84] {
        for e in [108, 216, 432, 864, 1728] {
            let fits = a as usize;
            for output in [0, 1, fits - 1, fits + 1, fits + 24, fits + 256, e as usize] {
                let soft = soft_values(e as usize, &mut random);
                call(a, e, soft, output, &mut random).expect(5, 0);
            }
        }
    }
}

#[test]
fn no_lengths_at_all() {
    let mut random = Random::new(SEED);
    for (a, e, number) in [(0, 0, 1), (12, 0, 2), (140, 108, 3), (12, 108, 4)] {
        call(a, e, vec![], 0, &mut random).expect(number, 0);
    }
}

#[test]
fn bad_entry() {
    let mut random = Random::new(SEED);
    for (a, e) in [
        (12, 108),
        (84, 108),
        (140, 216),
        (37, 432),
        (40, 864),
        (140, 1728),
    ] {
        let last = e as usize - 1;
        let step = e as usize / 108;
        for bad in BAD {
            for place in (0..last).step_by(step).chain([1, last - 1, last]) {
                let mut soft = soft_values(e as usize, &mut random);
                soft[place] = bad;
                let one = call(a, e, soft.clone(), a as usize, &mut random);
                one.expect(6, place);

                // With more behind it, the first is given.
                soft[last] = -128;
                soft[(place + last).div_ceil(2)] = 128;
                soft[place] = bad;
                call(a, e, soft, a as usize, &mut random).expect(6, place);
            }
        }
    }
}

#[test]
fn every_size_up_to_127_is_taken() {
    // A message whose values all have one size, and noise that has the largest at one place.
    let mut random = Random::new(SEED);
    for (a, e) in [(12, 108), (71, 216), (37, 432), (140, 1728)] {
        let numbers = random.numbers(a, e);
        let payload = random.bits(a as usize);
        let coded = trials::coded(&numbers, &payload);
        for size in 1..=127 {
            let soft = reference::noiseless(&coded, &vec![size; e as usize]);
            Decode::fitting(numbers, soft, &mut random).expect(0, 0);
        }
        for place in 0..e as usize {
            let mut soft = soft_values(e as usize, &mut random);
            soft[place] = 127 * random.sign();
            call(a, e, soft, a as usize, &mut random).expect(7, 0);
        }
    }
}

/// Soft values for sizes that may be refused: a message where they are accepted, else noise.
fn message_or_noise(numbers: &Numbers, count: usize, random: &mut Random) -> Vec<i32> {
    let fits = count as u64 == numbers.e;
    if !fits || reference::layout(numbers.a, numbers.e).is_none() {
        return soft_values(count, random);
    }
    let payload = random.bits(numbers.a as usize);
    let coded = trials::coded(numbers, &payload);
    reference::noiseless(&coded, &vec![100; count])
}

#[test]
fn first_that_applies_is_given() {
    let mut random = Random::new(SEED);
    let mut tried = [0; 8];
    for faults in Faults::sets() {
        let (a, e) = faults.sizes();
        for (shorter, place) in [(true, 0), (true, 5), (false, 0), (false, 5)] {
            // Noise, so that 7 would apply as well, and a message.
            for noise in [true, false] {
                let numbers = random.numbers(a, e);
                let input = length(e, faults.has(4), shorter);
                let mut soft = match noise {
                    true => soft_values(input, &mut random),
                    false => message_or_noise(&numbers, input, &mut random),
                };
                if faults.has(6) {
                    soft[place] = random.pick(&BAD);
                }
                let out = random.bytes(length(a, faults.has(5), shorter));
                let parity = if noise { 7 } else { 0 };
                let number = faults.first().unwrap_or(parity);
                let carried = if number == 6 { place } else { 0 };
                Decode { numbers, soft, out }.expect(number, carried);
                tried[usize::from(number)] += 1;
            }
        }
    }
    assert_eq!(tried, [4, 256, 128, 64, 32, 16, 8, 4]);
}

/// A call that can be decoded or misses being so by a little, in one way or several.
fn near_accepted(random: &mut Random) -> Decode {
    let lengths = [108, 216, 432, 864, 1728];
    let mut a = 12 + random.below(129) as u64;
    let mut e = random.pick(&lengths);
    match random.below(8) {
        0 => a = random.pick(&[0, 11, 12, 84, 85, 140, 141, 1 << 32 | 40]),
        1 => a = random.u64(),
        _ => {}
    }
    match random.below(8) {
        0 => e = e - 1 + random.below(3) as u64,
        1 => e = random.pick(&[0, 128, 512, 1 << 32 | 432, u64::MAX]),
        2 => e = 108,
        _ => {}
    }
    // Lengths fit the low bits, so that a size cut short would be taken for an accepted one.
    let mut input = usize::from(e as u16).min(2000);
    let mut output = usize::from(a as u16).min(300);
    if random.below(6) == 0 {
        input = (input + random.below(5)).saturating_sub(2);
    }
    if random.below(6) == 0 {
        output = (output + random.below(5)).saturating_sub(2);
    }
    let numbers = random.numbers(a, e);
    let mut soft = match random.below(3) {
        0 => soft_values(input, random),
        _ => message_or_noise(&numbers, input, random),
    };
    if input > 0 && random.below(4) == 0 {
        for _ in 0..=random.below(3) {
            soft[random.below(input)] = random.between(-200, 200);
        }
    }
    let out = random.bytes(output);
    Decode { numbers, soft, out }
}

#[test]
fn random_calls_are_answered_as_the_reference_does() {
    const CASES: usize = 20_000;
    let mut random = Random::new(SEED);
    let mut given = [0; 8];
    for _ in 0..CASES {
        let outcome = near_accepted(&mut random).compared();
        given[usize::from(outcome.number)] += 1;
    }
    assert_eq!(given.iter().sum::<usize>(), CASES);
    assert!(given.iter().all(|&count| count >= 500), "{given:?}");
}

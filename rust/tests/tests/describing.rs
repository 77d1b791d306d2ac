//! What each position of a code is for: every accepted pair (A, E), and every refusal.

use conformance::faults::{self, Faults, length};
use conformance::{Call, Describe, Random, accepted_pairs};
use reference::Kind;
use speltfeather::{Code, RateMatching, Role};

const SEED: u64 = 0xDE5C;

#[test]
fn every_pair_gives_the_roles_of_the_reference() {
    let mut random = Random::new(SEED);
    let pairs = accepted_pairs();
    assert_eq!(pairs.len(), 589);
    for (a, e) in pairs {
        let outcome = Describe::new(a, e, 512, &mut random).compared();
        assert_eq!(outcome.number, 0, "A = {a}, E = {e}");
        let ones = outcome.out.iter().filter(|&&role| role == 1).count();
        assert_eq!(ones as u64, a + 24, "A = {a}, E = {e}");
    }
}

#[test]
fn every_code_has_the_layout_of_the_reference() {
    for (a, e) in accepted_pairs() {
        let code = Code::of(a, e).expect("an accepted pair");
        let layout = reference::layout(a, e).expect("an accepted pair");
        let kind = match layout.kind {
            Kind::Repetition => RateMatching::Repetition,
            Kind::Puncturing => RateMatching::Puncturing,
            Kind::Shortening => RateMatching::Shortening,
        };
        assert_eq!((code.length(), code.kind()), (layout.length(), kind));
        assert!(code.information().eq(layout.chosen), "A = {a}, E = {e}");
        assert!(code.barred().eq(layout.barred), "A = {a}, E = {e}");
        assert!(!code.roles().contains(&Role::PastEnd), "A = {a}, E = {e}");
    }
}

#[test]
fn sizes() {
    faults::expect_all(faults::sizes(0), SEED, |a, e, number, random| {
        Describe::new(a, e, 512, random).expect(number, 0);
    });
}

#[test]
fn output_length() {
    let mut random = Random::new(SEED);
    for (a, e) in [(12, 108), (84, 108), (71, 216), (37, 432), (140, 1728)] {
        for out_len in [0, 1, 128, 256, 511, 513, 1024, a as usize, e as usize] {
            Describe::new(a, e, out_len, &mut random).expect(5, 0);
        }
        Describe::new(a, e, 512, &mut random).expect(0, 0);
    }
}

#[test]
fn first_that_applies_is_given() {
    let mut random = Random::new(SEED);
    let mut tried = [0; 7];
    for faults in Faults::sets().filter(|faults| !faults.has(4) && !faults.has(6)) {
        let (a, e) = faults.sizes();
        for shorter in [true, false] {
            let out_len = length(512, faults.has(5), shorter);
            let number = faults.first().unwrap_or(0);
            Describe::new(a, e, out_len, &mut random).expect(number, 0);
            tried[usize::from(number)] += 1;
        }
    }
    assert_eq!(tried, [2, 16, 8, 4, 0, 2, 0]);
}

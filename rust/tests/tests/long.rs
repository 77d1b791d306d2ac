//! Decoding of every accepted pair, over and over with new seeds: `make long`.

use conformance::trials::{self, Tally};
use conformance::{Random, accepted_pairs, setting};

#[test]
#[ignore = "takes minutes; make long"]
fn rounds_with_new_seeds() {
    let rounds = setting("ROUNDS", 60);
    let first_seed = setting("SEED", 1);
    let mut tally = Tally::default();
    for seed in first_seed..first_seed + rounds {
        println!("seed {seed}, round {} of {rounds}", seed - first_seed + 1);
        let mut random = Random::new(seed);
        for (a, e) in accepted_pairs() {
            trials::all(a, e, &mut random, &mut tally);
        }
    }
    let Tally {
        accepted,
        mismatched,
        noisy,
    } = tally;
    println!(
        "{accepted} rows accepted, {noisy} of them noisy, {mismatched} not; none was answered otherwise \
         by the reference"
    );
    assert!(noisy > 0 && mismatched > 0);
}

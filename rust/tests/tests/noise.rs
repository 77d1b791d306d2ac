//! The noise count: how many of the E soft values are not 0 and have the wrong sign for the payload coded
//! again. Here rows whose wrong values are known, so that the count is known too; the other files compare
//! it with the second program's in every call.

use conformance::searches::{any_at, at, decoded_noise, span, with_message};
use conformance::{
    Call, Decode, Outcome, Random, Region, SOME_PAIRS, Search, accepted_pairs, extreme_numbers,
    trials,
};
use reference::noiseless;
use reference::searching::{CCES, places};
use speltfeather::{Candidate, Numbers};

const SEED: u64 = 0x40;

/// Turns these values and makes them so strong.
fn turn(soft: &mut [i32], places: &[usize], strength: i32) {
    for &k in places {
        soft[k] = -soft[k].signum() * strength;
    }
}

/// A message, and its soft values without noise.
struct Message {
    numbers: Numbers,
    payload: Vec<u8>,
    soft: Vec<i32>,
}

impl Message {
    /// A random payload, with all values of one strength.
    fn of(numbers: Numbers, strength: i32, random: &mut Random) -> Self {
        let payload = random.bits(numbers.a as usize);
        let strengths = vec![strength; numbers.e as usize];
        let soft = noiseless(&trials::coded(&numbers, &payload), &strengths);
        Self {
            numbers,
            payload,
            soft,
        }
    }

    /// The row with these values wrong, and so strong.
    fn wrong_at(&self, places: &[usize], strength: i32) -> Vec<i32> {
        let mut soft = self.soft.clone();
        turn(&mut soft, places, strength);
        soft
    }

    /// Both must read the payload from the row, with this noise count.
    fn expect(&self, soft: Vec<i32>, noise: usize, random: &mut Random) {
        let call = Decode::fitting(self.numbers, soft, random);
        let read = Outcome::of((0, 0, noise), self.payload.clone());
        assert_eq!(call.compared(), read, "{call:?}");
    }
}

#[test]
fn each_repeat_that_is_wrong_counts() {
    // Of the 512 code bits the first 192 are sent four times, the others three times.
    let mut random = Random::new(SEED);
    for a in [12, 40, 140] {
        for i in [0, 1, 100, 191, 192, 193, 400, 511] {
            let message = Message::of(random.numbers(a, 1728), 40, &mut random);
            let repeats: Vec<usize> = (i..1728).step_by(512).collect();
            assert_eq!(repeats.len(), if i < 192 { 4 } else { 3 });
            for set in 0..1 << repeats.len() {
                let mut wrong = repeats.clone();
                wrong.retain(|k| set >> (k / 512) & 1 == 1);
                message.expect(message.wrong_at(&wrong, 40), wrong.len(), &mut random);
            }
        }
    }
}

#[test]
fn wrong_sign_at_any_place_counts_one() {
    let mut random = Random::new(SEED + 1);
    for (a, e) in SOME_PAIRS {
        let message = Message::of(random.numbers(a, e), 40, &mut random);
        let mut read = 0;
        for k in 0..e as usize {
            for strength in [1, 40] {
                let soft = message.wrong_at(&[k], strength);
                let call = Decode::fitting(message.numbers, soft, &mut random);
                let outcome = call.compared();
                match outcome.number {
                    0 => assert_eq!(outcome, Outcome::of((0, 0, 1), message.payload.clone())),
                    _ => assert_eq!(outcome, call.refused(7, 0)),
                }
                read += u64::from(outcome.number == 0);
            }
        }
        // With K = E there is nothing that a wrong bit could be told by.
        assert_eq!(
            read,
            if a + 24 == e { 0 } else { 2 * e },
            "A = {a}, E = {e}"
        );
    }
}

#[test]
fn zeros_do_not_count() {
    let mut random = Random::new(SEED + 2);
    let mut pairs = accepted_pairs();
    pairs.retain(|(a, e)| 2 * (a + 24) <= *e);
    assert_eq!(pairs.len(), 19 + 73 + 3 * 129);
    for (a, e) in pairs {
        let message = Message::of(random.numbers(a, e), 127, &mut random);
        let [some, others] =
            [5, 14].map(|first| (first..e as usize).step_by(20).collect::<Vec<_>>());
        let zeros = message.wrong_at(&some, 0);
        message.expect(zeros, 0, &mut random);

        let mut soft = message.wrong_at(&[&some[..], &others].concat(), 1);
        message.expect(soft.clone(), some.len() + others.len(), &mut random);
        turn(&mut soft, &some, 0);
        message.expect(soft, others.len(), &mut random);
    }
}

#[test]
fn many_wrong_values_are_counted_one_by_one() {
    let mut random = Random::new(SEED + 3);
    for a in [12, 40, 84, 140] {
        for _ in 0..10 {
            let message = Message::of(random.numbers(a, 1728), 127, &mut random);
            let quarter: Vec<usize> = (0..432).map(|i| 4 * i + random.below(4)).collect();
            message.expect(message.wrong_at(&quarter, 1), 432, &mut random);
        }
        // All repeats of the first 512; the sums have the right signs nonetheless.
        let message = Message::of(random.numbers(a, 1728), 127, &mut random);
        let repeats: Vec<usize> = (512..1728).collect();
        message.expect(message.wrong_at(&repeats, 1), 1216, &mut random);
    }
}

#[test]
fn any_set_of_weak_wrong_values_is_counted() {
    let mut random = Random::new(SEED + 4);
    for (a, e) in [(12, 108), (12, 216), (40, 432), (140, 864), (40, 1728)] {
        for _ in 0..100 {
            let message = Message::of(random.numbers(a, e), 127, &mut random);
            let few = random.below(e as usize / 8);
            let mut wrong: Vec<usize> = (0..few).map(|_| random.below(e as usize)).collect();
            wrong.sort_unstable();
            wrong.dedup();
            message.expect(message.wrong_at(&wrong, 1), wrong.len(), &mut random);
        }
    }
}

#[test]
fn count_is_against_the_scrambled_bits() {
    let mut random = Random::new(SEED + 5);
    for (a, e) in SOME_PAIRS.into_iter().filter(|(a, e)| a + 24 < *e) {
        let single_bits = (0..16).map(|bit| Numbers {
            n_rnti: 1 << bit,
            ..random.common_numbers(a, e)
        });
        let numbers: Vec<Numbers> = extreme_numbers(a, e).chain(single_bits).collect();
        for numbers in numbers {
            let message = Message::of(numbers, 60, &mut random);
            message.expect(message.soft.clone(), 0, &mut random);
            let last = e as usize - 1;
            message.expect(message.wrong_at(&[0, last], 1), 2, &mut random);
        }
    }
}

#[test]
fn refusals_have_no_count() {
    // Each time the row is one with a count, but for what it is refused for.
    let mut random = Random::new(SEED + 6);
    for e in reference::CODED_LENGTHS {
        let message = Message::of(random.numbers(12, e), 60, &mut random);
        let soft = message.wrong_at(&[3, 50], 1);
        message.expect(soft.clone(), 2, &mut random);
        let call = Decode::fitting(message.numbers, soft, &mut random);
        let refused = |number, place, edit: fn(&mut Decode)| {
            let mut call = call.clone();
            edit(&mut call);
            call.expect(number, place);
        };
        refused(1, 0, |call| call.numbers.a = 11);
        refused(2, 0, |call| call.numbers.e += 1);
        refused(3, 0, |call| (call.numbers.a, call.numbers.e) = (85, 108));
        refused(4, 0, |call| call.soft.truncate(107));
        refused(5, 0, |call| call.out.push(7));
        refused(6, 60, |call| call.soft[60] = 128);
        // The decoder finds the same bits, and only the parity is against them.
        refused(7, 0, |call| call.numbers.rnti ^= 1);
        refused(7, 0, |call| call.numbers.rnti ^= 0x8000);
        refused(7, 0, |call| call.numbers.n_rnti ^= 1);
    }
}

/// Makes so many values of the candidate's stretch wrong, as weak as can be.
fn disturb(region: &mut Region, candidate: &Candidate, wrong: usize) {
    let stretch = &mut region.values[span(candidate)];
    let step = stretch.len() / wrong.max(1);
    let places: Vec<usize> = (0..wrong).map(|i| i * step + step / 2).collect();
    turn(stretch, &places, 1);
}

#[test]
fn search_counts_in_the_stretch_of_the_one_named() {
    let mut random = Random::new(SEED + 7);
    for place in places(CCES) {
        let sent = Candidate {
            a: 12,
            ..any_at(place, &mut random)
        };
        let (mut region, payload) = with_message(CCES, &sent, &mut random);
        let wrong = 2 * place.level - 1;
        disturb(&mut region, &sent, wrong);
        assert_eq!(decoded_noise(&region, &sent), Some(wrong));

        // Before it, noise elsewhere, and its own stretch under other numbers.
        let beside = places(CCES)
            .into_iter()
            .filter(|other| other.first_cce != place.first_cce);
        let mut list: Vec<Candidate> = beside
            .filter(|other| other.level == place.level)
            .take(20)
            .map(|other| Candidate {
                first_cce: other.first_cce as u32,
                ..sent
            })
            .collect();
        let (rnti, n_rnti) = (sent.rnti ^ 1, sent.n_rnti ^ 1);
        list.extend([Candidate { rnti, ..sent }, Candidate { n_rnti, ..sent }]);
        Search::of(&region, &list, &mut random).expect(8, 0);
        list.extend([sent, sent]);
        Search::of(&region, &list, &mut random).expect_noisy(list.len() - 2, &payload, wrong);
        Search::of(&region, &[sent], &mut random).expect_noisy(0, &payload, wrong);
    }
}

#[test]
fn messages_of_a_region_have_a_count_each() {
    let mut random = Random::new(SEED + 8);
    let mut region = Region::noise(32, &mut random);
    let list = [1, 2, 4, 8, 16].map(|level| at(level, level, 12, 0x4601));
    let wrong = [3, 0, 11, 5, 200];
    let payloads = list.map(|candidate| region.send(&candidate, &mut random));
    for (candidate, wrong) in list.iter().zip(wrong) {
        disturb(&mut region, candidate, wrong);
    }
    for (i, payload) in payloads.iter().enumerate() {
        Search::of(&region, &list[i..], &mut random).expect_noisy(0, payload, wrong[i]);
        let alone = [list[i]; 2];
        Search::of(&region, &alone, &mut random).expect_noisy(0, payload, wrong[i]);
    }
}

#[test]
fn level_named_says_how_far_is_counted() {
    // One message of level 16 that decodes at level 8 too, with wrong values in its second half alone.
    let mut random = Random::new(SEED + 9);
    for wrong in [1, 2, 50, 100] {
        let [eight, sixteen] = [8, 16].map(|level| at(16, level, 40, 0x4601));
        let (mut region, payload) = with_message(32, &sixteen, &mut random);
        let second_half = at(24, 8, 40, 0x4601);
        disturb(&mut region, &second_half, wrong);
        Search::of(&region, &[eight, sixteen], &mut random).expect_message(0, &payload);
        Search::of(&region, &[sixteen, eight], &mut random).expect_noisy(0, &payload, wrong);
    }
}

#[test]
fn refused_searches_have_no_count() {
    let mut random = Random::new(SEED + 10);
    let sent = at(4, 4, 12, 0x4601);
    let (mut region, payload) = with_message(8, &sent, &mut random);
    disturb(&mut region, &sent, 9);
    let search = Search::of(&region, &[sent], &mut random);
    search.expect_noisy(0, &payload, 9);
    let refused = |number, edit: fn(&mut Search)| {
        let mut search = search.clone();
        edit(&mut search);
        search.expect(number, 0);
    };
    refused(4, |search| search.region_len -= 1);
    refused(4, |search| search.list_len -= 1);
    refused(5, |search| search.out.push(7));
    refused(8, |search| search.region_len -= 108);
    refused(8, |search| search.list_len = 0);
    refused(8, |search| search.list[3] ^= 1);
    refused(8, |search| search.region[4 * 108] = 128);
}

//! The search of a region with a list of candidates: what it finds, and which of several it names.

use conformance::faults::BAD;
use conformance::searches::{
    FAR, any_at, assert_passed_over, at, candidate, decoded_noise, in_front, with_message,
};
use conformance::{Call, Outcome, Random, Region, Search, assert_threads_agree};
use reference::searching::{CANDIDATES, CCE, CCES, LEVELS, NUMBERS, Place, places};
use speltfeather::Candidate;

const SEED: u64 = 44;

#[test]
fn each_place_of_a_region_of_64() {
    let mut random = Random::new(SEED);
    let all = places(CCES);
    assert_eq!(all.len(), 124);
    for &place in &all {
        let candidate = any_at(place, &mut random);
        let (region, payload) = with_message(CCES, &candidate, &mut random);
        Search::of(&region, &[candidate], &mut random).expect_message(0, &payload);

        // Behind others of its level, with the same numbers.
        let elsewhere = all
            .iter()
            .filter(|other| other.level == place.level && other.first_cce != place.first_cce);
        let mut list: Vec<Candidate> = elsewhere
            .take(CANDIDATES - 1)
            .map(|other| Candidate {
                first_cce: other.first_cce as u32,
                ..candidate
            })
            .collect();
        list.push(candidate);
        Search::of(&region, &list, &mut random).expect_message(list.len() - 1, &payload);
    }
}

#[test]
fn each_place_of_smaller_regions() {
    let mut random = Random::new(SEED + 1);
    for cces in (1..=20).chain([31, 32, 33, 47, 48, 63]) {
        for place in places(cces) {
            let candidate = any_at(place, &mut random);
            let (region, payload) = with_message(cces, &candidate, &mut random);
            Search::of(&region, &[candidate], &mut random).expect_message(0, &payload);
        }
    }
}

#[test]
fn each_size_at_each_level_changes_its_bytes_alone() {
    let mut random = Random::new(SEED + 2);
    let mut sizes = 0;
    for level in LEVELS {
        for a in (12..=140).filter(|a| a + 24 <= CCE * level) {
            let mut candidate = in_front(level, &mut random);
            candidate.a = a as u32;
            let (region, payload) = with_message(level, &candidate, &mut random);
            // One of the largest size that is tried first must leave nothing behind.
            let largest = at(0, level as u32, if level == 1 { 84 } else { 140 }, 0);
            let list = [largest, candidate];
            Search::of(&region, &list, &mut random).expect_message(1, &payload);
            sizes += 1;
        }
    }
    assert_eq!(sizes, 589);
}

#[test]
fn extreme_numbers_are_found() {
    let mut random = Random::new(SEED + 3);
    for rnti in [0, 1, 0x7FFF, 0x8000, 0xFFFE, 0xFFFF] {
        for n_id in [0, 1, 0x7FFF, 0x8000, 0xFFFF] {
            for n_rnti in [0, 1, 0x7FFF, 0x8000, 0xFFFF] {
                let level = random.pick(&LEVELS);
                let candidate = Candidate {
                    rnti,
                    n_rnti,
                    ..in_front(level, &mut random)
                };
                let mut region = Region::noise(16, &mut random);
                region.n_id = n_id;
                let payload = region.send(&candidate, &mut random);
                Search::of(&region, &[candidate], &mut random).expect_message(0, &payload);
            }
        }
    }
}

#[test]
fn messages_of_another_identity_are_not_found() {
    let mut random = Random::new(SEED + 4);
    for bit in 0..16 {
        let mine = at(5, 1, 40, 0x4601);
        let (mut region, payload) = with_message(CCES, &mine, &mut random);
        let other = at(16, 16, 40, 0x4601);
        region.n_id ^= 1 << bit;
        region.send(&other, &mut random);
        region.n_id ^= 1 << bit;
        assert_passed_over(&region, mine, &payload, &[other], &mut random);
    }
}

#[test]
fn top_bit_of_n_rnti_falls_out() {
    let mut random = Random::new(SEED + 5);
    for level in LEVELS {
        for n_rnti in [0, 0x4601, 0x7FFF, 0x8000, 0xFFFF] {
            let sent = Candidate {
                n_rnti,
                ..in_front(level, &mut random)
            };
            let (region, payload) = with_message(16, &sent, &mut random);
            let alike = Candidate {
                n_rnti: n_rnti ^ 0x8000,
                ..sent
            };
            for list in [[alike, sent], [sent, alike]] {
                Search::of(&region, &list, &mut random).expect_message(0, &payload);
            }
        }
    }
}

#[test]
fn message_is_found_under_its_own_n_rnti() {
    // Candidates that differ in n_RNTI alone, the right one before and behind the other.
    let mut random = Random::new(SEED + 6);
    for level in LEVELS {
        for n_rnti in [0, 0x4601, 0x8000, 0xFFFF] {
            let sent = Candidate {
                n_rnti,
                ..in_front(level, &mut random)
            };
            let (region, payload) = with_message(16, &sent, &mut random);
            let single_bits = (0..15).map(|bit| n_rnti ^ 1 << bit);
            for n_rnti in single_bits.chain([n_rnti ^ 0x7FFF, sent.rnti]) {
                let other = Candidate { n_rnti, ..sent };
                let lists = [
                    vec![sent, other],
                    vec![other, sent],
                    vec![other, other, sent],
                ];
                for (list, right) in lists.iter().zip([0, 1, 2]) {
                    Search::of(&region, list, &mut random).expect_message(right, &payload);
                }
                Search::of(&region, &[other; 2], &mut random).expect(8, 0);
            }
        }
    }
}

#[test]
fn one_of_44_is_found_at_each_place_of_the_list() {
    let mut random = Random::new(SEED + 23);
    let all = places(CCES);
    for i in 0..CANDIDATES {
        let mut list: Vec<Candidate> = (0..CANDIDATES)
            .map(|_| any_at(random.pick(&all), &mut random))
            .collect();
        // Some of the others are no possible messages.
        for other in [1, 2, 3, 4].map(|k| (i + 7 * k) % CANDIDATES) {
            list[other].level += 16;
        }
        let (region, payload) = with_message(CCES, &list[i], &mut random);
        Search::of(&region, &list, &mut random).expect_message(i, &payload);
        let right = list[i];
        list[i].rnti ^= 1;
        Search::of(&region, &list, &mut random).expect(8, 0);
        list[i] = right;
        list[i].n_rnti ^= 1;
        Search::of(&region, &list, &mut random).expect(8, 0);
    }
}

#[test]
fn first_of_several_in_the_list_is_named() {
    let mut random = Random::new(SEED + 24);
    for _ in 0..60 {
        // Messages that share no CCE, one for each level.
        let firsts = [1, 2, 4, 8, 16];
        let sent: Vec<Candidate> = firsts
            .into_iter()
            .zip(LEVELS)
            .map(|(first_cce, level)| any_at(Place { first_cce, level }, &mut random))
            .collect();
        let mut region = Region::noise(32, &mut random);
        let payloads: Vec<Vec<u8>> = sent
            .iter()
            .map(|candidate| region.send(candidate, &mut random))
            .collect();
        let other = at(0, 1, 40, 0x4601);
        let mut list = Vec::new();
        let mut first = None;
        for _ in 0..random.between(1, 44) {
            let k = random.below(6);
            if k < 5 {
                first = first.or(Some((list.len(), k)));
            }
            list.push(*sent.get(k).unwrap_or(&other));
        }
        let search = Search::of(&region, &list, &mut random);
        match first {
            Some((i, k)) => search.expect_message(i, &payloads[k]),
            None => search.expect(8, 0),
        }
    }
}

#[test]
fn same_candidate_twice_is_named_once() {
    let mut random = Random::new(SEED + 25);
    let candidate = at(4, 4, 70, 0xFFFF);
    let (region, payload) = with_message(8, &candidate, &mut random);
    Search::of(&region, &[candidate; 44], &mut random).expect_message(0, &payload);
    let other = at(0, 4, 70, 0xFFFF);
    let list = [other, candidate, candidate, other];
    Search::of(&region, &list, &mut random).expect_message(1, &payload);
}

#[test]
fn message_inside_another_stretch_is_found_at_its_own() {
    // The CCEs of a level 2 candidate are in those of level 4, 8 and 16, which come first.
    let mut random = Random::new(SEED + 26);
    for first_cce in (16..32).step_by(2) {
        let candidate = at(first_cce, 2, 40, 0x4601);
        let (region, payload) = with_message(CCES, &candidate, &mut random);
        let around = |level| at(first_cce / level * level, level, 40, 0x4601);
        let inside = [
            at(first_cce, 1, 40, 0x4601),
            at(first_cce + 1, 1, 40, 0x4601),
        ];
        let others = [16, 8, 4].map(around);
        let list = [&others[..], &inside, &[candidate]].concat();
        Search::of(&region, &list, &mut random).expect_message(5, &payload);
        assert_passed_over(&region, candidate, &payload, &list[..5], &mut random);
    }
}

#[test]
fn levels_8_and_16_at_the_same_cce() {
    // Level 16 sends the bits of level 8 and goes on with them: both decode, and the first is named.
    let mut random = Random::new(SEED + 31);
    for a in 12..=140 {
        let rnti = random.u16().into();
        let [eight, sixteen] = [8, 16].map(|level| at(16, level, a, rnti));
        let (region, payload) = with_message(32, &sixteen, &mut random);
        for list in [[eight, sixteen], [sixteen, eight]] {
            Search::of(&region, &list, &mut random).expect_message(0, &payload);
            Search::of(&region, &list[1..], &mut random).expect_message(0, &payload);
        }
        // Behind one of level 8 nothing was sent.
        let (mut region, payload) = with_message(24, &eight, &mut random);
        region.values.resize(32 * CCE, 0);
        Search::of(&region, &[sixteen], &mut random).expect_message(0, &payload);
    }
}

#[test]
fn further_messages_are_found_behind_the_one_named() {
    let mut random = Random::new(SEED + 32);
    let mut region = Region::noise(CCES, &mut random);
    let all: Vec<Candidate> = (0..CANDIDATES)
        .map(|i| at(i as u32, 1, 12 + i as u32, 0x4601))
        .collect();
    let sent = [0, 1, 5, 20, 42, 43];
    let payloads = sent.map(|i: usize| region.send(&all[i], &mut random));
    let mut behind = 0;
    for (i, payload) in sent.into_iter().zip(&payloads) {
        Search::of(&region, &all[behind..], &mut random).expect_message(i - behind, payload);
        behind = i + 1;
    }
    Search::of(&region, &all[behind..], &mut random).expect(8, 0);
}

/// The list of a handset: candidates of all levels, two sizes, two RNTIs and three n_RNTIs: 0, the
/// first RNTI, and what scrambles as it does.
fn handset(cces: usize, random: &mut Random) -> Vec<Candidate> {
    let all = places(cces);
    let sizes = [random.between(12, 84) as u32, random.between(12, 84) as u32];
    let rntis = [random.u16(), random.u16()];
    let n_rntis = [0, rntis[0], rntis[0] ^ 0x8000];
    (0..random.between(1, 44))
        .map(|_| {
            let Place { first_cce, level } = random.pick(&all);
            let (a, rnti) = (random.pick(&sizes), random.pick(&rntis).into());
            let n_rnti = random.pick(&n_rntis).into();
            candidate([first_cce as u32, level as u32, a, rnti, n_rnti])
        })
        .collect()
}

/// A region with messages in noise for some candidates of a handset's list.
fn noisy_search(random: &mut Random) -> Search {
    let cces = random.pick(&[4, 16, 24, 48, 64]);
    let list = handset(cces, random);
    let mut region = Region::noise(cces, random);
    for _ in 0..random.between(0, 2) {
        let candidate = random.pick(&list);
        let rate = f64::from(candidate.a + 24) / f64::from(108 * candidate.level);
        let energy = random.pick(&[2.0, 2.5, 3.0, 6.0]);
        region.send_in_noise(&candidate, (energy * rate).sqrt().recip(), random);
    }
    Search::of(&region, &list, random)
}

#[test]
fn messages_in_noise_are_found_as_the_reference_finds_them() {
    let mut random = Random::new(SEED + 27);
    let (mut found, mut later, mut none) = (0, 0, 0);
    for _ in 0..3000 {
        let outcome = noisy_search(&mut random).compared();
        match (outcome.number, outcome.place) {
            (0, 0) => found += 1,
            (0, _) => later += 1,
            (8, 0) => none += 1,
            other => panic!("{other:?}"),
        }
    }
    assert!(
        found > 60 && later > 600 && none > 600,
        "{found} {later} {none}"
    );
}

/// A number at a border, or one that narrower numbers would take for it.
fn sharp(near: u32, random: &mut Random) -> u32 {
    match random.below(4) {
        0 => near.wrapping_add(random.pick(&FAR)),
        1 => random.pick(&[
            0,
            1,
            3,
            12,
            16,
            64,
            84,
            140,
            1 << 31,
            u32::MAX,
            u32::MAX - 15,
        ]),
        2 => near.wrapping_add(random.pick(&[1, 2, u32::MAX, u32::MAX - 1])),
        _ => random.u64() as u32,
    }
}

/// A search with messages and candidates for them, of which some miss being so by a little.
fn sharp_search(random: &mut Random) -> Search {
    let cces = random.pick(&[0, 1, 2, 3, 5, 8, 16, 17, 32, 33, 64, 65]);
    let mut region = Region::noise(cces, random);
    let mut sent = vec![in_front(1, random)];
    let all = places(cces);
    for _ in 0..if all.is_empty() { 0 } else { random.below(5) } {
        let candidate = any_at(random.pick(&all), random);
        region.send(&candidate, random);
        sent.push(candidate);
    }
    let count = random.pick(&[0, 1, 1, 2, 2, 3, 3, 4, 6, 10, 44, 45]);
    let mut candidates: Vec<Candidate> = (0..count).map(|_| random.pick(&sent)).collect();
    for candidate in &mut candidates {
        match random.below(8) {
            0 => candidate.first_cce = sharp(candidate.first_cce, random),
            1 => candidate.level = sharp(candidate.level, random),
            2 => candidate.a = sharp(candidate.a, random),
            3 => candidate.rnti = sharp(candidate.rnti, random),
            4 => candidate.n_rnti = sharp(candidate.n_rnti, random),
            _ => {}
        }
    }
    if random.below(3) == 0 && cces > 0 {
        let place = random.below(region.values.len());
        region.values[place] = random.pick(&BAD);
    }
    let mut search = Search::of(&region, &candidates, random);
    match random.below(16) {
        0 => search.region_len -= random.below(3).min(search.region_len),
        1 => search.list_len -= random.below(NUMBERS).min(search.list_len),
        2 => {
            let length = random.pick(&[0, 139, 141]);
            search.out = random.bytes(length);
        }
        _ => {}
    }
    search
}

#[test]
fn random_searches_are_answered_as_the_reference_does() {
    const CASES: usize = 30_000;
    let mut random = Random::new(SEED + 28);
    let mut given = [0; 9];
    let mut later = 0;
    for _ in 0..CASES {
        let outcome = sharp_search(&mut random).compared();
        given[usize::from(outcome.number)] += 1;
        later += usize::from(outcome.place > 0);
    }
    assert_eq!(
        given[0] + given[4] + given[5] + given[8],
        CASES,
        "{given:?}"
    );
    assert!([0, 4, 8].iter().all(|&i| given[i] > 4500), "{given:?}");
    assert!(given[5] > 600 && later > 600, "{given:?}, {later}");
}

#[test]
fn search_is_the_first_candidate_that_decode_accepts() {
    let mut random = Random::new(SEED + 29);
    let mut found = 0;
    for _ in 0..3000 {
        let cces = random.pick(&[8, 16, 32, 64]);
        let list = handset(cces, &mut random);
        let mut region = Region::noise(cces, &mut random);
        for _ in 0..random.between(0, 3) {
            region.send(&random.pick(&list), &mut random);
        }
        let search = Search::of(&region, &list, &mut random);
        let outcome = search.library();
        let decoded = list
            .iter()
            .map(|candidate| decoded_noise(&region, candidate));
        let first = decoded.enumerate().find_map(|(i, noise)| Some((i, noise?)));
        match first {
            Some((i, noise)) => {
                let found = (outcome.number, outcome.place, outcome.noise);
                assert_eq!(found, (0, i, noise), "{search:?}");
            }
            None => assert_eq!(outcome, search.refused(8, 0), "{search:?}"),
        }
        found += usize::from(first.is_some());
    }
    assert!((1000..3000).contains(&found), "{found}");
}

#[test]
fn nothing_is_kept_between_calls() {
    let mut random = Random::new(SEED + 30);
    let calls: Vec<Search> = (0..40).map(|_| noisy_search(&mut random)).collect();
    let first: Vec<Outcome> = calls.iter().map(Call::compared).collect();
    for round in 0..400 {
        let chosen = random.below(calls.len());
        let mut refused = calls[random.below(calls.len())].clone();
        refused.out.pop();
        assert_eq!(refused.library(), refused.refused(5, 0), "round {round}");
        assert_eq!(calls[chosen].library(), first[chosen], "round {round}");
    }
}

#[test]
fn threads_do_not_disturb_each_other() {
    assert_threads_agree(2_000, SEED, noisy_search);
}

//! What a search refuses, and the candidates that it passes over: each at its boundaries, with the
//! buffer untouched. Each time the message is there, and found without the fault.

use conformance::faults::BAD;
use conformance::searches::{
    FAR, any_at, assert_passed_over, at, in_front, is_decoded, with_message,
};
use conformance::{Call, Random, Region, Search};
use reference::parity;
use reference::searching::{BUFFER, CANDIDATES, CCE, CCES, LEVELS, NUMBERS, Place, places};
use speltfeather::Candidate;

const SEED: u64 = 108;

#[test]
fn other_levels() {
    let mut random = Random::new(SEED + 5);
    let others = [
        0,
        3,
        5,
        6,
        7,
        9,
        10,
        11,
        12,
        13,
        14,
        15,
        17,
        18,
        20,
        24,
        31,
        32,
        33,
        48,
        63,
        64,
        65,
        127,
        128,
        255,
        256,
        1 << 16,
        1 << 30,
        1 << 31,
        u32::MAX,
    ];
    for level in LEVELS {
        let candidate = in_front(level, &mut random);
        let (region, payload) = with_message(CCES, &candidate, &mut random);
        let negative = [1, 2, 3, 4, 8, 16, 32].map(|less| 0u32.wrapping_sub(less));
        let far = FAR.map(|far| far + level as u32);
        let levels = others.into_iter().chain(negative).chain(far);
        let list: Vec<Candidate> = levels
            .map(|level| Candidate { level, ..candidate })
            .collect();
        assert_passed_over(&region, candidate, &payload, &list, &mut random);
    }
}

#[test]
fn first_cce_that_is_no_multiple_of_the_level() {
    let mut random = Random::new(SEED + 6);
    let mut tried = 0;
    for level in LEVELS {
        for first_cce in (1..=CCES - level).filter(|first| first % level != 0) {
            let front = in_front(1, &mut random);
            let (mut region, payload) = with_message(CCES, &front, &mut random);
            let misplaced = any_at(Place { first_cce, level }, &mut random);
            region.send(&misplaced, &mut random);
            assert!(is_decoded(&region, &misplaced));
            assert_passed_over(&region, front, &payload, &[misplaced], &mut random);
            tried += 1;
        }
    }
    assert_eq!(tried, 31 + 45 + 49 + 45);
}

#[test]
fn candidates_that_reach_outside() {
    // The whole message stands behind the region's start, and only the region's end is in its way.
    let mut random = Random::new(SEED + 7);
    for Place { first_cce, level } in places(CCES) {
        let candidate = any_at(Place { first_cce, level }, &mut random);
        let (region, payload) = with_message(CCES + 1, &candidate, &mut random);
        let mut search = Search::of(&region, &[candidate], &mut random);
        let end = first_cce + level;
        for cces in [0, first_cce / 2, first_cce, end - level / 2, end - 1] {
            search.region_len = CCE * cces.min(end - 1);
            search.expect(8, 0);
        }
        search.region_len = CCE * end;
        search.expect_message(0, &payload);
    }
}

#[test]
fn first_places_behind_the_region() {
    let mut random = Random::new(SEED + 8);
    for level in LEVELS {
        for first_cce in [CCES, CCES + 16, CCES + 32] {
            let candidate = any_at(Place { first_cce, level }, &mut random);
            let (region, _) = with_message(CCES + 48, &candidate, &mut random);
            assert!(is_decoded(&region, &candidate));
            let mut search = Search::of(&region, &[candidate], &mut random);
            search.region_len = CCE * CCES;
            search.expect(8, 0);
        }
    }
}

#[test]
fn first_cces_that_wrap() {
    let mut random = Random::new(SEED + 9);
    for level in LEVELS {
        for first in [0, 16, 48] {
            let first_cce = first as usize;
            let candidate = any_at(Place { first_cce, level }, &mut random);
            let (region, payload) = with_message(CCES, &candidate, &mut random);
            let far = FAR.map(|far| far + first);
            let negative = [level as u32, 1, 2, 4, 8, 16, 32, 64].map(|n| 0u32.wrapping_sub(n));
            let firsts = far.into_iter().chain(negative);
            let list: Vec<Candidate> = firsts
                .map(|first_cce| Candidate {
                    first_cce,
                    ..candidate
                })
                .collect();
            assert_passed_over(&region, candidate, &payload, &list, &mut random);
        }
    }
    // Where the sum of both wraps to 0, and where both are as large as they can be.
    let candidate = in_front(16, &mut random);
    let (region, payload) = with_message(CCES, &candidate, &mut random);
    let list = [
        (u32::MAX - 15, 16),
        (1 << 31, 1 << 31),
        (u32::MAX, 1),
        (u32::MAX, u32::MAX),
        (0, u32::MAX),
        (u32::MAX, 0),
        (0, 0),
    ]
    .map(|(first_cce, level)| Candidate {
        first_cce,
        level,
        a: if level == 1 { 84 } else { candidate.a },
        ..candidate
    });
    assert_passed_over(&region, candidate, &payload, &list, &mut random);
}

#[test]
fn rntis_of_more_than_16_bits() {
    let mut random = Random::new(SEED + 10);
    for rnti in [0, 1, 0x4601, 0xFFFF] {
        for level in LEVELS {
            let mut candidate = in_front(level, &mut random);
            candidate.rnti = rnti;
            let (region, payload) = with_message(level, &candidate, &mut random);
            let far = [1, 2, 255, 256, 0x7FFF, 0x8000, 0xFFFF];
            let list = far.map(|high: u32| Candidate {
                rnti: high << 16 | rnti,
                ..candidate
            });
            assert_passed_over(&region, candidate, &payload, &list, &mut random);
        }
    }
}

#[test]
fn n_rntis_of_more_than_16_bits() {
    let mut random = Random::new(SEED + 32);
    for n_rnti in [0, 1, 0x4601, 0x7FFF, 0x8000, 0xFFFF] {
        for level in LEVELS {
            let mut candidate = in_front(level, &mut random);
            candidate.n_rnti = n_rnti;
            let (region, payload) = with_message(level, &candidate, &mut random);
            let far = [1, 2, 255, 256, 0x7FFF, 0x8000, 0xFFFF].map(|high: u32| high << 16);
            let list = far.map(|far| Candidate {
                n_rnti: far | n_rnti,
                ..candidate
            });
            assert_passed_over(&region, candidate, &payload, &list, &mut random);
            // One behind the other, before the one that is right.
            let list = [&list[..], &[candidate]].concat();
            Search::of(&region, &list, &mut random).expect_message(far.len(), &payload);
        }
    }
}

#[test]
fn payload_sizes_that_are_refused() {
    let mut random = Random::new(SEED + 11);
    for level in LEVELS {
        let candidate = in_front(level, &mut random);
        let (region, payload) = with_message(level, &candidate, &mut random);
        let outside = [0, 1, 11, 141, 142, 164, 255, u32::MAX - 23, u32::MAX];
        let far = FAR.map(|far| far + candidate.a);
        let list: Vec<Candidate> = outside
            .into_iter()
            .chain(far)
            .map(|a| Candidate { a, ..candidate })
            .collect();
        assert_passed_over(&region, candidate, &payload, &list, &mut random);
    }
}

#[test]
fn sizes_without_room_for_the_parity() {
    let mut random = Random::new(SEED + 12);
    let candidate = at(0, 1, 84, 0x4601);
    let (region, payload) = with_message(1, &candidate, &mut random);
    let list: Vec<Candidate> = (85..=140).map(|a| Candidate { a, ..candidate }).collect();
    assert_passed_over(&region, candidate, &payload, &list, &mut random);
}

#[test]
fn other_sizes_rntis_and_n_rntis() {
    let mut random = Random::new(SEED + 13);
    for level in LEVELS {
        let mut candidate = in_front(level, &mut random);
        candidate.a = 40;
        let (region, payload) = with_message(CCES, &candidate, &mut random);
        let rntis = (0..16).map(|bit| Candidate {
            rnti: candidate.rnti ^ 1 << bit,
            ..candidate
        });
        let n_rntis = (0..15).map(|bit| Candidate {
            n_rnti: candidate.n_rnti ^ 1 << bit,
            ..candidate
        });
        let sizes = [12, 39, 41, 64, 84].map(|a| Candidate { a, ..candidate });
        let others: Vec<Candidate> = rntis.chain(n_rntis).chain(sizes).collect();
        assert_passed_over(&region, candidate, &payload, &others, &mut random);
    }
}

#[test]
fn other_levels_at_the_same_cce() {
    let mut random = Random::new(SEED + 31);
    for sent in LEVELS {
        let mut candidate = in_front(sent, &mut random);
        candidate.a = 40;
        let (mut region, payload) = with_message(sent, &candidate, &mut random);
        region.values.resize(CCE * 16, 0);
        for level in LEVELS.into_iter().filter(|&level| level != sent) {
            let other = Candidate {
                level: level as u32,
                ..candidate
            };
            let search = Search::of(&region, &[other], &mut random);
            // Level 16 sends the bits of level 8 and goes on with them.
            match (sent, level) {
                (8, 16) | (16, 8) => search.expect_message(0, &payload),
                _ => search.expect(8, 0),
            }
        }
    }
}

#[test]
fn bad_value_bars_the_candidates_that_it_is_part_of() {
    let mut random = Random::new(SEED + 14);
    for bad in BAD {
        for place in [0, 1, 53, 106, 107] {
            // A message in CCE 1, and a value that no decoder takes in CCE 0.
            let candidate = at(1, 1, 40, 0x4601);
            let (mut region, payload) = with_message(2, &candidate, &mut random);
            region.values[place] = bad;
            let both = Candidate {
                first_cce: 0,
                level: 2,
                ..candidate
            };
            let front = Candidate {
                first_cce: 0,
                ..candidate
            };
            assert_passed_over(&region, candidate, &payload, &[both, front], &mut random);
        }
    }
}

#[test]
fn bad_value_in_a_message_and_beside_it() {
    let mut random = Random::new(SEED + 15);
    for level in LEVELS {
        let place = Place {
            first_cce: 16,
            level,
        };
        let candidate = any_at(place, &mut random);
        let (region, payload) = with_message(48, &candidate, &mut random);
        let (start, end) = (CCE * 16, CCE * (16 + level));
        for bad in BAD {
            for (at, is_part) in [
                (start - 1, false),
                (start, true),
                (start + 1, true),
                ((start + end) / 2, true),
                (end - 1, true),
                (end, false),
                (0, false),
                (CCE * 48 - 1, false),
            ] {
                let mut other = region.clone();
                other.values[at] = bad;
                let search = Search::of(&other, &[candidate], &mut random);
                match is_part {
                    true => search.expect(8, 0),
                    false => search.expect_message(0, &payload),
                }
            }
        }
    }
}

#[test]
fn values_that_are_right_in_their_low_bits() {
    let mut random = Random::new(SEED + 16);
    for level in LEVELS {
        let candidate = in_front(level, &mut random);
        let (region, payload) = with_message(level, &candidate, &mut random);
        Search::of(&region, &[candidate], &mut random).expect_message(0, &payload);
        for far in [256, -256, 1 << 16, 1 << 24, i32::MIN] {
            let mut other = region.clone();
            let place = random.below(CCE * level);
            other.values[place] = other.values[place].wrapping_add(far);
            Search::of(&other, &[candidate], &mut random).expect(8, 0);
        }
    }
}

#[test]
fn values_that_say_nothing() {
    // All bits are decided as 0, and under an RNTI to suit, some sizes have a parity that matches.
    let mut random = Random::new(SEED + 17);
    let mut region = Region::noise(16, &mut random);
    region.values.fill(0);
    let mut found = 0;
    for level in LEVELS {
        for a in 12..=140 {
            let rnti = parity::parity(&vec![0; a]) as u32 & 0xFFFF;
            let list = [rnti ^ 1, rnti].map(|rnti| at(0, level as u32, a as u32, rnti));
            let outcome = Search::of(&region, &list, &mut random).compared();
            found += usize::from(outcome.number == 0);
        }
    }
    println!("{found} sizes are taken for a message of zeros");
}

#[test]
fn lengths_of_the_region() {
    let mut random = Random::new(SEED + 18);
    let candidate = at(0, 1, 40, 0x4601);
    let (region, payload) = with_message(2 * CCES, &candidate, &mut random);
    let mut search = Search::of(&region, &[candidate], &mut random);
    for cces in 1..=CCES {
        search.region_len = CCE * cces;
        search.expect_message(0, &payload);
        for length in [1, 2, 54, CCE - 2, CCE - 1] {
            search.region_len = CCE * cces - length;
            search.expect(4, 0);
        }
    }
    search.region_len = 0;
    search.expect(8, 0);
    for cces in CCES + 1..=2 * CCES {
        search.region_len = CCE * cces;
        search.expect(4, 0);
    }
    for length in [1, 107, CCE * CCES + 1, CCE * CCES + 107] {
        search.region_len = length;
        search.expect(4, 0);
    }
}

#[test]
fn lengths_of_the_list() {
    let mut random = Random::new(SEED + 19);
    let candidate = at(0, 2, 40, 0x4601);
    let (region, payload) = with_message(2, &candidate, &mut random);
    let mut search = Search::of(&region, &[candidate; 100], &mut random);
    for count in 0..=100 {
        search.list_len = NUMBERS * count;
        match count {
            0 => search.expect(8, 0),
            1..=CANDIDATES => search.expect_message(0, &payload),
            _ => search.expect(4, 0),
        }
        for more in (1..NUMBERS).filter(|_| count < 100) {
            search.list_len = NUMBERS * count + more;
            search.expect(4, 0);
        }
    }
}

#[test]
fn candidates_behind_the_list_are_not_tried() {
    let mut random = Random::new(SEED + 20);
    let candidate = at(0, 2, 40, 0x4601);
    let (region, payload) = with_message(2, &candidate, &mut random);
    let other = Candidate {
        rnti: 1,
        ..candidate
    };
    for count in 0..CANDIDATES {
        let mut list = vec![other; count];
        list.push(candidate);
        let mut search = Search::of(&region, &list, &mut random);
        search.expect_message(count, &payload);
        search.list_len = NUMBERS * count;
        search.expect(8, 0);
    }
}

#[test]
fn lengths_of_the_buffer() {
    let mut random = Random::new(SEED + 21);
    let candidate = at(0, 1, 40, 0x4601);
    let (region, _) = with_message(1, &candidate, &mut random);
    let other = Candidate {
        rnti: 1,
        ..candidate
    };
    for length in [0, 1, 12, 40, 64, 108, 139, 141, 280, 396, 65536 + 140] {
        for list in [&[candidate][..], &[other], &[]] {
            let mut search = Search::of(&region, list, &mut random);
            search.out = random.bytes(length);
            search.expect(5, 0);
            search.region_len = 0;
            search.expect(5, 0);
        }
    }
}

#[test]
fn first_that_applies_is_given() {
    let mut random = Random::new(SEED + 22);
    let candidate = at(0, 1, 40, 0x4601);
    let (region, payload) = with_message(CCES + 1, &candidate, &mut random);
    for region_len in [0, 107, 108, CCE * CCES, CCE * CCES + 1, CCE * (CCES + 1)] {
        for list_len in [
            0,
            1,
            4,
            5,
            9,
            4 * 44,
            5 * 44 - 1,
            5 * 44,
            5 * 44 + 1,
            5 * 45,
        ] {
            for out_len in [0, BUFFER - 1, BUFFER, BUFFER + 1] {
                let mut search = Search::of(&region, &[candidate; 45], &mut random);
                search.region_len = region_len;
                search.list_len = list_len;
                search.out = random.bytes(out_len);
                let region_fits = [0, 108, CCE * CCES].contains(&region_len);
                let list_fits = [0, 5, 5 * 44].contains(&list_len);
                if !(region_fits && list_fits) {
                    search.expect(4, 0);
                } else if out_len != BUFFER {
                    search.expect(5, 0);
                } else if region_len == 0 || list_len == 0 {
                    search.expect(8, 0);
                } else {
                    search.expect_message(0, &payload);
                }
            }
        }
    }
}

//! Candidates one after the other. A search keeps the code of a candidate for the next one of the same
//! sizes, and the scrambling sequence, as far as it was made, for the next one of the same n_RNTI:
//! whatever came before, each candidate must be read as if it were alone.

use conformance::faults::BAD;
use conformance::searches::{N_RNTI, at, with_message};
use conformance::{Call, Random, Region, Search};
use reference::searching::{CANDIDATES, CCE, LEVELS};
use speltfeather::Candidate;

const SEED: u64 = 1728;

/// CCEs of the regions. Messages lie in the first 16 of them, noise in the others.
const CCES: usize = 32;

/// The sizes that set a code.
#[derive(Clone, Copy, PartialEq)]
struct Sizes {
    level: usize,
    a: u32,
}

/// Sizes at each level, so that many pairs share the level or A alone.
fn sizes() -> Vec<Sizes> {
    let of_level = |level| {
        let fitting = [12, 40, 41, 84, 85, 140].into_iter();
        let fitting = fitting.filter(move |a| *a as usize + 24 <= CCE * level);
        fitting.map(move |a| Sizes { level, a })
    };
    LEVELS.into_iter().flat_map(of_level).collect()
}

fn pairs() -> impl Iterator<Item = (Sizes, Sizes)> {
    sizes()
        .into_iter()
        .flat_map(|x| sizes().into_iter().map(move |y| (x, y)))
}

/// A candidate of these sizes in the CCEs of noise.
fn in_noise(Sizes { level, a }: Sizes) -> Candidate {
    at(16, level as u32, a, 0x4601)
}

/// A candidate of these sizes in front.
fn in_front(sizes: Sizes) -> Candidate {
    Candidate {
        first_cce: 0,
        ..in_noise(sizes)
    }
}

/// The last candidate of the list alone has a message, and is found.
fn assert_last_is_found(list: &[Candidate], random: &mut Random) {
    let last = list.len() - 1;
    let (region, payload) = with_message(CCES, &list[last], random);
    Search::of(&region, list, random).expect_message(last, &payload);
}

#[test]
fn each_pair_of_sizes() {
    let mut random = Random::new(SEED);
    for (x, y) in pairs() {
        assert_last_is_found(&[in_noise(x), in_front(y)], &mut random);
    }
    let alike = |f: fn(Sizes, Sizes) -> bool| pairs().filter(|&(x, y)| f(x, y)).count();
    assert_eq!(alike(|x, y| x.a == y.a && x.level != y.level), 104);
    assert_eq!(alike(|x, y| x.a != y.a && x.level == y.level), 132);
}

#[test]
fn sizes_that_come_again() {
    let mut random = Random::new(SEED + 1);
    for (x, y) in pairs() {
        let [u, v] = [x, y].map(in_noise);
        for before in [&[v, u][..], &[v, u, u], &[v, v, u], &[v, u, v]] {
            assert_last_is_found(&[before, &[in_front(y)]].concat(), &mut random);
        }
    }
}

/// The candidate, made one that is not tried.
fn barred(candidate: Candidate) -> [Candidate; 7] {
    let n_rnti = |n_rnti| Candidate {
        n_rnti,
        ..candidate
    };
    [
        Candidate {
            first_cce: CCES as u32,
            ..candidate
        },
        Candidate {
            first_cce: candidate.first_cce + 1,
            level: 2 * candidate.level,
            ..candidate
        },
        Candidate {
            rnti: 1 << 16 | candidate.rnti,
            ..candidate
        },
        Candidate {
            a: 141 + candidate.a,
            ..candidate
        },
        n_rnti(1 << 16 | candidate.n_rnti),
        n_rnti(1 << 31 | candidate.n_rnti ^ 1),
        n_rnti(u32::MAX),
    ]
}

#[test]
fn candidates_between_that_are_not_tried() {
    let mut random = Random::new(SEED + 2);
    for (x, y) in pairs() {
        for other in barred(in_noise(y)) {
            // Of the same n_RNTI as the last, or of another.
            let first = Candidate {
                n_rnti: random.pick(&[N_RNTI, 0]),
                ..in_noise(x)
            };
            assert_last_is_found(&[first, other, in_front(y)], &mut random);
        }
    }
}

#[test]
fn candidates_between_with_a_bad_value() {
    let mut random = Random::new(SEED + 3);
    for (x, y) in pairs() {
        let (mut region, payload) = with_message(CCES + 16, &in_front(y), &mut random);
        region.values[CCE * 32 + random.below(CCE * y.level)] = random.pick(&BAD);
        for n_rnti in [N_RNTI, 0] {
            let behind = Candidate {
                first_cce: 32,
                n_rnti,
                ..in_noise(y)
            };
            for list in [
                &[in_noise(x), behind, in_front(y)][..],
                &[behind, in_noise(x), behind, in_front(y)],
            ] {
                Search::of(&region, list, &mut random).expect_message(list.len() - 1, &payload);
            }
        }
    }
}

/// The orders of so many things, each as their places.
fn orders(count: usize) -> Vec<Vec<usize>> {
    if count == 0 {
        return vec![vec![]];
    }
    let with_last = |order: Vec<usize>| {
        (0..count).map(move |place| {
            let mut longer = order.clone();
            longer.insert(place, count - 1);
            longer
        })
    };
    orders(count - 1).into_iter().flat_map(with_last).collect()
}

#[test]
fn levels_in_each_order() {
    let mut random = Random::new(SEED + 4);
    let all = orders(LEVELS.len());
    assert_eq!(all.len(), 120);
    for order in all {
        for sizes in [[40; 5], [12, 70, 84, 12, 140], [84, 140, 41, 40, 12]] {
            // They share no CCE: level L lies at CCE L.
            let one = |&i: &usize| {
                let level = LEVELS[i] as u32;
                at(level, level, sizes[i], 0x4601)
            };
            let list: Vec<Candidate> = order.iter().map(one).collect();
            for (i, candidate) in list.iter().enumerate() {
                let (region, payload) = with_message(CCES, candidate, &mut random);
                Search::of(&region, &list, &mut random).expect_message(i, &payload);
            }
        }
    }
}

/// n_RNTIs, of which the last two scramble alike.
const N_RNTIS: [u32; 3] = [0, 0x4601, 0xC601];

/// Candidates of one size and these levels in the CCEs of noise, with these n_RNTIs.
fn of_levels(levels: &[usize], n_rntis: &[u32]) -> Vec<Candidate> {
    let of_level = |&level| {
        let candidate = in_noise(Sizes { level, a: 40 });
        n_rntis.iter().map(move |&n_rnti| Candidate {
            n_rnti,
            ..candidate
        })
    };
    levels.iter().flat_map(of_level).collect()
}

/// Every list of so many of these candidates, of which the last is put in front and has the message.
fn assert_lists(candidates: &[Candidate], length: u32, random: &mut Random) {
    let count = candidates.len();
    for number in 0..count.pow(length) {
        let digits = (0..length).map(|i| number / count.pow(i) % count);
        let mut list: Vec<Candidate> = digits.map(|digit| candidates[digit]).collect();
        list[length as usize - 1].first_cce = 0;
        assert_last_is_found(&list, random);
    }
}

#[test]
fn lists_of_three_with_several_n_rntis() {
    let mut random = Random::new(SEED + 6);
    let candidates = of_levels(&LEVELS, &N_RNTIS);
    assert_lists(&candidates, 3, &mut random);
}

#[test]
fn lists_of_four_with_two_n_rntis() {
    // Back to the first n_RNTI, at a level above or below how far its sequence was made before.
    let mut random = Random::new(SEED + 7);
    let candidates = of_levels(&[1, 4, 16], &N_RNTIS[..2]);
    assert_lists(&candidates, 4, &mut random);
}

#[test]
fn n_rntis_that_take_turns() {
    let mut random = Random::new(SEED + 8);
    let n_rntis = [0x4601, 0, 0xFFFF];
    for levels in [[1, 2, 4, 8, 16], [16, 8, 4, 2, 1], [1, 16, 2, 8, 4]] {
        // Two or three of them, each for one candidate or for several in a row.
        for (few, in_a_row) in [(2, 1), (3, 1), (2, 3), (3, 5), (2, 22)] {
            let one = |i: usize| Candidate {
                n_rnti: n_rntis[i / in_a_row % few],
                ..in_noise(Sizes {
                    level: levels[i % 5],
                    a: 40,
                })
            };
            for count in 1..=CANDIDATES {
                let mut list: Vec<Candidate> = (0..count).map(one).collect();
                list[count - 1].first_cce = 0;
                assert_last_is_found(&list, &mut random);
            }
        }
    }
}

#[test]
fn full_lists_of_a_few_sizes() {
    let mut random = Random::new(SEED + 5);
    let all = sizes();
    for _ in 0..200 {
        let few = [0; 3].map(|_| random.pick(&all));
        let mut list: Vec<Candidate> = (0..CANDIDATES)
            .map(|_| Candidate {
                n_rnti: random.pick(&N_RNTIS),
                ..in_noise(random.pick(&few))
            })
            .collect();
        list[CANDIDATES - 1].first_cce = 0;
        assert_last_is_found(&list, &mut random);
        let region = Region::noise(CCES, &mut random);
        Search::of(&region, &list, &mut random).expect(8, 0);
    }
}

//! The decoder: case T10 (docs/SOURCES.md) and rows worked by hand, the rule of halves, and messages read back.

use reference::decoding::{CERTAIN, decided, descrambled, f, g, gathered};
use reference::{
    CODED_LENGTHS, Kind, Layout, Numbers, decode, encode, layout, loopback, noise, noiseless,
};
use reference::{published, scrambling, transform};

fn accepted(a: u64, e: u64) -> Layout {
    layout(a, e).unwrap_or_else(|| panic!("A = {a}, E = {e} is refused"))
}

/// Numbers that look random; the same at each run.
fn mixed(count: usize, seed: u64) -> impl Iterator<Item = u64> {
    let mut state = seed;
    (0..count).map(move |_| {
        state = state.wrapping_mul(0x5851_F42D_4C95_7F2D).wrapping_add(1);
        state >> 33
    })
}

fn bits(count: usize, seed: u64) -> Vec<u8> {
    mixed(count, seed).map(|x| (x % 2) as u8).collect()
}

#[test]
fn t10() {
    assert_eq!(f(3, -5), -3);
    assert_eq!(f(0, -5), 0);
    assert_eq!(g(0, 3, -5), -2);
    assert_eq!(g(1, 3, -5), -8);
}

#[test]
fn f_by_all_signs() {
    let cases = [
        (3, 5, 3),
        (5, 3, 3),
        (-3, 5, -3),
        (-5, 3, -3),
        (5, -3, -3),
        (-3, -5, 3),
        (-5, -3, 3),
        (4, -4, -4),
        (-5, 0, 0),
        (0, 0, 0),
        (CERTAIN, -1, -1),
    ];
    for (a, b, expected) in cases {
        assert_eq!(f(a, b), expected, "f({a}, {b})");
    }
}

#[test]
fn rows_of_two() {
    // f = -3, then g = -5 - 3.
    assert_eq!(decided(&[0, 1], vec![3, -5]).u, [1, 1]);
    // The first is frozen: g = -5 + 3.
    assert_eq!(decided(&[1], vec![3, -5]).u, [0, 1]);
    // f = 0 decides 0.
    assert_eq!(decided(&[0, 1], vec![0, -5]).u, [0, 1]);
    // g = 0 decides 0.
    assert_eq!(decided(&[1], vec![5, -5]).u, [0, 0]);
    // f = -4, then g = -4 - 5 or 4 + 5; with its operands exchanged, 5 + 4 or -5 - 4.
    assert_eq!(decided(&[0, 1], vec![5, -4]).u, [1, 1]);
    assert_eq!(decided(&[0, 1], vec![-5, 4]).u, [1, 0]);
    assert_eq!(decided(&[], vec![-5, -4]).u, [0, 0]);
}

#[test]
fn values_that_are_decided_on() {
    assert_eq!(decided(&[0, 1], vec![3, -5]).on, [-3, -8]);
    assert_eq!(decided(&[1], vec![3, -5]).on, [-3, -2]);
    assert_eq!(decided(&[], vec![2, -7, 4, 1]).on, [-1, 1, -6, 0]);
}

#[test]
fn rows_of_four() {
    // f gives (2, -1); position 0 is frozen, position 1 sees -1 + 2. g gives (6, -6): f = -6, g = -12.
    assert_eq!(decided(&[1, 2, 3], vec![2, -7, 4, 1]).u, [0, 0, 1, 1]);
    // f(2, -1) = -1, g = -1 - 2; coded again (0, 1). g gives (6, 8): f = 6, g = 14.
    assert_eq!(decided(&[0, 1, 2, 3], vec![2, -7, 4, 1]).u, [1, 1, 0, 0]);
    // f gives (-3, -1): f = 1, g = -1 - 3; coded again (1, 1). g gives (8, -5): f = -5, g = -5 - 8.
    assert_eq!(decided(&[0, 1, 2, 3], vec![-5, 1, 3, -4]).u, [0, 1, 1, 1]);
    // The first half is frozen: g gives (-2, -3), f = 2, g = -3 - 2.
    assert_eq!(decided(&[2, 3], vec![-5, 1, 3, -4]).u, [0, 0, 0, 1]);
}

/// The rule as docs/SOURCES.md's document 01 has it: each half is decoded by the same rule.
fn by_halves(row: &[i64], first: usize, chosen: &[usize]) -> Vec<u8> {
    if let [value] = row {
        return vec![u8::from(chosen.contains(&first) && *value < 0)];
    }
    let (a, b) = row.split_at(row.len() / 2);
    let upper: Vec<i64> = a.iter().zip(b).map(|(&a, &b)| f(a, b)).collect();
    let mut u = by_halves(&upper, first, chosen);
    let v = transform::transform(&u);
    let lower: Vec<i64> = (0..a.len()).map(|i| g(v[i], a[i], b[i])).collect();
    u.extend(by_halves(&lower, first + a.len(), chosen));
    u
}

#[test]
fn position_by_position_is_half_by_half() {
    for n in 0..=9 {
        for seed in 0..20 {
            let length = 1 << n;
            let span = [3, 5, 255, 2_000_001][seed as usize % 4];
            let row: Vec<i64> = mixed(length, seed)
                .map(|x| (x % span) as i64 - (span / 2) as i64)
                .collect();
            let chosen: Vec<usize> = mixed(length, 99 + seed)
                .enumerate()
                .filter(|(_, x)| x % 3 > 0)
                .map(|(i, _)| i)
                .collect();
            let expected = by_halves(&row, 0, &chosen);
            assert_eq!(decided(&chosen, row).u, expected, "n = {n}, seed {seed}");
        }
    }
}

#[test]
fn values_are_negated_where_the_sequence_is_1() {
    let values = descrambled(&[5; 432], 1007, 0x4601);
    for (value, c) in values.iter().zip(scrambling::gold(1007, 0x4601, 432)) {
        assert_eq!(*value, if c == 1 { -5 } else { 5 });
    }
}

/// The values of the code positions for soft values 1, 2, 3, ...
fn numbered(a: u64, e: u64) -> (Kind, Vec<i64>) {
    let code = accepted(a, e);
    let values: Vec<i64> = (1..=e as i64).collect();
    (code.kind, gathered(&code, &values))
}

#[test]
fn t1_unsent_positions_are_0() {
    let (kind, d) = numbered(12, 108);
    assert_eq!((kind, d.len()), (Kind::Puncturing, 128));
    // Blocks of 4: y_0.. are code bits 0 to 11, 16 to 19, 12 to 15 and, for y_20, 20.
    assert_eq!(d[..12], [0; 12]);
    assert_eq!(d[16..20], [0; 4]);
    assert_eq!(d[12..16], [0; 4]);
    assert_eq!(d[20], 1);
    assert_eq!(d[127], 108);
    assert_eq!(d.iter().filter(|&&value| value == 0).count(), 20);
}

#[test]
fn t3_shortened_positions_are_certain() {
    let (kind, d) = numbered(24, 108);
    assert_eq!((kind, d.len()), (Kind::Shortening, 128));
    assert_eq!(d[108..], [1_048_576; 20]);
    assert_eq!(d[..4], [1, 2, 3, 4]);
    // T9: y_12 is code bit 16 and y_16 is code bit 12.
    assert_eq!((d[16], d[12]), (13, 17));
    assert!(d[..108].iter().all(|value| (1..=108).contains(value)));
}

#[test]
fn repeats_are_added() {
    // E = 864 sends y_0 to y_351 twice.
    let (kind, d) = numbered(40, 864);
    assert_eq!((kind, d.len()), (Kind::Repetition, 512));
    assert_eq!(d[0], 1 + 513);
    assert_eq!(d[511], 512);
    // Block 22 of 16 is code block 15 and the first that comes once; block 21 is code block 22.
    assert_eq!(d[15 * 16], 353);
    assert_eq!(d[22 * 16], 337 + 849);
    // E = 1728 sends y_0 to y_191 four times, the rest three times.
    let (_, d) = numbered(40, 1728);
    assert_eq!(d[0], 4 + 512 * (1 + 2 + 3));
    assert_eq!(d[511], 3 * 512 + 512 * (1 + 2));
    // Block 12 of 16 is code block 10 and the first that comes three times.
    assert_eq!(d[10 * 16], 3 * 193 + 512 * (1 + 2));
}

#[test]
fn messages_are_read_back() {
    let mut read = 0;
    for e in CODED_LENGTHS {
        for a in [12, 23, 24, 40, 70, 71, 84, 140] {
            if a + 24 > e {
                continue;
            }
            let ends = [0, 0xFFFF].map(|number| [number; 3]);
            let others = [[0x4601, 500, 0], [0x4601, 500, 0x8123]];
            for ([rnti, n_id, n_rnti], seed) in ends.into_iter().chain(others).zip(1..) {
                let payload = bits(a as usize, seed);
                let strengths: Vec<i32> = mixed(e as usize, seed ^ a)
                    .map(|x| (1 + x % 127) as i32)
                    .collect();
                let mut out = vec![9; a as usize];
                let numbers = Numbers {
                    a,
                    e,
                    rnti,
                    n_id,
                    n_rnti,
                };
                let answer = loopback(&numbers, &payload, &strengths, &mut out);
                assert_eq!(answer, (0, 0, 0), "A = {a}, E = {e}");
                assert_eq!(out, payload, "A = {a}, E = {e}");
                read += 1;
            }
        }
    }
    assert_eq!(read, 4 * (7 + 4 * 8));
}

#[test]
fn hardware_word_is_read() {
    let code = published::hardware_layout();
    let word = published::hardware_code_word();
    let sent = reference::rate_matching::matched(&code, &word);
    let numbers = Numbers {
        n_id: 7,
        n_rnti: 0x4601,
        ..Numbers::sized(78, 108)
    };
    let soft = noiseless(&scrambling::scrambled(&sent, 7, 0x4601), &[1; 108]);
    let mut out = [9; 78];
    assert_eq!(decode(&numbers, &soft, &mut out), (0, 0, 0));
    assert_eq!(
        Some(out.to_vec()),
        published::hardware_payload(),
        "the payload by the inverse transform"
    );
}

/// The numbers of the recorded message.
const RECORDED: Numbers = Numbers {
    a: 37,
    e: 432,
    rnti: published::SI_RNTI,
    n_id: 1,
    n_rnti: 0,
};

/// The recorded message, coded, as soft values of one strength.
fn recorded() -> Vec<i32> {
    let payload = published::recorded_payload();
    let mut coded = vec![0; 432];
    let answer = encode(&RECORDED, &payload, &mut coded);
    assert_eq!(answer, (0, 0));
    noiseless(&coded, &[60; 432])
}

#[test]
fn errors_are_corrected() {
    let mut soft = recorded();
    for k in (4..432).step_by(9) {
        soft[k] = -soft[k] / 3;
    }
    for k in (0..432).step_by(5) {
        soft[k] = 0;
    }
    let mut out = [9; 37];
    // 48 were turned, and of these the 9 at 40, 85, .. then made 0.
    assert_eq!(decode(&RECORDED, &soft, &mut out), (0, 0, 48 - 9));
    assert_eq!(out.to_vec(), published::recorded_payload());
}

#[test]
fn wrong_signs_are_counted_and_zeros_are_not() {
    assert_eq!(noise(&[], &[]), 0);
    assert_eq!(noise(&[0, 1], &[1, -1]), 0);
    assert_eq!(noise(&[0, 1], &[127, -127]), 0);
    assert_eq!(noise(&[0, 1], &[0, 0]), 0);
    assert_eq!(noise(&[0, 1], &[-1, -1]), 1);
    assert_eq!(noise(&[0, 1], &[1, 1]), 1);
    assert_eq!(noise(&[0, 1], &[-127, 127]), 2);
    assert_eq!(noise(&[0, 0, 1, 1], &[-3, 0, 5, -7]), 2);
}

#[test]
fn each_repeat_that_is_wrong_counts() {
    // E = 1728 sends code bit y_i at i, i + 512 and i + 1024, and below 192 at i + 1536 too.
    let numbers = Numbers {
        rnti: 0x4601,
        n_id: 500,
        n_rnti: 0x1234,
        ..Numbers::sized(40, 1728)
    };
    let payload = bits(40, 3);
    let mut coded = vec![0; 1728];
    assert_eq!(encode(&numbers, &payload, &mut coded), (0, 0));
    let mut soft = noiseless(&coded, &[60; 1728]);
    for (k, wrong) in [7, 7 + 512, 7 + 1536, 300, 300 + 1024].into_iter().zip(1..) {
        soft[k] = -soft[k];
        let mut out = [9; 40];
        assert_eq!(decode(&numbers, &soft, &mut out), (0, 0, wrong));
        assert_eq!(out.to_vec(), payload);
    }
    soft[7] = 0;
    assert_eq!(decode(&numbers, &soft, &mut [9; 40]), (0, 0, 4));
    // Another RNTI: nothing is accepted, so that nothing is counted.
    let other = Numbers { rnti: 1, ..numbers };
    assert_eq!(decode(&other, &soft, &mut [9; 40]), (7, 0, 0));
}

#[test]
fn other_numbers_do_not_match() {
    let soft = recorded();
    let answer = |numbers: Numbers| {
        let mut out = [9; 37];
        let answer = decode(&numbers, &soft, &mut out);
        assert_eq!(answer.0 == 7, out == [9; 37]);
        answer
    };
    for other in (0..16).map(|bit| 1 << bit) {
        let (rnti, n_id, n_rnti) = (RECORDED.rnti ^ other, RECORDED.n_id ^ other, other);
        assert_eq!(answer(Numbers { rnti, ..RECORDED }), (7, 0, 0));
        assert_eq!(
            answer(Numbers { n_id, ..RECORDED }),
            (7, 0, 0),
            "n_ID {n_id}"
        );
        // The top bit of n_RNTI falls out.
        let number = if other == 0x8000 { 0 } else { 7 };
        let answer = answer(Numbers { n_rnti, ..RECORDED });
        assert_eq!(answer, (number, 0, 0), "n_RNTI {n_rnti}");
    }
}

#[test]
fn values_that_say_nothing_do_not_match() {
    // All decided bits are 0, and 24 ones in front do not leave the parity 0.
    for e in CODED_LENGTHS {
        let mut out = [9; 40];
        let soft = vec![0; e as usize];
        assert_eq!(decode(&Numbers::sized(40, e), &soft, &mut out), (7, 0, 0));
        assert_eq!(out, [9; 40]);
    }
}

#[test]
fn refusals_of_decoding() {
    let mut soft = vec![0; 108];
    let mut out = [9; 12];
    assert_eq!(decode(&Numbers::sized(11, 107), &soft, &mut out), (1, 0, 0));
    assert_eq!(decode(&Numbers::sized(12, 107), &soft, &mut out), (2, 0, 0));
    assert_eq!(decode(&Numbers::sized(85, 108), &soft, &mut out), (3, 0, 0));
    assert_eq!(
        decode(&Numbers::sized(12, 108), &soft[1..], &mut out[1..]),
        (4, 0, 0)
    );
    soft[107] = 128;
    assert_eq!(
        decode(&Numbers::sized(12, 108), &soft, &mut out[1..]),
        (5, 0, 0)
    );
    assert_eq!(
        decode(&Numbers::sized(12, 108), &soft, &mut out),
        (6, 107, 0)
    );
    soft[3] = -128;
    assert_eq!(decode(&Numbers::sized(12, 108), &soft, &mut out), (6, 3, 0));
    for bad in [i32::MIN, i32::MAX] {
        soft[0] = bad;
        assert_eq!(decode(&Numbers::sized(12, 108), &soft, &mut out), (6, 0, 0));
    }
    assert_eq!(out, [9; 12]);
}

#[test]
fn refusals_of_loopback() {
    let mut payload = vec![0; 12];
    let mut strengths = vec![1; 108];
    let mut out = [9; 12];
    let mut call = |a, e, payload: &[u8], strengths: &[i32], skipped: usize| {
        loopback(
            &Numbers::sized(a, e),
            payload,
            strengths,
            &mut out[skipped..],
        )
    };
    assert_eq!(call(11, 107, &payload, &strengths, 0), (1, 0, 0));
    assert_eq!(call(12, 107, &payload, &strengths, 0), (2, 0, 0));
    assert_eq!(call(85, 108, &payload, &strengths, 0), (3, 0, 0));
    assert_eq!(call(12, 108, &payload[1..], &strengths, 1), (4, 0, 0));
    assert_eq!(call(12, 108, &payload, &strengths[1..], 1), (4, 0, 0));
    strengths[107] = 128;
    assert_eq!(call(12, 108, &payload, &strengths, 1), (5, 0, 0));
    assert_eq!(call(12, 108, &payload, &strengths, 0), (6, 12 + 107, 0));
    strengths[0] = 0;
    assert_eq!(call(12, 108, &payload, &strengths, 0), (6, 12, 0));
    payload[11] = 2;
    assert_eq!(call(12, 108, &payload, &strengths, 0), (6, 11, 0));
    assert_eq!(out, [9; 12]);
}

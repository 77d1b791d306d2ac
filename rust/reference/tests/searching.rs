//! The search of the second program: a message in CCEs 2 and 3 of a region of 4, and what is refused.

use reference::searching::{BUFFER, CCE};
use reference::{Answer, Numbers, decode, encode, noiseless, search};

const N_ID: u16 = 500;
/// First CCE, level, A, RNTI, n_RNTI.
const MESSAGE: [u32; 5] = [2, 2, 40, 0x4601, 0x1234];
/// What the message is coded under.
const NUMBERS: Numbers = Numbers {
    a: 40,
    e: 216,
    rnti: 0x4601,
    n_id: N_ID,
    n_rnti: 0x1234,
};

/// The region and the payload.
fn region() -> (Vec<i32>, Vec<u8>) {
    let payload: Vec<u8> = (0..40).map(|i| u8::from(i % 3 == 0)).collect();
    let mut coded = vec![0; 216];
    assert_eq!(encode(&NUMBERS, &payload, &mut coded), (0, 0));
    let mut region = vec![1; 4 * CCE];
    region[2 * CCE..].copy_from_slice(&noiseless(&coded, &[20; 216]));
    (region, payload)
}

/// The answer; on every number but 0 nothing else may be given.
fn answer(region: &[i32], list: &[[u32; 5]], out_len: usize) -> Answer {
    let mut out = vec![9; out_len];
    let (answer, stretch) = search(N_ID, region, &list.concat(), &mut out);
    if answer.0 != 0 {
        assert!(stretch.is_empty() && (answer.1, answer.2) == (0, 0));
        assert!(out.iter().all(|&byte| byte == 9));
    }
    answer
}

#[test]
fn message_is_found_with_its_stretch() {
    let (region, payload) = region();
    let list = [
        [0, 4, 40, 0x4601, 0x1234],
        [0, 2, 40, 0x4601, 0x1234],
        MESSAGE,
        MESSAGE,
    ]
    .concat();
    let mut out = vec![9; BUFFER];
    let (answer, stretch) = search(N_ID, &region, &list, &mut out);
    assert_eq!(answer, (0, 2, 0));
    assert!(std::ptr::eq(stretch, &region[2 * CCE..]));
    assert_eq!((&out[..40], &out[40..]), (&payload[..], &[9; 100][..]));
}

#[test]
fn noise_is_counted_in_the_stretch_of_the_one_named() {
    // CCEs 0 and 1 are no message, so that many of their values are wrong for any.
    let (mut region, _) = region();
    for (k, wrong) in [216, 300, 431].into_iter().zip(1..) {
        region[k] = -region[k].signum();
        let decoded = decode(&NUMBERS, &region[216..], &mut [9; 40]);
        assert_eq!(decoded, (0, 0, wrong));
        let list = [
            [0, 2, 40, 0x4601, 0x1234],
            [2, 2, 40, 0x4602, 0x1234],
            MESSAGE,
        ];
        assert_eq!(answer(&region, &list, BUFFER), (0, 2, wrong));
        assert_eq!(answer(&region, &list[..2], BUFFER), (8, 0, 0));
    }
}

#[test]
fn candidates_that_do_not_decode() {
    let (region, _) = region();
    let others = [
        [2, 0, 40, 0x4601, 0x1234],
        [2, 3, 40, 0x4601, 0x1234],
        [1, 2, 40, 0x4601, 0x1234],
        [4, 2, 40, 0x4601, 0x1234],
        [u32::MAX - 1, 2, 40, 0x4601, 0x1234],
        [2, (1 << 30) + 2, 40, 0x4601, 0x1234],
        [2, 2, 11, 0x4601, 0x1234],
        [2, 2, 141, 0x4601, 0x1234],
        [2, 2, u32::MAX, 0x4601, 0x1234],
        [2, 1, 85, 0x4601, 0x1234],
        [2, 2, 40, 0x4602, 0x1234],
        [2, 2, 40, 0x1_4601, 0x1234],
        [2, 2, 40, 0x4601, 0],
        [2, 2, 40, 0x4601, 0x1235],
        [2, 2, 40, 0x4601, 0x4601],
        [2, 2, 40, 0x4601, 0x1_1234],
        [2, 2, 40, 0x4601, 0x8000_1234],
        [2, 2, 40, 0x1234, 0x4601],
    ];
    for other in others {
        assert_eq!(answer(&region, &[other], BUFFER), (8, 0, 0), "{other:?}");
        assert_eq!(answer(&region, &[other, MESSAGE], BUFFER), (0, 1, 0));
    }
    let mut bad = region;
    bad[2 * CCE + 100] = 128;
    assert_eq!(answer(&bad, &[MESSAGE], BUFFER), (8, 0, 0));
}

#[test]
fn refusals() {
    let (region, _) = region();
    assert_eq!(answer(&region, &[MESSAGE; 44], BUFFER), (0, 0, 0));
    assert_eq!(answer(&region, &[MESSAGE; 45], BUFFER - 1), (4, 0, 0));
    assert_eq!(answer(&region[1..], &[MESSAGE], BUFFER - 1), (4, 0, 0));
    assert_eq!(answer(&[0; 65 * CCE], &[MESSAGE], BUFFER), (4, 0, 0));
    assert_eq!(answer(&region, &[MESSAGE], BUFFER - 1), (5, 0, 0));
    assert_eq!(answer(&[], &[], BUFFER + 1), (5, 0, 0));
    assert_eq!(answer(&[], &[MESSAGE; 44], BUFFER), (8, 0, 0));
    assert_eq!(answer(&region, &[], BUFFER), (8, 0, 0));
    for length in 1..MESSAGE.len() {
        let (cut, _) = search(N_ID, &region, &MESSAGE[..length], &mut [0; BUFFER]);
        assert_eq!(cut, (4, 0, 0));
    }
}

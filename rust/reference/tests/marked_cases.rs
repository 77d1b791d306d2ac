//! The marked cases (docs/SOURCES.md) that concern coding: T1 to T9, T11 and T12.

use reference::{Kind, Layout, Numbers, encode, interleaver, layout, rate_matching, selected};
use std::collections::BTreeSet;

fn accepted(a: u64, e: u64) -> Layout {
    layout(a, e).unwrap_or_else(|| panic!("A = {a}, E = {e} is refused"))
}

fn positions(range: std::ops::Range<usize>) -> BTreeSet<usize> {
    range.collect()
}

/// The count of y that are never sent.
fn unsent(layout: &Layout) -> usize {
    layout.length() - selected(layout).into_iter().collect::<BTreeSet<_>>().len()
}

/// The number for sizes alone: lengths and bytes fit wherever they can.
fn number(a: u64, e: u64) -> u8 {
    let (payload, mut out) = (vec![0; a as usize], vec![0; e as usize]);
    encode(&Numbers::sized(a, e), &payload, &mut out).0
}

#[test]
fn t1() {
    let code = accepted(12, 108);
    assert_eq!(
        (code.k, code.length(), code.kind),
        (36, 128, Kind::Puncturing)
    );
    assert_eq!(code.barred, positions(0..42));
    assert_eq!(unsent(&code), 20);
}

#[test]
fn t2_t3() {
    assert_eq!(accepted(23, 108).kind, Kind::Puncturing);
    let code = accepted(24, 108);
    assert_eq!(code.kind, Kind::Shortening);
    assert_eq!(code.barred, positions(108..128));
}

#[test]
fn t4_t5() {
    assert!(accepted(84, 108).chosen.into_iter().eq(0..108));
    assert_eq!(number(84, 108), 0);
    assert_eq!(layout(85, 108), None);
    assert_eq!(number(85, 108), 3);
}

#[test]
fn t6_t7() {
    let code = accepted(70, 216);
    assert_eq!(
        (code.kind, code.barred),
        (Kind::Puncturing, positions(0..84))
    );
    let code = accepted(71, 216);
    assert_eq!(
        (code.kind, code.barred),
        (Kind::Shortening, positions(216..256))
    );
}

#[test]
fn t8() {
    let code = accepted(140, 432);
    assert_eq!(code.length(), 512);
    assert_eq!(code.barred, positions(0..168));
    assert_eq!(unsent(&code), 80);
}

#[test]
fn t9() {
    assert_eq!(rate_matching::sub_block(12, 128), 16);
    assert_eq!(rate_matching::sub_block(16, 128), 12);
}

#[test]
fn t11() {
    assert_eq!(number(11, 107), 1);
    assert_eq!(number(12, 107), 2);
}

#[test]
fn t12() {
    let head = [1, 4, 6, 10, 11, 12, 0, 2, 5, 7, 13, 3, 8, 14, 9, 15];
    assert!(
        interleaver::order(36)
            .into_iter()
            .eq(head.into_iter().chain(16..36))
    );
}

#[test]
fn any_sizes_are_taken() {
    let extremes = [0, 1, u64::from(u32::MAX), 1 << 63, u64::MAX - 23, u64::MAX];
    for a in extremes {
        for e in extremes {
            assert_eq!(layout(a, e), None);
            assert_eq!(encode(&Numbers::sized(a, e), &[], &mut []), (1, 0));
        }
        assert_eq!(encode(&Numbers::sized(40, a), &[0; 40], &mut []), (2, 0));
    }
}

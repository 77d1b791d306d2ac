//! Code length, barred positions and information positions (TS 38.212 5.3.1, 5.4.1).

use crate::{parity, rate_matching, refused_sizes};
use std::cmp::Reverse;
use std::collections::BTreeSet;
use std::sync::OnceLock;

/// Table 5.3.1.2-1, whole, least reliable first.
const PRINT: &str = include_str!("../data/reliability-1024.txt");

/// How E sent bits are made of N code bits.
#[derive(Clone, Copy, Debug, PartialEq, Eq)]
pub enum Kind {
    Repetition,
    Puncturing,
    Shortening,
}

/// The polar code for a pair (A, E).
#[derive(Clone, Debug, PartialEq, Eq)]
pub struct Layout {
    /// Bits of the interleaved row: payload and parity.
    pub k: usize,
    /// Sent bits.
    pub e: usize,
    /// The code has 2^n positions.
    pub n: u32,
    pub kind: Kind,
    /// Positions that rate matching keeps from carrying information.
    pub barred: BTreeSet<usize>,
    /// Information positions, ascending; all others are frozen.
    pub chosen: Vec<usize>,
}

impl Layout {
    /// The count of code bits, N.
    pub fn length(&self) -> usize {
        1 << self.n
    }

    /// What a position is for: 1 information, 2 barred by puncturing, 3 by shortening, 0 frozen
    /// otherwise, 4 not a position of this code.
    pub fn role(&self, position: usize) -> u8 {
        if self.chosen.contains(&position) {
            1
        } else if self.barred.contains(&position) {
            match self.kind {
                Kind::Repetition => unreachable!("repetition bars nothing"),
                Kind::Puncturing => 2,
                Kind::Shortening => 3,
            }
        } else if position < self.length() {
            0
        } else {
            4
        }
    }
}

/// The layout for payload size `a` and coded length `e`; none if these are refused.
pub fn layout(a: u64, e: u64) -> Option<Layout> {
    if refused_sizes(a, e).is_some() {
        return None;
    }
    let k = a as usize + parity::BITS;
    let e = e as usize;
    let n = exponent(k, e);
    let kind = kind(k, e, 1 << n);
    let barred = barred(kind, e, 1 << n);
    let chosen = chosen(k, 1 << n, &barred);
    Some(Layout {
        k,
        e,
        n,
        kind,
        barred,
        chosen,
    })
}

/// The smallest n with 2^n at least `x`.
fn ceil_log2(x: usize) -> u32 {
    x.next_power_of_two().ilog2()
}

fn exponent(k: usize, e: usize) -> u32 {
    let up = ceil_log2(e);
    let barely_above = 8 * e <= 9 << (up - 1);
    let low_rate = 16 * k < 9 * e;
    let n1 = if barely_above && low_rate { up - 1 } else { up };
    let n2 = ceil_log2(8 * k);
    n1.min(n2).clamp(5, 9)
}

fn kind(k: usize, e: usize, length: usize) -> Kind {
    if e >= length {
        Kind::Repetition
    } else if 16 * k <= 7 * e {
        Kind::Puncturing
    } else {
        Kind::Shortening
    }
}

fn barred(kind: Kind, e: usize, length: usize) -> BTreeSet<usize> {
    let code_bit = |i| rate_matching::sub_block(i, length);
    match kind {
        Kind::Repetition => BTreeSet::new(),
        Kind::Puncturing => (0..length - e)
            .map(code_bit)
            .chain(0..prefix(e, length))
            .collect(),
        Kind::Shortening => (e..length).map(code_bit).collect(),
    }
}

/// The count of positions at the front that puncturing bars: ceil(3N/4 - E/2) or ceil(9N/16 - E/4).
fn prefix(e: usize, length: usize) -> usize {
    if 4 * e >= 3 * length {
        (3 * length - 2 * e).div_ceil(4)
    } else {
        (9 * length - 4 * e).div_ceil(16)
    }
}

/// The `k` most reliable positions that are not barred, ascending.
fn chosen(k: usize, length: usize, barred: &BTreeSet<usize>) -> Vec<usize> {
    let mut free: Vec<usize> = (0..length).filter(|i| !barred.contains(i)).collect();
    free.sort_unstable_by_key(|&position| Reverse(rank(position)));
    free.truncate(k);
    free.sort_unstable();
    free
}

/// The reliability order of all 1024 positions, least reliable first.
pub fn reliability() -> &'static [usize] {
    static ORDER: OnceLock<Vec<usize>> = OnceLock::new();
    ORDER.get_or_init(|| {
        PRINT
            .split_whitespace()
            .map(|entry| entry.parse().expect("a position"))
            .collect()
    })
}

/// The place of a position in the reliability order.
pub fn rank(position: usize) -> usize {
    static RANKS: OnceLock<Vec<usize>> = OnceLock::new();
    RANKS.get_or_init(|| {
        let mut ranked: Vec<usize> = (0..reliability().len()).collect();
        ranked.sort_unstable_by_key(|&place| reliability()[place]);
        ranked
    })[position]
}

#[cfg(test)]
mod tests {
    use super::*;

    #[test]
    fn prints_agree_below_512() {
        let printed = include_str!("../data/printed-reliability-512.txt")
            .split_whitespace()
            .map(|entry| entry.parse::<usize>().unwrap());
        let below = reliability().iter().copied().filter(|&i| i < 512);
        assert!(below.eq(printed));
    }

    #[test]
    fn reliability_lists_each_position_once() {
        assert_eq!(reliability().len(), 1024);
        assert!((0..1024).all(|position| reliability()[rank(position)] == position));
    }

    #[test]
    fn logarithm_is_rounded_up() {
        let pairs = [
            (1, 0),
            (2, 1),
            (3, 2),
            (108, 7),
            (128, 7),
            (129, 8),
            (1728, 11),
        ];
        for (x, n) in pairs {
            assert_eq!(ceil_log2(x), n, "x = {x}");
        }
    }

    #[test]
    fn exponent_follows_each_of_its_rules() {
        // Accepted pairs reach the last rule alone, so the others are tried on other numbers.
        assert_eq!(exponent(100, 144), 8); // 8E = 9 * 128, 16K >= 9E
        assert_eq!(exponent(80, 144), 7); // 8E = 9 * 128, 16K < 9E
        assert_eq!(exponent(81, 144), 8); // 16K = 9E
        assert_eq!(exponent(80, 145), 8); // 8E > 9 * 128
        assert_eq!(exponent(5, 432), 6); // n2: 8K = 40
        assert_eq!(exponent(1, 432), 5); // the floor of 32
        assert_eq!(exponent(164, 1728), 9); // the ceiling of 512
    }

    #[test]
    fn prefix_follows_both_of_its_rules() {
        assert_eq!(prefix(96, 128), 48); // 4E = 3N: 96 - 48
        assert_eq!(prefix(97, 128), 48); // 96 - 48.5 rounded up
        assert_eq!(prefix(95, 128), 49); // 72 - 23.75 rounded up
        assert_eq!(prefix(92, 128), 49); // 72 - 23
    }
}

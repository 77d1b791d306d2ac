//! Successive cancellation, position by position: the value of a position is worked out by the bits
//! of its index, on rows of 1, 2, 4, .. values that are kept until a bit above them changes.

use crate::construction::{Kind, Layout};
use crate::rate_matching::{selected, sub_block};
use crate::{Numbers, carried, parity, scrambling, transform};

/// The value of a shortened position, whose bit is known to be 0.
pub const CERTAIN: i64 = 1_048_576;

/// The smaller magnitude with the product of the signs; 0 if either is 0.
pub fn f(a: i64, b: i64) -> i64 {
    a.signum() * b.signum() * a.abs().min(b.abs())
}

/// b + a where v is 0, b - a where it is 1.
pub fn g(v: u8, a: i64, b: i64) -> i64 {
    b + (1 - 2 * i64::from(v)) * a
}

/// Soft values with the scrambling undone: negated where the term of the Gold sequence is 1.
pub fn descrambled(soft: &[i32], n_id: u16, n_rnti: u16) -> Vec<i64> {
    let signs = scrambling::gold(n_id, n_rnti, soft.len()).into_iter();
    signs
        .zip(soft)
        .map(|(c, &value)| i64::from(value) * (1 - 2 * i64::from(c)))
        .collect()
}

/// The value of each code position: the sum of all that were sent for it, or what is known of a
/// position that was not sent.
pub fn gathered(layout: &Layout, values: &[i64]) -> Vec<i64> {
    let unsent = match layout.kind {
        Kind::Shortening => CERTAIN,
        Kind::Puncturing | Kind::Repetition => 0,
    };
    let mut sums = vec![None; layout.length()];
    for (value, i) in values.iter().zip(selected(layout)) {
        let sum = &mut sums[sub_block(i, layout.length())];
        *sum = Some(sum.unwrap_or(0) + value);
    }
    sums.into_iter().map(|sum| sum.unwrap_or(unsent)).collect()
}

/// What was decided for each position, and on which value.
pub struct Decided {
    pub u: Vec<u8>,
    pub on: Vec<i64>,
}

/// Decides all positions from the values of the code positions; only those of `chosen` can be 1.
pub fn decided(chosen: &[usize], values: Vec<i64>) -> Decided {
    let length = values.len();
    let n = length.ilog2() as usize;
    let mut may_be_one = vec![false; length];
    for &position in chosen {
        may_be_one[position] = true;
    }
    // rows[s] has the 2^s values of the stretch of 2^s positions that position i is in.
    let mut rows = vec![Vec::new(); n];
    rows.push(values);
    let (mut u, mut on) = (Vec::new(), Vec::new());
    for (i, may_be_one) in may_be_one.into_iter().enumerate() {
        // From i - 1 to i the bits up to the lowest 1 of i change, and with them these rows.
        let changed = n.min(i.trailing_zeros() as usize + 1);
        for s in (0..changed).rev() {
            rows[s] = half(&rows[s + 1], i >> s & 1 == 1, &u);
        }
        let value = rows[0][0];
        on.push(value);
        u.push(u8::from(may_be_one && value < 0));
    }
    Decided { u, on }
}

/// The row of the first or second half of a stretch; the second needs what was decided in the first,
/// which are then the last bits of `u`.
fn half(row: &[i64], second: bool, u: &[u8]) -> Vec<i64> {
    let (a, b) = row.split_at(row.len() / 2);
    let pairs = a.iter().zip(b);
    if second {
        let v = transform::transform(&u[u.len() - a.len()..]);
        pairs.zip(v).map(|((&a, &b), v)| g(v, a, b)).collect()
    } else {
        pairs.map(|(&a, &b)| f(a, b)).collect()
    }
}

/// The payload in E soft values; none if the parity does not match.
pub fn payload(layout: &Layout, numbers: &Numbers, soft: &[i32]) -> Option<Vec<u8>> {
    let values = gathered(layout, &descrambled(soft, numbers.n_id, numbers.n_rnti));
    let row = carried(layout, &decided(&layout.chosen, values).u);
    parity::matches(&row, numbers.rnti).then(|| row[..layout.k - parity::BITS].to_vec())
}

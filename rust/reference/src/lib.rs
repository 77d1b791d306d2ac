//! A second coder and decoder for 5G NR downlink control information, to compare the library with.
//!
//! It follows the same rules (TS 38.212 5.3.1, 5.4.1, 7.3.2 to 7.3.4; TS 38.211 5.2.1, 7.3.2.3) by
//! other means, so that one mistake is unlikely to be made twice: the CRC is a division of numbers,
//! the transform a product with the matrix, the interleaver is rebuilt from the generator, the
//! reliability order comes from another print, the Gold sequence is its recurrence on arrays that start
//! with the bits of n_ID and n_RNTI, the decoder goes from position to position instead of calling
//! itself on halves, the noise count compares the row with one of the same strengths and no noise, and
//! the search looks candidates up among all places of the region.
//! It is written to be checked, not to be fast.

pub mod construction;
pub mod decoding;
pub mod interleaver;
pub mod parity;
pub mod published;
pub mod rate_matching;
pub mod scrambling;
pub mod searching;
pub mod transform;

pub use construction::{Kind, Layout, layout};
pub use rate_matching::selected;
pub use searching::search;

/// The payload sizes that are accepted.
pub const PAYLOAD_SIZES: std::ops::RangeInclusive<u64> = 12..=140;

/// The coded lengths that are accepted: aggregation levels 1, 2, 4, 8 and 16.
pub const CODED_LENGTHS: [u64; 5] = [108, 216, 432, 864, 1728];

/// The numbers of a call.
#[derive(Clone, Copy, Debug, PartialEq, Eq)]
pub struct Numbers {
    /// The payload size.
    pub a: u64,
    /// The coded length.
    pub e: u64,
    /// What the last 16 parity bits are masked with.
    pub rnti: u16,
    /// What the scrambling starts from: n_ID and n_RNTI.
    pub n_id: u16,
    pub n_rnti: u16,
}

impl Numbers {
    /// Sizes, with 0 for all else.
    pub fn sized(a: u64, e: u64) -> Self {
        let (rnti, n_id, n_rnti) = (0, 0, 0);
        Self {
            a,
            e,
            rnti,
            n_id,
            n_rnti,
        }
    }
}

/// What a call that decodes gives: the number, the place or the candidate, and the noise count, which is
/// 0 on every number but 0.
pub type Answer = (u8, usize, usize);

/// The refusal, 1 to 3, that the sizes alone call for.
pub fn refused_sizes(a: u64, e: u64) -> Option<u8> {
    if !PAYLOAD_SIZES.contains(&a) {
        Some(1)
    } else if !CODED_LENGTHS.contains(&e) {
        Some(2)
    } else if a + parity::BITS as u64 > e {
        Some(3)
    } else {
        None
    }
}

/// The refusal, 1 to 5, that sizes and lengths call for; `inputs` and `output` are lengths, each with
/// the one that it must be.
fn refused_lengths(a: u64, e: u64, inputs: &[(usize, u64)], output: (usize, u64)) -> Option<u8> {
    let wrong = |&(length, fits): &(usize, u64)| length as u64 != fits;
    if let Some(number) = refused_sizes(a, e) {
        Some(number)
    } else if inputs.iter().any(wrong) {
        Some(4)
    } else if wrong(&output) {
        Some(5)
    } else {
        None
    }
}

/// The refusal of a call, as number and place: by its lengths, else by the first entry of its input
/// that is marked as bad; none if it is to be done.
fn refused(lengths: Option<u8>, mut bad: impl Iterator<Item = bool>) -> Option<(u8, usize)> {
    match lengths {
        Some(number) => Some((number, 0)),
        None => bad.position(|bad| bad).map(|place| (6, place)),
    }
}

fn refused_coding(a: u64, e: u64, payload: &[u8], out_len: usize) -> Option<(u8, usize)> {
    let lengths = refused_lengths(a, e, &[(payload.len(), a)], (out_len, e));
    refused(lengths, payload.iter().map(|&bit| bit > 1))
}

fn refused_decoding(a: u64, e: u64, soft: &[i32], out_len: usize) -> Option<(u8, usize)> {
    let lengths = refused_lengths(a, e, &[(soft.len(), e)], (out_len, a));
    refused(
        lengths,
        soft.iter().map(|value| !(-127..=127).contains(value)),
    )
}

/// The entries are counted through the payload and then the strengths.
fn refused_loopback(
    a: u64,
    e: u64,
    payload: &[u8],
    strengths: &[i32],
    out_len: usize,
) -> Option<(u8, usize)> {
    let inputs = [(payload.len(), a), (strengths.len(), e)];
    let lengths = refused_lengths(a, e, &inputs, (out_len, a));
    let bad_payload = payload.iter().map(|&bit| bit > 1);
    let bad_strengths = strengths
        .iter()
        .map(|strength| !(1..=127).contains(strength));
    refused(lengths, bad_payload.chain(bad_strengths))
}

/// Codes `payload` into `out` and gives the number and the place.
///
/// On every number but 0, `out` is untouched.
pub fn encode(numbers: &Numbers, payload: &[u8], out: &mut [u8]) -> (u8, usize) {
    let Numbers { a, e, rnti, .. } = *numbers;
    if let Some(answer) = refused_coding(a, e, payload, out.len()) {
        return answer;
    }
    let layout = layout(a, e).expect("the sizes are accepted");
    let sent = rate_matching::matched(&layout, &code_word(a, e, rnti, payload));
    out.copy_from_slice(&scrambling::scrambled(&sent, numbers.n_id, numbers.n_rnti));
    (0, 0)
}

/// Decodes `soft` into `out` and gives the number, the place and the noise count: that of `soft` against
/// the payload coded again.
///
/// On every number but 0, `out` is untouched.
pub fn decode(numbers: &Numbers, soft: &[i32], out: &mut [u8]) -> Answer {
    let Numbers { a, e, .. } = *numbers;
    if let Some((number, place)) = refused_decoding(a, e, soft, out.len()) {
        return (number, place, 0);
    }
    let layout = layout(a, e).expect("the sizes are accepted");
    let Some(payload) = decoding::payload(&layout, numbers, soft) else {
        return (7, 0, 0);
    };
    out.copy_from_slice(&payload);
    let mut again = vec![0; soft.len()];
    assert_eq!(encode(numbers, &payload, &mut again), (0, 0));
    (0, 0, noise(&again, soft))
}

/// The noise count of a row of soft values against coded bits: where it is not the noiseless row of the
/// same strengths. A 0 has no strength, and so no sign to be wrong.
pub fn noise(coded: &[u8], soft: &[i32]) -> usize {
    let strengths: Vec<i32> = soft.iter().map(|value| value.abs()).collect();
    let right = noiseless(coded, &strengths);
    right
        .iter()
        .zip(soft)
        .filter(|(r, value)| r != value)
        .count()
}

/// Codes `payload`, gives each coded bit its strength with the sign that says its value, decodes that
/// into `out`, and gives the number, the place and the noise count.
///
/// On every number but 0, `out` is untouched.
pub fn loopback(numbers: &Numbers, payload: &[u8], strengths: &[i32], out: &mut [u8]) -> Answer {
    let Numbers { a, e, .. } = *numbers;
    if let Some((number, place)) = refused_loopback(a, e, payload, strengths, out.len()) {
        return (number, place, 0);
    }
    let mut coded = vec![0; strengths.len()];
    assert_eq!(encode(numbers, payload, &mut coded), (0, 0));
    decode(numbers, &noiseless(&coded, strengths), out)
}

/// Writes what each of the positions 0..=511 is for into `out` and gives the number and the place.
///
/// On every number but 0, `out` is untouched.
pub fn describe(a: u64, e: u64, out: &mut [u8]) -> (u8, usize) {
    if let Some(number) = refused_lengths(a, e, &[], (out.len(), 512)) {
        return (number, 0);
    }
    let layout = layout(a, e).expect("the sizes are accepted");
    for (position, role) in out.iter_mut().enumerate() {
        *role = layout.role(position);
    }
    (0, 0)
}

/// The noiseless row of coded bits with these strengths: positive for 0, negative for 1.
pub fn noiseless(coded: &[u8], strengths: &[i32]) -> Vec<i32> {
    let value = |(&bit, &strength): (&u8, &i32)| if bit == 0 { strength } else { -strength };
    coded.iter().zip(strengths).map(value).collect()
}

/// The row u: the interleaved row at the information positions, 0 elsewhere.
///
/// # Panics
/// If (a, e) is not accepted or `payload` is not `a` bits.
pub fn placed(a: u64, e: u64, rnti: u16, payload: &[u8]) -> Vec<u8> {
    assert_eq!(refused_coding(a, e, payload, e as usize), None);
    let layout = layout(a, e).expect("the sizes are accepted");
    carrying(&layout, &parity::attached(payload, rnti))
}

/// The row u that carries a row c, whether its parity is right or not.
pub fn carrying(layout: &Layout, row: &[u8]) -> Vec<u8> {
    let mut u = vec![0; layout.length()];
    for (&position, source) in layout.chosen.iter().zip(interleaver::order(layout.k)) {
        u[position] = row[source];
    }
    u
}

/// The code word d, before rate matching.
///
/// # Panics
/// If (a, e) is not accepted or `payload` is not `a` bits.
pub fn code_word(a: u64, e: u64, rnti: u16, payload: &[u8]) -> Vec<u8> {
    transform::transform(&placed(a, e, rnti, payload))
}

/// The payload whose code word is `d`; none if a frozen position is not 0 or the parity does not
/// match.
pub fn payload_of(layout: &Layout, d: &[u8], rnti: u16) -> Option<Vec<u8>> {
    let u = transform::transform(d);
    let frozen_clear = (0..u.len()).all(|i| layout.chosen.contains(&i) || u[i] == 0);
    let row = carried(layout, &u);
    let payload = row[..layout.k - parity::BITS].to_vec();
    (frozen_clear && parity::attached(&payload, rnti) == row).then_some(payload)
}

/// The row c that u carries: its information positions, with the interleaver undone.
fn carried(layout: &Layout, u: &[u8]) -> Vec<u8> {
    let mut row = vec![0; layout.k];
    for (&position, source) in layout.chosen.iter().zip(interleaver::order(layout.k)) {
        row[source] = u[position];
    }
    row
}

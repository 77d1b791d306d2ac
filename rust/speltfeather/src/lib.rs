//! Channel coding of 5G NR downlink control information (DCI): TS 38.212 7.3.2 to 7.3.4 and
//! TS 38.211 7.3.2.3, from payload bits to scrambled bits, and from soft values back to the payload.
//!
//! This is the safe face of the static library that is proved in Rattle. A bit is one byte, 0 or 1.
//! Nothing is kept between calls, so they may run in several threads at once; nothing is allocated.
//!
//! ```
//! use speltfeather::{Numbers, Refusal, decode, encode};
//!
//! let numbers = Numbers { a: 40, e: 216, rnti: 0x4601, n_id: 500, n_rnti: 0 };
//! let payload = [1; 40];
//! let mut coded = [0; 216];
//! encode(&numbers, &payload, &mut coded)?;
//!
//! // A receiver has soft values: positive leans to bit 0, negative to bit 1.
//! let soft = coded.map(|bit| if bit == 0 { 20 } else { -20 });
//! let mut read = [0; 40];
//! let reading = decode(&numbers, &soft, &mut read)?;
//! assert_eq!((read, reading.noise), (payload, 0));
//! # Ok::<(), Refusal>(())
//! ```
//!
//! # Answers
//!
//! Any numbers, lengths and contents may be handed in. The conditions are tested in this order, and
//! the first that applies is given; on every answer but `Ok` the output holds what it held.
//!
//! | number | answer | given when |
//! |---|---|---|
//! | 0 | `Ok` | done: the output holds E bits ([`encode`]), A bits ([`decode`], [`loopback`]), A bits at its front ([`search`]) or 512 roles ([`describe`]) |
//! | 1 | [`Refusal::PayloadSize`] | the payload size A is outside 12..=140 |
//! | 2 | [`Refusal::CodedLength`] | the coded length E is not among 108, 216, 432, 864, 1728 |
//! | 3 | [`Refusal::TooManyBits`] | A + 24 is more than E |
//! | 4 | [`Refusal::InputLength`] | the payload's length is not A, or there are not E soft values or strengths; [`search`]: the region is not 0 to 64 whole CCEs, or there are more than 44 candidates |
//! | 5 | [`Refusal::OutputLength`] | the output's length is not E ([`encode`]), A ([`decode`], [`loopback`]), 140 ([`search`]) or 512 ([`describe`]) |
//! | 6 | [`Refusal::BadEntry`] | a payload byte above 1, a soft value outside -127..=127 or a strength outside 1..=127; carries the place of the first |
//! | 7 | [`Refusal::ParityMismatch`] | decoding ran, and the parity does not match; from [`decode`] alone |
//! | 8 | [`Refusal::NoCandidate`] | no candidate decodes; from [`search`] alone |
//!
//! [`search`] looks for a message at a list of candidates. [`describe`], and [`Code`] over it, tell what
//! each position of a code is for.

mod c;

use c::{spelt_decode, spelt_describe, spelt_encode, spelt_loopback, spelt_search_list};
use std::error::Error;
use std::fmt;

/// The numbers that set a call.
#[derive(Clone, Copy, Debug, PartialEq, Eq)]
pub struct Numbers {
    /// Payload size A: 12 to 140 bits, the 24 parity bits not counted.
    pub a: u64,
    /// Coded length E: 108, 216, 432, 864 or 1728 bits.
    pub e: u64,
    /// Radio number, added to the last 16 parity bits.
    pub rnti: u16,
    /// Scrambling identity n_ID.
    pub n_id: u16,
    /// n_RNTI of TS 38.211 7.3.2.3: the C-RNTI in a UE-specific search space for which
    /// pdcch-DMRS-ScramblingID is configured, and 0 otherwise. It need not be `rnti`. The Gold sequence
    /// starts from (n_RNTI * 2^16 + n_ID) mod 2^31, so that 0x8000 scrambles as 0 does.
    pub n_rnti: u16,
}

/// Why a call gave no result. The first that applies, in this order, is given.
#[derive(Clone, Copy, Debug, PartialEq, Eq)]
pub enum Refusal {
    /// The payload size A is outside 12..=140.
    PayloadSize,
    /// The coded length E is not among 108, 216, 432, 864 and 1728.
    CodedLength,
    /// A + 24 is more than E.
    TooManyBits,
    /// The payload's length is not A, or there are not E soft values or strengths. Searching: the
    /// region is not 0 to 64 whole CCEs, or there are more than 44 candidates.
    InputLength,
    /// The output's length is not E (coding), A (decoding and loop-back), 140 (searching) or 512
    /// (describing a code).
    OutputLength,
    /// A payload byte is above 1, a soft value outside -127..=127 or a strength outside 1..=127; the
    /// first such entry stands at this place of the input.
    BadEntry(usize),
    /// The soft values were decoded, and the parity does not match: no payload is accepted.
    ParityMismatch,
    /// Searching: no candidate decodes.
    NoCandidate,
}

impl Refusal {
    /// The number of this refusal, 1 to 8, as in the C interface.
    pub fn number(&self) -> u8 {
        match self {
            Refusal::PayloadSize => 1,
            Refusal::CodedLength => 2,
            Refusal::TooManyBits => 3,
            Refusal::InputLength => 4,
            Refusal::OutputLength => 5,
            Refusal::BadEntry(_) => 6,
            Refusal::ParityMismatch => 7,
            Refusal::NoCandidate => 8,
        }
    }
}

impl fmt::Display for Refusal {
    fn fmt(&self, f: &mut fmt::Formatter<'_>) -> fmt::Result {
        match self {
            Refusal::PayloadSize => f.write_str("the payload size is outside 12 to 140"),
            Refusal::CodedLength => {
                f.write_str("the coded length is not among 108, 216, 432, 864, 1728")
            }
            Refusal::TooManyBits => f.write_str("payload and parity have more bits than are sent"),
            Refusal::InputLength => f.write_str("the input's length does not fit the sizes"),
            Refusal::OutputLength => f.write_str("the output's length does not fit the sizes"),
            Refusal::BadEntry(place) => write!(f, "entry {place} of the input is out of range"),
            Refusal::ParityMismatch => f.write_str("the parity does not match"),
            Refusal::NoCandidate => f.write_str("no candidate decodes"),
        }
    }
}

impl Error for Refusal {}

/// What decoding says of a row besides its payload. Later versions may say more.
#[derive(Clone, Copy, Debug, PartialEq, Eq)]
#[non_exhaustive]
pub struct Reading {
    /// The noise count: how many of the E soft values are not 0 and have the wrong sign for their bit of
    /// the payload coded again. 0 for a row without noise, and never above E.
    pub noise: usize,
}

/// Codes `payload` into `out`: CRC, RNTI, input interleaver, polar code, rate matching, scrambling.
///
/// Any numbers, lengths and bytes may be handed in. On a refusal `out` is untouched.
///
/// ```
/// use speltfeather::{Numbers, Refusal, encode};
///
/// // The DCI that announces SIB1, with the RNTI of system information.
/// let numbers = Numbers { a: 37, e: 432, rnti: 0xFFFF, n_id: 1, n_rnti: 0 };
/// let mut payload = [0; 37];
/// for place in [1, 3, 5, 16, 18] {
///     payload[place] = 1;
/// }
/// let mut out = [0; 432];
/// encode(&numbers, &payload, &mut out)?;
/// assert_eq!(out[..16], [0, 0, 0, 0, 1, 0, 0, 1, 0, 1, 0, 1, 1, 1, 1, 1]);
///
/// payload[5] = 2;
/// assert_eq!(encode(&numbers, &payload, &mut out), Err(Refusal::BadEntry(5)));
/// assert_eq!(encode(&numbers, &payload[1..], &mut out), Err(Refusal::InputLength));
/// # Ok::<(), Refusal>(())
/// ```
///
/// # Errors
/// The first [`Refusal`] that applies; never [`Refusal::ParityMismatch`].
pub fn encode(numbers: &Numbers, payload: &[u8], out: &mut [u8]) -> Result<(), Refusal> {
    // SAFETY: both pointers come from slices, so they are not null, are valid for the lengths
    // handed over and do not overlap. Nothing else is asked of a caller.
    let answer = unsafe {
        spelt_encode(
            numbers.a,
            numbers.e,
            numbers.rnti,
            numbers.n_id,
            numbers.n_rnti,
            payload.as_ptr(),
            payload.len(),
            out.as_mut_ptr(),
            out.len(),
        )
    };
    uncounted(answer)
}

/// Reads the payload back from soft values, and checks its parity.
///
/// `soft` has a value for each coded bit, in the order of [`encode`]'s output and still scrambled: its
/// log-likelihood ratio, scaled to -127..=127. Positive leans to bit 0, negative to bit 1, and 0 says
/// nothing. Where the parity matches, `out` takes the payload, and [`Reading::noise`] says how many of
/// the values were on the wrong side.
///
/// Any numbers, lengths and values may be handed in. On a refusal `out` is untouched.
///
/// ```
/// use speltfeather::{Numbers, Refusal, decode, encode};
///
/// let numbers = Numbers { a: 12, e: 108, rnti: 0x4601, n_id: 500, n_rnti: 0 };
/// let payload = [1, 0, 1, 1, 0, 0, 1, 0, 1, 1, 1, 0];
/// let mut coded = [0; 108];
/// encode(&numbers, &payload, &mut coded)?;
///
/// // As received: of uneven strength, one value missing and one on the wrong side.
/// let mut soft: Vec<i32> = coded.iter().map(|&bit| if bit == 0 { 90 } else { -20 }).collect();
/// soft[7] = 0;
/// soft[50] = -soft[50] / 5;
/// let mut out = [0; 12];
/// let reading = decode(&numbers, &soft, &mut out)?;
/// assert_eq!((out, reading.noise), (payload, 1));
///
/// // A message for another RNTI, or scrambled for another n_RNTI, is not taken.
/// for other in [Numbers { rnti: 0x4602, ..numbers }, Numbers { n_rnti: 0x4601, ..numbers }] {
///     assert_eq!(decode(&other, &soft, &mut out), Err(Refusal::ParityMismatch));
/// }
/// soft[107] = 128;
/// assert_eq!(decode(&numbers, &soft, &mut out), Err(Refusal::BadEntry(107)));
/// # Ok::<(), Refusal>(())
/// ```
///
/// # Errors
/// The first [`Refusal`] that applies.
pub fn decode(numbers: &Numbers, soft: &[i32], out: &mut [u8]) -> Result<Reading, Refusal> {
    // SAFETY: as in `encode`.
    let answer = unsafe {
        spelt_decode(
            numbers.a,
            numbers.e,
            numbers.rnti,
            numbers.n_id,
            numbers.n_rnti,
            soft.as_ptr(),
            soft.len(),
            out.as_mut_ptr(),
            out.len(),
        )
    };
    read(answer, 7)
}

/// Codes `payload`, gives each coded bit its strength, with the sign that says its value, and decodes
/// these soft values into `out`: a self-test for the start-up of a tester.
///
/// Wherever the call is not refused, `out` then holds the payload, and the noise count is 0. The place of
/// a bad entry counts through the payload and then the strengths. On a refusal `out` is untouched.
///
/// ```
/// use speltfeather::{Numbers, Refusal, loopback};
///
/// let numbers = Numbers { a: 40, e: 216, rnti: 0x4601, n_id: 500, n_rnti: 0 };
/// let payload = [1; 40];
/// let mut strengths: Vec<i32> = (1..=127).cycle().take(216).collect();
/// let mut out = [0; 40];
/// let reading = loopback(&numbers, &payload, &strengths, &mut out)?;
/// assert_eq!((out, reading.noise), (payload, 0));
///
/// strengths[3] = 0;
/// assert_eq!(loopback(&numbers, &payload, &strengths, &mut out), Err(Refusal::BadEntry(40 + 3)));
/// # Ok::<(), Refusal>(())
/// ```
///
/// # Errors
/// The first [`Refusal`] that applies; never [`Refusal::ParityMismatch`].
pub fn loopback(
    numbers: &Numbers,
    payload: &[u8],
    strengths: &[i32],
    out: &mut [u8],
) -> Result<Reading, Refusal> {
    // SAFETY: as in `encode`; the two inputs, which may overlap, are only read.
    let answer = unsafe {
        spelt_loopback(
            numbers.a,
            numbers.e,
            numbers.rnti,
            numbers.n_id,
            numbers.n_rnti,
            payload.as_ptr(),
            payload.len(),
            strengths.as_ptr(),
            strengths.len(),
            out.as_mut_ptr(),
            out.len(),
        )
    };
    read(answer, 6)
}

/// How many soft values a CCE (control channel element) has.
pub const CCE: usize = 108;

/// How long the payload buffer of [`search`] is: the largest payload size.
pub const MAX_PAYLOAD: usize = 140;

/// Where a message may lie in a region, and what it would be read under. Any numbers may stand here;
/// a candidate that is no possible message does not decode.
#[repr(C)]
#[derive(Clone, Copy, Debug, PartialEq, Eq)]
pub struct Candidate {
    /// Its first CCE, counted from 0: a multiple of its level.
    pub first_cce: u32,
    /// Aggregation level, the number of its CCEs: 1, 2, 4, 8 or 16.
    pub level: u32,
    /// Payload size A.
    pub a: u32,
    /// Radio number: at most 65535.
    pub rnti: u32,
    /// n_RNTI, as in [`Numbers::n_rnti`]: at most 65535, and 0 in a common search space.
    pub n_rnti: u32,
}

// The library takes a list of candidates as a list of numbers.
const _: () = assert!(size_of::<Candidate>() == 5 * size_of::<u32>());

/// What a search has found. Later versions may say more.
#[derive(Clone, Copy, Debug, PartialEq, Eq)]
#[non_exhaustive]
pub struct Found<'a> {
    /// The place in the list, from 0, of the first candidate that decodes.
    pub candidate: usize,
    /// Its payload size A: so many bytes at the front of the buffer are the payload.
    pub size: usize,
    /// The soft values that it was read from, in the caller's region.
    pub stretch: &'a [i32],
    /// The noise count, as in [`Reading::noise`]: of the values of `stretch` alone.
    pub noise: usize,
}

/// Looks for a message in a region: tries the candidates in the order of the list, under one `n_id`,
/// and stops at the first that decodes.
///
/// `region` has the soft values of its CCEs, the first CCE first, as [`decode`] takes them: [`CCE`] for
/// each, two for each QPSK symbol, those of the reference signals left out. A candidate's CCEs lie one
/// behind the other, as they do with one symbol and without interleaved mapping; candidates may share
/// CCEs. `payload` has [`MAX_PAYLOAD`] bytes, of which the first [`Found::size`] take the payload; the
/// others, and on a refusal all, are untouched.
///
/// A candidate decodes exactly if it lies in the region as a message may and [`decode`] accepts its own
/// `108 * level` values under its numbers. So it counts as not decoding, and the next is tried, if its
/// level is not 1, 2, 4, 8 or 16, its first CCE is not a multiple of its level, it reaches outside the
/// region, its RNTI or n_RNTI is above 65535, or one of the numbers 1 to 6 applies to it. A soft value
/// outside -127..=127 bars only the candidates that it is a part of.
///
/// To find further messages, search again with the candidates behind the one named. Search spaces with
/// different n_ID take a search each.
///
/// A message of level 16 may also decode as one of level 8 with the same first CCE, and without noise
/// does, since its first 864 bits are those of level 8; one of level 8 may decode as one of level 16.
/// The order of the list decides which is named, so that the level named need not be the one that was
/// sent.
///
/// Each candidate that is tried adds to the chance that noise is taken for a message: about 2^-24 for
/// each, so about 3 in a million for 44.
///
/// ```
/// use speltfeather::{CCE, Candidate, MAX_PAYLOAD, Numbers, Refusal, encode, search};
///
/// // A message of level 2 in the CCEs 4 and 5 of a region of 8.
/// let numbers = Numbers { a: 40, e: 216, rnti: 0x4601, n_id: 500, n_rnti: 0 };
/// let sent = [1; 40];
/// let mut coded = [0; 216];
/// encode(&numbers, &sent, &mut coded)?;
/// let mut region = [0; 8 * CCE];
/// region[4 * CCE..6 * CCE].copy_from_slice(&coded.map(|bit| if bit == 0 { 20 } else { -20 }));
///
/// let at = |first_cce, level| Candidate { first_cce, level, a: 40, rnti: 0x4601, n_rnti: 0 };
/// let list = [at(0, 8), at(0, 2), at(2, 2), at(4, 2), at(6, 2)];
/// let mut payload = [9; MAX_PAYLOAD];
/// let found = search(500, &region, &list, &mut payload)?;
/// assert_eq!((found.candidate, found.size, found.noise), (3, 40, 0));
/// assert_eq!((&payload[..40], &payload[40..]), (&sent[..], &[9; 100][..]));
/// assert!(std::ptr::eq(found.stretch, &region[4 * CCE..6 * CCE]));
///
/// let refusal = search(500, &region, &list[..3], &mut payload);
/// assert_eq!(refusal, Err(Refusal::NoCandidate));
/// # Ok::<(), Refusal>(())
/// ```
///
/// # Errors
/// The first that applies of [`Refusal::InputLength`], [`Refusal::OutputLength`] and
/// [`Refusal::NoCandidate`]; an empty region or list gives the last.
pub fn search<'a>(
    n_id: u16,
    region: &'a [i32],
    candidates: &[Candidate],
    payload: &mut [u8],
) -> Result<Found<'a>, Refusal> {
    // SAFETY: as in `encode`. A candidate is five numbers without room between them, so the list is
    // valid as numbers too; a slice has at most isize::MAX bytes, so five times its length cannot wrap.
    let answer = unsafe {
        spelt_search_list(
            n_id,
            region.as_ptr(),
            region.len(),
            candidates.as_ptr().cast(),
            5 * candidates.len(),
            payload.as_mut_ptr(),
            payload.len(),
        )
    };
    let (candidate, noise) = named(answer)?;
    let found = candidates[candidate];
    let start = CCE * found.first_cce as usize;
    Ok(Found {
        candidate,
        size: found.a as usize,
        stretch: &region[start..start + CCE * found.level as usize],
        noise,
    })
}

/// Writes what each of the positions 0..=511 of the code for `a` and `e` is for into `out`: 0 frozen,
/// 1 information, 2 frozen because of puncturing, 3 because of shortening, 4 not a position of this
/// code. [`Code`] is the same with names.
///
/// Any sizes and lengths may be handed in. On a refusal `out` is untouched.
///
/// ```
/// use speltfeather::{Refusal, describe};
///
/// let mut out = [9; 512];
/// describe(24, 108, &mut out)?;
/// assert_eq!(out[107..129], [vec![1], vec![3; 20], vec![4]].concat());
///
/// assert_eq!(describe(24, 108, &mut out[1..]), Err(Refusal::OutputLength));
/// assert_eq!(describe(85, 108, &mut out), Err(Refusal::TooManyBits));
/// # Ok::<(), Refusal>(())
/// ```
///
/// # Errors
/// The first [`Refusal`] that applies; never [`Refusal::InputLength`], [`Refusal::BadEntry`] or
/// [`Refusal::ParityMismatch`].
pub fn describe(a: u64, e: u64, out: &mut [u8]) -> Result<(), Refusal> {
    // SAFETY: the pointer comes from a slice, so it is not null and is valid for the length handed over.
    let answer = unsafe { spelt_describe(a, e, out.as_mut_ptr(), out.len()) };
    uncounted(answer)
}

/// What a position of a code is for.
#[derive(Clone, Copy, Debug, PartialEq, Eq)]
pub enum Role {
    /// Frozen, since other positions are more reliable.
    Frozen,
    /// Carries a bit of payload or parity.
    Information,
    /// Frozen because of puncturing.
    Punctured,
    /// Frozen because of shortening.
    Shortened,
    /// Not a position of this code: not below N.
    PastEnd,
}

impl Role {
    fn of(byte: u8) -> Self {
        match byte {
            0 => Role::Frozen,
            1 => Role::Information,
            2 => Role::Punctured,
            3 => Role::Shortened,
            4 => Role::PastEnd,
            _ => panic!("the library told the role {byte}, which it never does"),
        }
    }
}

/// How E coded bits are made of the N code bits.
#[derive(Clone, Copy, Debug, PartialEq, Eq)]
pub enum RateMatching {
    /// E is at least N: code bits are sent again.
    Repetition,
    /// Code bits at the front of the sub-block order are not sent.
    Puncturing,
    /// Code bits at its end, known to be 0, are not sent.
    Shortening,
}

/// The polar code for a payload size and a coded length, as the calls use it.
///
/// ```
/// use speltfeather::{Code, RateMatching, Refusal, Role};
///
/// let code = Code::of(37, 432)?;
/// assert_eq!((code.length(), code.kind()), (512, RateMatching::Puncturing));
/// assert_eq!(code.information().count(), 37 + 24);
///
/// let code = Code::of(12, 108)?;
/// assert!(code.barred().eq(0..=41));
/// assert_eq!((code.roles().len(), code.roles()[127]), (128, Role::Information));
///
/// let code = Code::of(24, 108)?;
/// assert_eq!(code.kind(), RateMatching::Shortening);
/// assert!(code.barred().eq(108..128));
///
/// assert_eq!(Code::of(140, 864)?.kind(), RateMatching::Repetition);
/// assert_eq!(Code::of(12, 107).unwrap_err(), Refusal::CodedLength);
/// # Ok::<(), Refusal>(())
/// ```
#[derive(Clone, Debug, PartialEq, Eq)]
pub struct Code {
    roles: [Role; 512],
}

impl Code {
    /// The code for payload size `a` and coded length `e`.
    ///
    /// # Errors
    /// The first of [`Refusal::PayloadSize`], [`Refusal::CodedLength`] and [`Refusal::TooManyBits`]
    /// that applies.
    pub fn of(a: u64, e: u64) -> Result<Self, Refusal> {
        let mut told = [0; 512];
        describe(a, e, &mut told)?;
        let roles = told.map(Role::of);
        Ok(Self { roles })
    }

    /// The code length N.
    pub fn length(&self) -> usize {
        let past = |&role: &Role| role == Role::PastEnd;
        self.roles.iter().position(past).unwrap_or(512)
    }

    /// How coded bits are made of code bits.
    pub fn kind(&self) -> RateMatching {
        if self.roles.contains(&Role::Punctured) {
            RateMatching::Puncturing
        } else if self.roles.contains(&Role::Shortened) {
            RateMatching::Shortening
        } else {
            RateMatching::Repetition
        }
    }

    /// What each position is for, N of them.
    pub fn roles(&self) -> &[Role] {
        &self.roles[..self.length()]
    }

    /// The positions that carry payload and parity, ascending: K of them.
    pub fn information(&self) -> impl Iterator<Item = usize> {
        self.positions(|role| role == Role::Information)
    }

    /// The positions that are frozen because of puncturing or shortening, ascending.
    pub fn barred(&self) -> impl Iterator<Item = usize> {
        self.positions(|role| matches!(role, Role::Punctured | Role::Shortened))
    }

    fn positions(&self, wanted: fn(Role) -> bool) -> impl Iterator<Item = usize> {
        (0..512).filter(move |&position| wanted(self.roles[position]))
    }
}

/// README's program is a test as well.
#[cfg(doctest)]
#[doc = include_str!("../../../README.md")]
struct Readme;

/// An answer of the C interface, taken apart: the number, then the place or the candidate, then the
/// noise count and what is behind it, which is 0.
fn parts(answer: u64) -> (u64, usize, usize) {
    let sixteen_bits = |from: u32| (answer >> from & 0xFFFF) as usize;
    (answer & 0xFF, sixteen_bits(8), (answer >> 24) as usize)
}

/// The answer of a call that decodes and whose number is at most `last`.
fn read(answer: u64, last: u64) -> Result<Reading, Refusal> {
    match parts(answer) {
        (0, 0, noise) if noise <= 1728 => Ok(Reading { noise }),
        (1, 0, 0) => Err(Refusal::PayloadSize),
        (2, 0, 0) => Err(Refusal::CodedLength),
        (3, 0, 0) => Err(Refusal::TooManyBits),
        (4, 0, 0) => Err(Refusal::InputLength),
        (5, 0, 0) => Err(Refusal::OutputLength),
        (6, place, 0) => Err(Refusal::BadEntry(place)),
        (7, 0, 0) if last == 7 => Err(Refusal::ParityMismatch),
        (number, place, noise) => panic!(
            "the library answered {number} with place {place} and noise {noise}, which this call never does"
        ),
    }
}

/// The answer of a call that counts nothing.
fn uncounted(answer: u64) -> Result<(), Refusal> {
    match read(answer, 6)? {
        Reading { noise: 0 } => Ok(()),
        Reading { noise } => panic!("the library counted {noise} where there is no noise"),
    }
}

/// The answer of the search: the candidate and its noise count.
fn named(answer: u64) -> Result<(usize, usize), Refusal> {
    match parts(answer) {
        (0, candidate, noise) if noise <= 1728 => Ok((candidate, noise)),
        (4, 0, 0) => Err(Refusal::InputLength),
        (5, 0, 0) => Err(Refusal::OutputLength),
        (8, 0, 0) => Err(Refusal::NoCandidate),
        (number, candidate, noise) => panic!(
            "the search answered {number} with candidate {candidate} and noise {noise}, which it never does"
        ),
    }
}

#[cfg(test)]
mod tests {
    use super::*;

    #[test]
    fn each_refusal_has_its_number() {
        for number in [1, 2, 3, 4, 5, 7] {
            assert_eq!(u64::from(read(number, 7).unwrap_err().number()), number);
        }
        assert_eq!(uncounted(0), Ok(()));
        for noise in [0, 1, 1728] {
            let answer = (noise as u64) << 24;
            assert_eq!(read(answer, 7), Ok(Reading { noise }));
            assert_eq!(named(answer + 256 * 43), Ok((43, noise)));
        }
        assert_eq!(read(6, 6), Err(Refusal::BadEntry(0)));
        assert_eq!(read(6 + 256 * 1727, 6), Err(Refusal::BadEntry(1727)));
        assert_eq!(Refusal::BadEntry(1727).number(), 6);
        assert_eq!(read(7, 7), Err(Refusal::ParityMismatch));
        for number in [4, 5, 8] {
            assert_eq!(u64::from(named(number).unwrap_err().number()), number);
        }
        assert_eq!(named(0), Ok((0, 0)));
        assert_eq!(named(8), Err(Refusal::NoCandidate));
    }

    #[test]
    fn refusals_say_why() {
        assert_eq!(
            Refusal::BadEntry(7).to_string(),
            "entry 7 of the input is out of range"
        );
        let refusals = (1..=7).map(|n| read(n, 7).unwrap_err());
        let texts: std::collections::HashSet<String> = refusals
            .chain([Refusal::NoCandidate])
            .map(|refusal| refusal.to_string())
            .collect();
        assert_eq!(texts.len(), 8);
    }

    #[test]
    #[should_panic(expected = "told the role 5")]
    fn other_roles_are_not_taken() {
        let _ = Role::of(5);
    }

    #[test]
    #[should_panic(expected = "answered 7 with place 0")]
    fn parity_mismatch_is_taken_from_decoding_alone() {
        let _ = read(7, 6);
    }

    #[test]
    #[should_panic(expected = "answered 7 with place 1")]
    fn parity_mismatch_with_a_place_is_not_taken() {
        let _ = read(7 + 256, 7);
    }

    #[test]
    #[should_panic(expected = "answered 8 with place 0")]
    fn no_candidate_is_taken_from_searching_alone() {
        let _ = read(8, 7);
    }

    #[test]
    #[should_panic(expected = "answered 7 with candidate 0")]
    fn parity_mismatch_is_not_taken_from_searching() {
        let _ = named(7);
    }

    #[test]
    #[should_panic(expected = "answered 8 with candidate 1")]
    fn candidate_without_a_message_is_not_taken() {
        let _ = named(8 + 256);
    }

    #[test]
    #[should_panic(expected = "answered 7 with place 0 and noise 5")]
    fn noise_with_a_parity_mismatch_is_not_taken() {
        let _ = read(7 + (5 << 24), 7);
    }

    #[test]
    #[should_panic(expected = "answered 8 with candidate 0 and noise 5")]
    fn noise_without_a_candidate_is_not_taken() {
        let _ = named(8 + (5 << 24));
    }

    #[test]
    #[should_panic(expected = "answered 0 with place 0 and noise 65536")]
    fn bits_above_the_noise_count_are_not_taken() {
        let _ = read(1 << 40, 7);
    }

    #[test]
    #[should_panic(expected = "counted 1 where")]
    fn noise_is_taken_from_decoding_alone() {
        let _ = uncounted(1 << 24);
    }

    #[test]
    #[should_panic(expected = "answered 1 with place 3")]
    fn place_without_bad_entry_is_not_taken() {
        let _ = read(1 + 256 * 3, 6);
    }
}

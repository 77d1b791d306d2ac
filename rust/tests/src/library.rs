//! The library's calls, each made twice: as the header declares it, with the answer taken apart to its
//! last bit, and through the wrapper, which must say the same and leave the same in the buffer.

// The wrapper's own declarations: it keeps them to itself.
#[path = "../../speltfeather/src/c.rs"]
mod c;

use crate::searches::{candidates, span};
use c::{spelt_decode, spelt_describe, spelt_encode, spelt_loopback, spelt_search_list};
use reference::Answer;
use reference::searching::NUMBERS;
use speltfeather::{Numbers, Refusal};
use std::ptr;

/// What the wrapper gives: the candidate, or 0, with the noise count, or 0.
type Wrapped = Result<(usize, usize), Refusal>;

/// The parts of an answer. Behind them, from bit 40 on, there is nothing.
fn parts(answer: u64) -> Answer {
    assert_eq!(answer >> 40, 0, "in the answer {answer:#x}");
    let sixteen_bits = |from: u32| usize::from((answer >> from) as u16);
    (answer as u8, sixteen_bits(8), sixteen_bits(24))
}

fn unwrapped(given: Wrapped) -> Answer {
    match given {
        Ok((candidate, noise)) => (0, candidate, noise),
        Err(refusal @ Refusal::BadEntry(place)) => (refusal.number(), place, 0),
        Err(refusal) => (refusal.number(), 0, 0),
    }
}

/// What the archive gives, where the wrapper gives the same.
fn twice(
    out: &mut [u8],
    archive: impl FnOnce(&mut [u8]) -> u64,
    wrapper: impl FnOnce(&mut [u8]) -> Wrapped,
) -> Answer {
    let mut other = out.to_vec();
    let answer = parts(archive(out));
    assert_eq!(answer, unwrapped(wrapper(&mut other)), "by the wrapper");
    assert_eq!(out, other, "by the wrapper");
    answer
}

/// A call of the interface with one input, bits or soft values.
pub type Plain<T> =
    unsafe extern "C" fn(u64, u64, u16, u16, u16, *const T, usize, *mut u8, usize) -> u64;

/// The whole answer of such a call.
pub fn answer<T>(call: Plain<T>, numbers: &Numbers, input: &[T], out: &mut [u8]) -> u64 {
    // SAFETY: the pointers come from two slices and stand with their lengths.
    unsafe {
        call(
            numbers.a,
            numbers.e,
            numbers.rnti,
            numbers.n_id,
            numbers.n_rnti,
            input.as_ptr(),
            input.len(),
            out.as_mut_ptr(),
            out.len(),
        )
    }
}

pub fn encode(numbers: &Numbers, payload: &[u8], out: &mut [u8]) -> Answer {
    let archive = |out: &mut [u8]| answer(spelt_encode, numbers, payload, out);
    let wrapper = |out: &mut [u8]| speltfeather::encode(numbers, payload, out);
    twice(out, archive, |out| wrapper(out).map(|()| (0, 0)))
}

pub fn decode(numbers: &Numbers, soft: &[i32], out: &mut [u8]) -> Answer {
    let archive = |out: &mut [u8]| answer(spelt_decode, numbers, soft, out);
    let wrapper = |out: &mut [u8]| speltfeather::decode(numbers, soft, out);
    twice(out, archive, |out| wrapper(out).map(|read| (0, read.noise)))
}

pub fn loopback(numbers: &Numbers, payload: &[u8], strengths: &[i32], out: &mut [u8]) -> Answer {
    // SAFETY: as in `answer`, with three slices.
    let archive = |out: &mut [u8]| unsafe {
        spelt_loopback(
            numbers.a,
            numbers.e,
            numbers.rnti,
            numbers.n_id,
            numbers.n_rnti,
            payload.as_ptr(),
            payload.len(),
            strengths.as_ptr(),
            strengths.len(),
            out.as_mut_ptr(),
            out.len(),
        )
    };
    let wrapper = |out: &mut [u8]| speltfeather::loopback(numbers, payload, strengths, out);
    twice(out, archive, |out| wrapper(out).map(|read| (0, read.noise)))
}

pub fn describe(a: u64, e: u64, out: &mut [u8]) -> Answer {
    // SAFETY: as in `answer`, with one slice.
    let archive = |out: &mut [u8]| unsafe { spelt_describe(a, e, out.as_mut_ptr(), out.len()) };
    let wrapper = |out: &mut [u8]| speltfeather::describe(a, e, out);
    twice(out, archive, |out| wrapper(out).map(|()| (0, 0)))
}

/// A search with the list as numbers, which the wrapper takes in fives alone. The stretch that it hands
/// back must be the caller's own, where the candidate says.
pub fn search(n_id: u16, region: &[i32], list: &[u32], out: &mut [u8]) -> Answer {
    // SAFETY: as in `answer`, with three slices.
    let archive = |out: &mut [u8]| unsafe {
        spelt_search_list(
            n_id,
            region.as_ptr(),
            region.len(),
            list.as_ptr(),
            list.len(),
            out.as_mut_ptr(),
            out.len(),
        )
    };
    let wrapper = |out: &mut [u8]| {
        let list = candidates(list);
        let found = speltfeather::search(n_id, region, &list, out)?;
        let named = &list[found.candidate];
        assert_eq!(found.size, named.a as usize);
        assert!(ptr::eq(found.stretch, &region[span(named)]));
        Ok((found.candidate, found.noise))
    };
    match list.len() % NUMBERS {
        0 => twice(out, archive, wrapper),
        _ => parts(archive(out)),
    }
}

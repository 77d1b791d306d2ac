//! The programs that are timed, and the messages that they are given.

use channel::{Random, received};
use conformance::calls::{second, uncounted};
use conformance::library::{Plain, answer};
use conformance::trials;
use reference::Answer;
use speltfeather::{Numbers, Refusal};

unsafe extern "C" {
    static plain_encode_1: Plain<u8>;
    static plain_encode_16: Plain<u8>;
    static plain_decode_1: Plain<i32>;
    static plain_decode_16: Plain<i32>;
}

/// A message that is coded or decoded, with a buffer for the output.
pub struct Message<T> {
    pub numbers: Numbers,
    pub input: Vec<T>,
    pub out: Vec<u8>,
}

/// What a call gives: the noise count, or the number that it refuses with.
pub type Given = Result<usize, u8>;

pub type Contestant<T> = fn(&Numbers, &[T], &mut [u8]) -> Given;

pub type Contestants<T, const N: usize> = [Contestant<T>; N];

/// The library, plain C with 1 and with 16 terms of the Gold sequence at a time, and the reference.
pub const CODERS: Contestants<u8, 4> = [
    |numbers, payload, out| library(speltfeather::encode(numbers, payload, out).map(|()| 0)),
    // SAFETY: a constant of plain.c.
    |numbers, payload, out| call(unsafe { plain_encode_1 }, numbers, payload, out),
    // SAFETY: a constant of plain.c.
    |numbers, payload, out| call(unsafe { plain_encode_16 }, numbers, payload, out),
    |numbers, payload, out| {
        let answer = reference::encode(&second(numbers), payload, out);
        reference(uncounted(answer))
    },
];

pub const DECODERS: Contestants<i32, 4> = [
    |numbers, soft, out| library(speltfeather::decode(numbers, soft, out).map(|read| read.noise)),
    // SAFETY: a constant of plain.c.
    |numbers, soft, out| call(unsafe { plain_decode_1 }, numbers, soft, out),
    // SAFETY: a constant of plain.c.
    |numbers, soft, out| call(unsafe { plain_decode_16 }, numbers, soft, out),
    |numbers, soft, out| reference(reference::decode(&second(numbers), soft, out)),
];

fn library(answer: Result<usize, Refusal>) -> Given {
    answer.map_err(|refusal| refusal.number())
}

fn reference((number, _, noise): Answer) -> Given {
    given(number, noise)
}

fn given(number: u8, noise: usize) -> Given {
    match number {
        0 => Ok(noise),
        _ => Err(number),
    }
}

/// What an answer of the interface says.
pub fn said(answer: u64) -> Given {
    given(answer as u8, (answer >> 24) as usize)
}

/// Makes a call.
pub fn call<T>(call: Plain<T>, numbers: &Numbers, input: &[T], out: &mut [u8]) -> Given {
    said(answer(call, numbers, input, out))
}

/// A random payload to be coded.
pub fn to_code(numbers: Numbers, random: &mut Random) -> Message<u8> {
    Message {
        numbers,
        input: random.bits(numbers.a as usize),
        out: vec![0; numbers.e as usize],
    }
}

/// A random payload received with noise, not too much to be accepted.
pub fn to_decode(numbers: Numbers, random: &mut Random) -> Message<i32> {
    Message {
        numbers,
        input: accepted(&numbers, random),
        out: vec![0; numbers.a as usize],
    }
}

/// The same for another RNTI, so that the parity does not match.
pub fn to_refuse(numbers: Numbers, random: &mut Random) -> Message<i32> {
    let mut message = to_decode(numbers, random);
    message.numbers.rnti ^= 1;
    let refused = speltfeather::decode(&message.numbers, &message.input, &mut message.out);
    assert_eq!(refused, Err(Refusal::ParityMismatch));
    message
}

/// The soft values of such a payload.
pub fn accepted(numbers: &Numbers, random: &mut Random) -> Vec<i32> {
    let Numbers { a, e, .. } = *numbers;
    let noise = (e as f64 / (6 * (a + 24)) as f64).sqrt();
    let mut out = vec![0; a as usize];
    loop {
        let coded = trials::coded(numbers, &random.bits(a as usize));
        let soft = received(&coded, noise, 20.0, random);
        if speltfeather::decode(numbers, &soft, &mut out).is_ok() {
            return soft;
        }
    }
}

/// Asserts that all give the same answer and the same bits.
pub fn assert_all_equal<T, const N: usize>(
    contestants: &Contestants<T, N>,
    messages: &[Message<T>],
) {
    for Message {
        numbers,
        input,
        out,
    } in messages
    {
        let given = contestants.map(|contestant| {
            let mut out = vec![9; out.len()];
            (contestant(numbers, input, &mut out), out)
        });
        assert!(given.iter().all(|one| *one == given[0]), "{numbers:?}");
    }
}

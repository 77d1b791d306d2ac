//! Calls that are put to both programs.

use crate::{Random, library};
use reference::Answer;
use speltfeather::Numbers;
use std::fmt::Debug;
use std::sync::Barrier;
use std::thread;

/// What a call gives: the number, the place, the noise count, and the output buffer afterwards.
#[derive(Clone, Debug, PartialEq, Eq)]
pub struct Outcome {
    pub number: u8,
    pub place: usize,
    pub noise: usize,
    pub out: Vec<u8>,
}

impl Outcome {
    pub fn of((number, place, noise): Answer, out: Vec<u8>) -> Self {
        Self {
            number,
            place,
            noise,
            out,
        }
    }
}

/// The answer of a call that counts no noise.
pub fn uncounted((number, place): (u8, usize)) -> Answer {
    (number, place, 0)
}

/// The numbers of a call, as the reference takes them.
pub fn second(numbers: &Numbers) -> reference::Numbers {
    let Numbers {
        a,
        e,
        rnti,
        n_id,
        n_rnti,
    } = *numbers;
    reference::Numbers {
        a,
        e,
        rnti,
        n_id,
        n_rnti,
    }
}

/// A call, with what the output buffer holds before it.
pub trait Call: Debug {
    fn out(&self) -> &[u8];

    /// Puts the call to the library.
    fn ask_library(&self, out: &mut [u8]) -> Answer;

    /// Puts the call to the reference.
    fn ask_reference(&self, out: &mut [u8]) -> Answer;

    /// What the library gives. The buffer stands between guards, which must not change either.
    fn library(&self) -> Outcome {
        const GUARD: [u8; 64] = [0x5A; 64];
        let mut room = [&GUARD[..], self.out(), &GUARD].concat();
        let end = GUARD.len() + self.out().len();
        let out = &mut room[GUARD.len()..end];
        let answer = self.ask_library(out);
        let out = out.to_vec();
        assert_eq!(room[..GUARD.len()], GUARD, "written before the buffer");
        assert_eq!(room[end..], GUARD, "written behind the buffer");
        Outcome::of(answer, out)
    }

    /// What the reference gives.
    fn reference(&self) -> Outcome {
        let mut out = self.out().to_vec();
        let answer = self.ask_reference(&mut out);
        Outcome::of(answer, out)
    }

    /// What both give; that they differ is an error.
    fn compared(&self) -> Outcome {
        let outcome = self.library();
        assert_eq!(outcome, self.reference(), "{self:?}");
        outcome
    }

    /// What a refusal must give: no noise count, and the buffer as it was.
    fn refused(&self, number: u8, place: usize) -> Outcome {
        Outcome::of((number, place, 0), self.out().to_vec())
    }

    /// Asserts that both give this number and place, and leave the buffer alone if it is a refusal.
    fn expect(&self, number: u8, place: usize) {
        let outcome = self.compared();
        assert_eq!((outcome.number, outcome.place), (number, place), "{self:?}");
        if number != 0 {
            assert_eq!(outcome, self.refused(number, place), "{self:?}");
        }
    }
}

/// A message to be coded.
#[derive(Clone, Debug)]
pub struct Encode {
    pub numbers: Numbers,
    pub payload: Vec<u8>,
    pub out: Vec<u8>,
}

impl Encode {
    /// A call with an output that fits and holds random bytes.
    pub fn fitting(numbers: Numbers, payload: Vec<u8>, random: &mut Random) -> Self {
        let out = random.bytes(numbers.e as usize);
        Self {
            numbers,
            payload,
            out,
        }
    }
}

impl Call for Encode {
    fn out(&self) -> &[u8] {
        &self.out
    }

    fn ask_library(&self, out: &mut [u8]) -> Answer {
        library::encode(&self.numbers, &self.payload, out)
    }

    fn ask_reference(&self, out: &mut [u8]) -> Answer {
        uncounted(reference::encode(
            &second(&self.numbers),
            &self.payload,
            out,
        ))
    }
}

/// Soft values to be decoded.
#[derive(Clone, Debug)]
pub struct Decode {
    pub numbers: Numbers,
    pub soft: Vec<i32>,
    pub out: Vec<u8>,
}

impl Decode {
    /// A call with an output that fits and holds random bytes.
    pub fn fitting(numbers: Numbers, soft: Vec<i32>, random: &mut Random) -> Self {
        let out = random.bytes(numbers.a as usize);
        Self { numbers, soft, out }
    }
}

impl Call for Decode {
    fn out(&self) -> &[u8] {
        &self.out
    }

    fn ask_library(&self, out: &mut [u8]) -> Answer {
        library::decode(&self.numbers, &self.soft, out)
    }

    fn ask_reference(&self, out: &mut [u8]) -> Answer {
        reference::decode(&second(&self.numbers), &self.soft, out)
    }
}

/// A message to be coded and decoded with these strengths.
#[derive(Clone, Debug)]
pub struct Loopback {
    pub numbers: Numbers,
    pub payload: Vec<u8>,
    pub strengths: Vec<i32>,
    pub out: Vec<u8>,
}

impl Loopback {
    /// A call with an output that fits and holds random bytes.
    pub fn fitting(
        numbers: Numbers,
        payload: Vec<u8>,
        strengths: Vec<i32>,
        random: &mut Random,
    ) -> Self {
        let out = random.bytes(numbers.a as usize);
        Self {
            numbers,
            payload,
            strengths,
            out,
        }
    }
}

impl Call for Loopback {
    fn out(&self) -> &[u8] {
        &self.out
    }

    fn ask_library(&self, out: &mut [u8]) -> Answer {
        library::loopback(&self.numbers, &self.payload, &self.strengths, out)
    }

    fn ask_reference(&self, out: &mut [u8]) -> Answer {
        let numbers = second(&self.numbers);
        reference::loopback(&numbers, &self.payload, &self.strengths, out)
    }
}

/// Sizes whose code is to be described.
#[derive(Clone, Debug)]
pub struct Describe {
    pub a: u64,
    pub e: u64,
    pub out: Vec<u8>,
}

impl Describe {
    /// A call with an output of this length, which holds random bytes.
    pub fn new(a: u64, e: u64, out_len: usize, random: &mut Random) -> Self {
        let out = random.bytes(out_len);
        Self { a, e, out }
    }
}

impl Call for Describe {
    fn out(&self) -> &[u8] {
        &self.out
    }

    fn ask_library(&self, out: &mut [u8]) -> Answer {
        library::describe(self.a, self.e, out)
    }

    fn ask_reference(&self, out: &mut [u8]) -> Answer {
        uncounted(reference::describe(self.a, self.e, out))
    }
}

/// Asserts that two threads which make calls of their own at once get what the reference gives.
pub fn assert_threads_agree<C: Call>(rounds: usize, seed: u64, make: fn(&mut Random) -> C) {
    let start = Barrier::new(2);
    let work = |seed| {
        let mut random = Random::new(seed);
        let calls: Vec<C> = (0..10).map(|_| make(&mut random)).collect();
        let expected: Vec<Outcome> = calls.iter().map(Call::reference).collect();
        start.wait();
        (0..rounds)
            .filter(|round| calls[round % 10].library() == expected[round % 10])
            .count()
    };
    let equal = thread::scope(|scope| {
        let work = &work;
        let threads = [seed, seed + 1].map(|seed| scope.spawn(move || work(seed)));
        threads.map(|thread| thread.join().expect("a thread that ends"))
    });
    assert_eq!(equal, [rounds, rounds]);
}

//! Calls made of random bytes: numbers, lengths and contents of every kind, answered as the reference
//! answers them, with nothing else written.
//!
//! `make robust` shows what was given; CALLS and SEED make the run longer or another.

use conformance::calls::{second, uncounted};
use conformance::faults::FAR;
use conformance::{Outcome, Random, accepted_pairs, library, rows, setting, trials};
use reference::searching::NUMBERS;
use reference::{Answer, CODED_LENGTHS};
use speltfeather::Numbers;
use std::ops::Range;
use std::sync::atomic::{AtomicU64, Ordering};
use std::thread;

/// The calls of one seed.
const CHUNK: u64 = 10_000;

/// The greatest length of a buffer.
const MOST: usize = 3600;

/// The accepted pairs with E = 108 or 216, which come first.
const SHORT: usize = 73 + 129;

/// What the entries around a buffer hold.
const GUARD: u8 = 0x5A;
const NUMBER_GUARD: u32 = 0x5A5A_5A5A;

/// What a call reads. What it has no use for is empty.
#[derive(Clone, Copy)]
struct Inputs<'a> {
    numbers: Numbers,
    payload: &'a [u8],
    values: &'a [i32],
    list: &'a [u32],
}

/// The lengths that a call asks for; none for what it does not read.
struct Asked {
    payload: Option<u64>,
    values: Option<u64>,
    out: u64,
}

/// A call of the library.
struct Subject {
    name: &'static str,
    /// The numbers that it can give.
    given: &'static [u8],
    asks: fn(&Numbers) -> Asked,
    /// Values that it takes, as many as are wanted.
    values: fn(&Numbers, usize, &mut Random) -> Vec<i32>,
    list: fn(&Numbers, &mut Random) -> Vec<u32>,
    library: fn(Inputs, &mut [u8]) -> Answer,
    reference: fn(Inputs, &mut [u8]) -> Answer,
}

const SUBJECTS: [Subject; 5] = [
    Subject {
        name: "encode",
        given: &[0, 1, 2, 3, 4, 5, 6],
        asks: |numbers| Asked {
            payload: Some(numbers.a),
            values: None,
            out: numbers.e,
        },
        values: |_, _, _| vec![],
        list: |_, _| vec![],
        library: |x, out| library::encode(&x.numbers, x.payload, out),
        reference: |x, out| uncounted(reference::encode(&second(&x.numbers), x.payload, out)),
    },
    Subject {
        name: "decode",
        given: &[0, 1, 2, 3, 4, 5, 6, 7],
        asks: |numbers| Asked {
            payload: None,
            values: Some(numbers.e),
            out: numbers.a,
        },
        values: soft_values,
        list: |_, _| vec![],
        library: |x, out| library::decode(&x.numbers, x.values, out),
        reference: |x, out| reference::decode(&second(&x.numbers), x.values, out),
    },
    Subject {
        name: "loopback",
        given: &[0, 1, 2, 3, 4, 5, 6],
        asks: |numbers| Asked {
            payload: Some(numbers.a),
            values: Some(numbers.e),
            out: numbers.a,
        },
        values: |_, count, random| rows::strengths(count, random),
        list: |_, _| vec![],
        library: |x, out| library::loopback(&x.numbers, x.payload, x.values, out),
        reference: |x, out| reference::loopback(&second(&x.numbers), x.payload, x.values, out),
    },
    Subject {
        name: "describe",
        given: &[0, 1, 2, 3, 5],
        asks: |_| Asked {
            payload: None,
            values: None,
            out: 512,
        },
        values: |_, _, _| vec![],
        list: |_, _| vec![],
        library: |x, out| library::describe(x.numbers.a, x.numbers.e, out),
        reference: |x, out| uncounted(reference::describe(x.numbers.a, x.numbers.e, out)),
    },
    Subject {
        name: "search",
        given: &[0, 4, 5, 8],
        asks: |numbers| Asked {
            payload: None,
            values: Some(numbers.e.saturating_mul(2)),
            out: 140,
        },
        values: region,
        list: candidates,
        library: |x, out| library::search(x.numbers.n_id, x.values, x.list, out),
        reference: |x, out| reference::search(x.numbers.n_id, x.values, x.list, out).0,
    },
];

/// How often each call gave each number.
type Tally = [[u64; 9]; SUBJECTS.len()];

/// A payload size at a border, or one that a program with narrower numbers would take for it.
fn border_size(random: &mut Random) -> u64 {
    let border: u64 = random.pick(&[0, 11, 12, 13, 83, 84, 85, 139, 140, 141, 255]);
    match random.below(3) {
        0 => random.pick(&FAR).wrapping_add(border),
        _ => border,
    }
}

/// The same for a coded length.
fn border_length(random: &mut Random) -> u64 {
    let border = random.pick(&CODED_LENGTHS) + random.pick(&[0, 0, 0, 1, u64::MAX]);
    match random.below(3) {
        0 => random.pick(&FAR).wrapping_add(border),
        _ => border,
    }
}

fn sizes(random: &mut Random, accepted: &[(u64, u64)]) -> (u64, u64) {
    match random.below(12) {
        0 => (random.u64(), random.u64()),
        1 => (random.below(200) as u64, random.below(MOST) as u64),
        2 => (random.pick(accepted).0, random.u64()),
        3 => (border_size(random), border_length(random)),
        4 => (border_size(random), random.pick(&CODED_LENGTHS)),
        5..7 => (random.pick(accepted).0, border_length(random)),
        7 => (random.between(80, 140) as u64, 108),
        // The reference takes long for the longer ones.
        8..11 => random.pick(&accepted[..SHORT]),
        _ => random.pick(accepted),
    }
}

/// Mostly the length that is asked for, as far as its low bits say it; else one near it or any.
fn length(asked: u64, random: &mut Random) -> usize {
    let fits = usize::from(asked as u16).min(MOST);
    match random.below(16) {
        0 => random.below(MOST + 1),
        1 => 0,
        2 => fits.saturating_sub(1),
        3 => fits + 1,
        _ => fits,
    }
}

/// Mostly bits; else any bytes, everywhere or at a place.
fn payload(count: usize, random: &mut Random) -> Vec<u8> {
    let mut payload = random.bits(count);
    match random.below(6) {
        0 => payload = random.bytes(count),
        1 if count > 0 => payload[random.below(count)] = random.u64() as u8,
        _ => {}
    }
    payload
}

/// A message in noise where the numbers are accepted and the length fits; else noise.
fn soft_values(numbers: &Numbers, count: usize, random: &mut Random) -> Vec<i32> {
    let Numbers { a, e, .. } = *numbers;
    if count as u64 != e || reference::refused_sizes(a, e).is_some() || random.below(4) == 0 {
        return (0..count).map(|_| random.between(-127, 127)).collect();
    }
    let coded = trials::coded(numbers, &random.bits(a as usize));
    let strengths = rows::strengths(count, random);
    let mut soft = reference::noiseless(&coded, &strengths);
    for _ in 0..random.pick(&[0, 0, 1, count / 50, count / 10]) {
        soft[random.below(count)] = random.between(-127, 127);
    }
    soft
}

/// Noise; where there are two stretches of E values, a message in the one that the identity's last bit
/// says.
fn region(numbers: &Numbers, count: usize, random: &mut Random) -> Vec<i32> {
    let mut values: Vec<i32> = (0..count).map(|_| random.between(-127, 127)).collect();
    if count as u64 == numbers.e.saturating_mul(2) {
        let start = usize::from(numbers.n_id & 1) * count / 2;
        values[start..start + count / 2].copy_from_slice(&soft_values(numbers, count / 2, random));
    }
    values
}

/// From a number to one near it, or to one that narrower numbers would take for it.
const FAR_STEPS: [u32; 6] = [1, 2, 1 << 16, 1 << 30, 1 << 31, u32::MAX];

/// The message of the region, or one that misses it by a number, near it or any.
fn candidates(numbers: &Numbers, random: &mut Random) -> Vec<u32> {
    let level = (numbers.e / 108) as u32;
    let right = [
        u32::from(numbers.n_id & 1) * level,
        level,
        numbers.a as u32,
        numbers.rnti.into(),
        numbers.n_rnti.into(),
    ];
    let candidate = |random: &mut Random| {
        let mut numbers = right;
        if random.below(2) == 0 {
            let number = &mut numbers[random.below(NUMBERS)];
            *number = match random.below(3) {
                0 => random.u64() as u32,
                1 => number.wrapping_add(random.pick(&FAR_STEPS)),
                _ => random.below(150) as u32,
            };
        }
        numbers
    };
    let count = match random.below(64) {
        0..4 => random.between(44, 60),
        _ => random.between(0, 6),
    };
    (0..count).flat_map(|_| candidate(random)).collect()
}

/// Mostly values that the call takes; else any, everywhere or at a place.
fn values(subject: &Subject, numbers: &Numbers, count: usize, random: &mut Random) -> Vec<i32> {
    let any = |random: &mut Random| match random.below(2) {
        0 => random.u64() as i32,
        _ => random.between(-130, 130),
    };
    if random.below(8) == 0 {
        return (0..count).map(|_| any(random)).collect();
    }
    let mut values = (subject.values)(numbers, count, random);
    if count > 0 && random.below(5) == 0 {
        values[random.below(count)] = any(random);
    }
    values
}

/// A call, with what the output buffer holds before it.
#[derive(Debug)]
struct Case {
    numbers: Numbers,
    payload: Vec<u8>,
    values: Vec<i32>,
    list: Vec<u32>,
    out: Vec<u8>,
}

impl Case {
    fn random(subject: &Subject, accepted: &[(u64, u64)], random: &mut Random) -> Self {
        let (a, e) = sizes(random, accepted);
        let numbers = random.numbers(a, e);
        let asked = (subject.asks)(&numbers);
        let payload_len = asked.payload.map_or(0, |asked| length(asked, random));
        let values_len = asked.values.map_or(0, |asked| length(asked, random));
        let out_len = length(asked.out, random);
        Self {
            numbers,
            payload: payload(payload_len, random),
            values: values(subject, &numbers, values_len, random),
            list: (subject.list)(&numbers, random),
            out: random.bytes(out_len),
        }
    }

    fn reference(&self, subject: &Subject) -> Outcome {
        let mut out = self.out.clone();
        let inputs = Inputs {
            numbers: self.numbers,
            payload: &self.payload,
            values: &self.values,
            list: &self.list,
        };
        Outcome::of((subject.reference)(inputs, &mut out), out)
    }

    /// What the library gives. Its buffers stand at any address, and nothing but the output may
    /// change.
    fn library(&self, subject: &Subject, random: &mut Random) -> Outcome {
        let payload = Room::of(&self.payload, GUARD, random);
        let values = Room::of(&self.values, i32::from(GUARD), random);
        let list = Room::of(&self.list, NUMBER_GUARD, random);
        let mut out = Room::of(&self.out, GUARD, random);
        let inputs = Inputs {
            numbers: self.numbers,
            payload: payload.content(),
            values: values.content(),
            list: list.content(),
        };
        let answer = (subject.library)(inputs, out.content_mut());
        assert!(payload.guards_hold(), "written beside the payload");
        assert!(values.guards_hold(), "written beside the values");
        assert!(list.guards_hold(), "written beside the list");
        assert!(out.guards_hold(), "written beside the output");
        assert_eq!(payload.content(), self.payload, "the payload is written");
        assert_eq!(values.content(), self.values, "the values are written");
        assert_eq!(list.content(), self.list, "the list is written");
        Outcome::of(answer, out.content().to_vec())
    }
}

/// A buffer at any address that its entries may have. In half of all cases it is the end of an
/// allocation, in the others guards stand behind it; before it there are up to 16.
struct Room<T> {
    whole: Box<[T]>,
    at: Range<usize>,
    guard: T,
}

impl<T: Copy + PartialEq> Room<T> {
    fn of(content: &[T], guard: T, random: &mut Random) -> Self {
        let (before, behind) = (random.below(17), random.pick(&[0, 64]));
        let mut whole = Vec::with_capacity(before + content.len() + behind);
        whole.resize(before, guard);
        whole.extend_from_slice(content);
        whole.resize(whole.len() + behind, guard);
        Self {
            whole: whole.into_boxed_slice(),
            at: before..before + content.len(),
            guard,
        }
    }

    fn content(&self) -> &[T] {
        &self.whole[self.at.clone()]
    }

    fn content_mut(&mut self) -> &mut [T] {
        &mut self.whole[self.at.clone()]
    }

    fn guards_hold(&self) -> bool {
        let (before, behind) = (&self.whole[..self.at.start], &self.whole[self.at.end..]);
        before
            .iter()
            .chain(behind)
            .all(|entry| *entry == self.guard)
    }
}

/// Says which call it was, if the test fails in it.
struct Running {
    seed: u64,
    call: u64,
}

impl Drop for Running {
    fn drop(&mut self) {
        if thread::panicking() {
            eprintln!("at call {} of seed {}", self.call, self.seed);
        }
    }
}

/// Puts the calls of a seed to both programs, each subject in its turn.
fn chunk(seed: u64, accepted: &[(u64, u64)]) -> Tally {
    let mut random = Random::new(seed);
    let mut tally = Tally::default();
    for call in 0..CHUNK {
        let _running = Running { seed, call };
        let turn = call as usize % SUBJECTS.len();
        let subject = &SUBJECTS[turn];
        let case = Case::random(subject, accepted, &mut random);
        let outcome = case.library(subject, &mut random);
        assert_eq!(
            outcome,
            case.reference(subject),
            "{} of {case:?}",
            subject.name
        );
        tally[turn][usize::from(outcome.number)] += 1;
    }
    tally
}

/// Every number that a call can give must be given often, and 0 more often still.
fn assert_not_trivial(subject: &Subject, given: &[u64; 9]) {
    let calls: u64 = given.iter().sum();
    for number in 0..9u8 {
        let count = given[usize::from(number)];
        match (subject.given.contains(&number), number) {
            (true, 0) => assert!(count >= calls / 15, "{}: {given:?}", subject.name),
            (true, _) => assert!(count >= calls / 30, "{}: {given:?}", subject.name),
            (false, _) => assert_eq!(count, 0, "{}: {given:?}", subject.name),
        }
    }
}

#[test]
fn random_bytes_are_answered_as_the_reference_does() {
    let seed = setting("SEED", 1);
    let chunks = setting("CALLS", 1_000_000).div_ceil(CHUNK);
    let accepted = accepted_pairs();
    let next = AtomicU64::new(0);
    let work = || {
        let mut tally = Tally::default();
        loop {
            let taken = next.fetch_add(1, Ordering::Relaxed);
            if taken >= chunks {
                return tally;
            }
            // Seeds of runs with another SEED are others.
            add(&mut tally, chunk(seed << 32 | taken, &accepted));
        }
    };
    let tallies = thread::scope(|scope| {
        let threads = [scope.spawn(work), scope.spawn(work)];
        threads.map(|thread| thread.join().expect("answers as expected"))
    });
    let mut tally = Tally::default();
    tallies
        .into_iter()
        .for_each(|of_thread| add(&mut tally, of_thread));
    for (subject, given) in SUBJECTS.iter().zip(&tally) {
        println!("{:8} gave 0 to 8: {given:?}", subject.name);
    }
    let calls: u64 = tally.iter().flatten().sum();
    println!("{calls} calls, all answered as the reference answers them");
    assert_eq!(calls, chunks * CHUNK);
    for (subject, given) in SUBJECTS.iter().zip(&tally) {
        assert_not_trivial(subject, given);
    }
}

fn add(tally: &mut Tally, other: Tally) {
    for (count, more) in tally.iter_mut().flatten().zip(other.iter().flatten()) {
        *count += more;
    }
}

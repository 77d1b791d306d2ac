//! Nanoseconds for a call.
//!
//! The contestants take turns in many short rounds, so that a disturbance meets all of them, and each
//! one's best round counts. A disturbance that lasts is outlived by coming back to a message later.

use crate::contestants::{Contestant, Contestants, Message};
use std::hint::black_box;
use std::time::{Duration, Instant};

pub const ROUNDS: usize = 101;
const ROUND: Duration = Duration::from_millis(1);

/// The time that `calls` calls take, going round the messages. What they give was compared before.
pub fn timed<T>(contestant: Contestant<T>, messages: &[Message<T>], calls: usize) -> Duration {
    let mut out = messages[0].out.clone();
    let start = Instant::now();
    for message in messages.iter().cycle().take(calls) {
        let given = contestant(&message.numbers, black_box(&message.input), &mut out);
        black_box((&given, &mut out));
    }
    start.elapsed()
}

/// How many calls fill a round; finding out warms up as well.
fn calls_in_a_round<T>(contestant: Contestant<T>, messages: &[Message<T>]) -> usize {
    let mut calls = 1;
    while timed(contestant, messages, calls) < ROUND {
        calls *= 2;
    }
    calls
}

/// Nanoseconds for a call in the best round, for each contestant.
pub fn measured<T, const N: usize>(
    contestants: &Contestants<T, N>,
    messages: &[Message<T>],
) -> [f64; N] {
    let contestants = contestants.map(|c| (c, calls_in_a_round(c, messages)));
    let mut best = [f64::INFINITY; N];
    for _ in 0..ROUNDS {
        for (best, (contestant, calls)) in best.iter_mut().zip(contestants) {
            let time = timed(contestant, messages, calls).as_secs_f64();
            *best = best.min(time * 1e9 / calls as f64);
        }
    }
    best
}

/// The best times of both.
pub fn better<const N: usize>(one: [f64; N], other: [f64; N]) -> [f64; N] {
    std::array::from_fn(|i| one[i].min(other[i]))
}

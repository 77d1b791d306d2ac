//! Where the library's time goes, for a payload of 40 bits.

use crate::contestants::{CODERS, Contestant, DECODERS};
use crate::timing::timed;
use crate::{Line, sampler};
use reference::CODED_LENGTHS;

const A: u64 = 40;
/// How long the calls are watched for, in seconds.
const SECONDS: f64 = 2.0;

/// The crates whose functions the compiler does not put into their callers, or not all of them.
const STEPS: [&str; 3] = ["construction::", "scrambling::", "successive_decoder::"];

/// Nanoseconds of a call: all, and those in each step.
struct Spent {
    all: f64,
    steps: [f64; 3],
}

pub fn print(coding: &[Line<u8, 4>], decoding: &[Line<i32, 4>]) {
    let coding = spent_by_length(CODERS[0], coding);
    let decoding = spent_by_length(DECODERS[0], decoding);
    // Both run the same scrambler; in coding it has the larger share.
    let start = start(&coding);
    print_table("Where coding spends its time", &coding, start);
    print_table("Where decoding spends its time", &decoding, start);
}

fn spent_by_length<T>(library: Contestant<T>, lines: &[Line<T, 4>]) -> Vec<Spent> {
    let lines = lines.iter().filter(|line| line.a == A);
    lines.map(|line| spent(library, line)).collect()
}

/// What scrambling takes whatever E is: where the straight line nearest to the five times starts.
fn start(spent: &[Spent]) -> f64 {
    let mean = |values: [f64; 5]| values.iter().sum::<f64>() / 5.0;
    let lengths = CODED_LENGTHS.map(|e| e as f64);
    let times = [0, 1, 2, 3, 4].map(|i| spent[i].steps[1]);
    let (e, time) = (mean(lengths), mean(times));
    let both = mean([0, 1, 2, 3, 4].map(|i| (lengths[i] - e) * (times[i] - time)));
    let slope = both / mean(lengths.map(|length| (length - e).powi(2)));
    time - slope * e
}

fn print_table(title: &str, spent: &[Spent], start: f64) {
    println!("\n### {title}\n");
    println!(
        "|    E | all, ns | marking positions | scrambler start | its E terms | decoder | all else |"
    );
    println!("|-----:|-----:|-----:|-----:|-----:|-----:|-----:|");
    for (e, Spent { all, steps }) in CODED_LENGTHS.into_iter().zip(spent) {
        let [positions, scrambling, decoder] = steps;
        let rest = all - steps.iter().sum::<f64>();
        let parts = [*positions, start, scrambling - start, *decoder, rest];
        let cells = parts.map(|ns| format!("{ns:>5.0} ({:>2.0} %)", 100.0 * ns / all));
        println!("| {e:>4} | {all:>6.0} | {} |", cells.join(" | "));
    }
}

fn spent<T>(library: Contestant<T>, line: &Line<T, 4>) -> Spent {
    let all = line.times[0];
    let calls = (SECONDS * 1e9 / all) as usize;
    let shares = sampler::shares(STEPS, || {
        timed(library, &line.messages, calls);
    });
    let steps = shares.map(|share| share * all);
    Spent { all, steps }
}

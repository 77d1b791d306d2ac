//! Nanoseconds for coding and decoding a message: the library, plain C with two scramblers, and the
//! second program; then the search beside single decodes, and where the library's time goes. Prints
//! tables for docs/BENCHMARKS.md.
//! With BEFORE set, the archive of that name beside the one of this tree.

mod against;
mod contestants;
mod profile;
mod sampler;
mod search;
mod timing;

use channel::Random;
use contestants::{CODERS, Contestants, DECODERS, Message, assert_all_equal, to_code, to_decode};
use std::env;
use std::fs;
use std::path::Path;
use std::process::Command;
use timing::{ROUNDS, better, measured};

const SEED: u64 = 108;
const PAYLOAD_SIZES: [u64; 3] = [12, 40, 84];
const MESSAGES: usize = 16;
/// How often each line of the table is come back to.
const PASSES: usize = 4;

/// Makes a message for a size and a length.
type Make<T> = fn(u64, u64, &mut Random) -> Message<T>;

fn messages<T>(a: u64, e: u64, make: Make<T>, random: &mut Random) -> Vec<Message<T>> {
    (0..MESSAGES).map(|_| make(a, e, random)).collect()
}

/// The sizes of a line of the table, with messages of these sizes and their times.
struct Line<T, const N: usize> {
    a: u64,
    e: u64,
    messages: Vec<Message<T>>,
    times: [f64; N],
}

fn lines<T, const N: usize>(contestants: &Contestants<T, N>, make: Make<T>) -> Vec<Line<T, N>> {
    let sizes = PAYLOAD_SIZES.into_iter();
    let sizes = sizes.flat_map(|a| reference::CODED_LENGTHS.map(|e| (a, e)));
    lines_of(sizes, contestants, make)
}

/// The lines of these sizes, on whose messages all contestants agree.
fn lines_of<T, const N: usize>(
    sizes: impl Iterator<Item = (u64, u64)>,
    contestants: &Contestants<T, N>,
    make: Make<T>,
) -> Vec<Line<T, N>> {
    let mut random = Random::new(SEED);
    let line = |(a, e)| {
        let messages = messages(a, e, make, &mut random);
        assert_all_equal(contestants, &messages);
        let times = [f64::INFINITY; N];
        Line {
            a,
            e,
            messages,
            times,
        }
    };
    sizes.map(line).collect()
}

/// The lines with the best times of all passes.
fn timed_lines<T, const N: usize>(
    contestants: &Contestants<T, N>,
    mut lines: Vec<Line<T, N>>,
) -> Vec<Line<T, N>> {
    for _ in 0..PASSES {
        for line in &mut lines {
            line.times = better(line.times, measured(contestants, &line.messages));
        }
    }
    lines
}

/// Prints the table, and gives its lines.
fn print_table<T>(title: &str, contestants: &Contestants<T, 4>, make: Make<T>) -> Vec<Line<T, 4>> {
    let lines = timed_lines(contestants, lines(contestants, make));
    println!("\n### {title}\n");
    println!(
        "|   A |    E | library, ns | C/16, ns | C/1, ns | second, ns \
         | library : C/16 | library : C/1 | second : library |"
    );
    println!("|----:|-----:|------:|------:|------:|------:|-----:|-----:|-----:|");
    for Line { a, e, times, .. } in &lines {
        let [library, c1, c16, second] = times;
        println!(
            "| {a:>3} | {e:>4} | {library:>6.0} | {c16:>6.0} | {c1:>6.0} | {second:>7.0} \
             | {:>5.2} | {:>5.2} | {:>5.1} |",
            library / c16,
            library / c1,
            second / library
        );
    }
    lines
}

/// The first line that a command prints, or that it cannot be run.
fn said(command: &str, arguments: &[&str]) -> String {
    let output = Command::new(command).args(arguments).output();
    let text = output.map(|output| String::from_utf8_lossy(&output.stdout).into_owned());
    let first = text
        .ok()
        .and_then(|text| Some(text.lines().next()?.to_string()));
    first.unwrap_or_else(|| format!("{command} cannot be run"))
}

/// The processor's name and how many there are.
fn machine() -> String {
    let info = fs::read_to_string("/proc/cpuinfo").unwrap_or_default();
    let names = info.lines().filter(|line| line.starts_with("model name"));
    let names: Vec<&str> = names.filter_map(|line| line.split(": ").nth(1)).collect();
    format!("{} x {}", names.len(), names.first().unwrap_or(&"unknown"))
}

fn main() {
    println!("{}, {}", machine(), said("date", &["+%-d %B %Y"]));
    println!("{}", said("rt", &["version"]));
    println!("{}, -O3", said("cc", &["--version"]));
    println!(
        "best of {PASSES} x {ROUNDS} rounds in which the contestants take turns; all give the same bits"
    );
    if let Some(before) = env::var_os("BEFORE") {
        return against::print(Path::new(&before));
    }
    println!("C/1 and C/16: plain C with 1 or 16 terms of the Gold sequence at a time");
    println!("all count the noise of what they decode, and agree on it");
    let coding = print_table("Coding", &CODERS, |a, e, random| {
        to_code(random.numbers(a, e), random)
    });
    let decoding = print_table("Decoding", &DECODERS, |a, e, random| {
        to_decode(random.numbers(a, e), random)
    });
    search::print();
    profile::print(&coding, &decoding);
}

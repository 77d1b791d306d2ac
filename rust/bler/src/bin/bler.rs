//! `make bler`: how often the library reads a noisy message, as a table and a picture.

use bler::curve::{Curve, LEVELS, Run, curve};
use bler::progress::Progress;
use bler::{csv, grouped, plot, settings};
use std::path::{Path, PathBuf};
use std::process::exit;
use std::{env, fs};

fn main() {
    let directory = directory();
    let run = Run {
        // About the size of format 1_0. Sizes to 84 fit every coded length.
        a: settings::number("A", 40, 12..=84),
        blocks: settings::number("BLOCKS", 400_000, 1..=1_000_000_000),
        seed: settings::number("SEED", 1, 0..=u64::MAX),
        threads: settings::threads(),
    };
    let mut progress = Progress::on_stderr();
    let measured = |(level, from_db)| curve(&run, level, run.shifted(from_db), &mut progress);
    let curves = LEVELS.map(measured);
    progress.clear();
    print_crossings(&run, &curves);
    print_distance(&curves);
    print_wrong(&curves);
    write(&directory.join("bler.csv"), &csv::table(&run, &curves));
    write(&directory.join("bler.svg"), &plot::picture(&run, &curves));
}

/// Where table and picture go. That it is there is seen before the work, not after it.
fn directory() -> PathBuf {
    let directory: PathBuf = env::args_os().nth(1).unwrap_or(".".into()).into();
    if !directory.is_dir() {
        eprintln!("{} is no directory", directory.display());
        exit(2);
    }
    directory
}

fn print_crossings(run: &Run, curves: &[Curve]) {
    let Run {
        a, blocks, seed, ..
    } = run;
    println!("SNR in dB at a block error rate, A = {a}, BLOCKS={blocks} SEED={seed}");
    println!("level     E    1e-1    1e-2    1e-3");
    for curve in curves {
        let crossings = [1e-1, 1e-2, 1e-3].map(|rate| in_db(curve.crossing(rate)));
        println!(
            "{:>5}  {:>4}  {}",
            curve.level,
            curve.e(),
            crossings.join("  ")
        );
    }
}

fn in_db(ratio: Option<f64>) -> String {
    ratio.map_or("     -".into(), |db| format!("{db:>6.2}"))
}

/// How much less level 16 needs than level 1.
fn print_distance(curves: &[Curve]) {
    let ends = curves.first().zip(curves.last());
    let crossing = |curve: &Curve| curve.crossing(1e-2);
    let apart = ends.and_then(|(first, last)| Some(crossing(first)? - crossing(last)?));
    let energy = 10.0 * 16f64.log10();
    match apart {
        Some(db) => {
            println!("level 1 to 16 at 1e-2: {db:.2} dB; the energy alone is {energy:.2} dB")
        }
        None => println!("level 1 to 16 at 1e-2: not both curves get there with so few blocks"),
    }
}

fn print_wrong(curves: &[Curve]) {
    let tallies = || curves.iter().flat_map(|c| &c.points).map(|p| p.tally);
    let wrong: u64 = tallies().map(|tally| tally.wrong).sum();
    let errors = grouped(tallies().map(|tally| tally.errors).sum());
    let blocks = grouped(tallies().map(|tally| tally.blocks).sum());
    println!("wrongly accepted: {wrong} of {errors} block errors in {blocks} blocks");
}

fn write(path: &Path, text: &str) {
    if let Err(error) = fs::write(path, text) {
        eprintln!("{}: {error}", path.display());
        exit(1);
    }
    println!("written: {}", path.display());
}

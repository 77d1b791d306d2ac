//! `make false-alarms`: how often the library takes noise for a message.

use bler::false_alarm::{CASES, Count, Counts, ONE_DECISION, Run, TARGET, counted};
use bler::progress::Progress;
use bler::settings;

fn main() {
    let run = Run {
        rows: settings::number("ROWS", 20_000_000, 1..=1_000_000_000_000),
        seed: settings::number("SEED", 1, 0..=u64::MAX),
        threads: settings::threads(),
    };
    let mut progress = Progress::on_stderr();
    let counts = counted(&run, &mut progress);
    progress.clear();
    println!("rows of noise, ROWS={} SEED={}", run.rows, run.seed);
    print_cases(&counts);
    print_rates(&counts.total());
}

fn print_cases(counts: &Counts) {
    println!("  A     E        rows  accepted");
    for (case, count) in CASES.iter().zip(counts.0) {
        let Count { rows, accepted } = count;
        println!("{:>3}  {:>4}  {rows:>10}  {accepted:>8}", case.a, case.e);
    }
    let Count { rows, accepted } = counts.total();
    println!("      all  {rows:>10}  {accepted:>8}");
}

fn print_rates(total: &Count) {
    let (low, high) = total.interval();
    let rate = total.rate();
    println!(
        "measured  {rate:.2e} for a row; 95 % interval {low:.2e} to {high:.2e} (exact Poisson)"
    );
    println!("2^-24     {ONE_DECISION:.2e}, what 24 parity bits let through of one decision");
    println!("target    {TARGET:.2e}, which is 1.5 * 2^-21");
    println!("{}", verdict(rate, high));
}

fn verdict(rate: f64, high: f64) -> &'static str {
    match (rate < TARGET, high < TARGET) {
        (_, true) => "The upper limit lies below the target.",
        (true, false) => "The upper limit lies above the target: these are too few rows to tell.",
        (false, false) => "The measured rate lies above the target.",
    }
}

//! How often the proved library reads a noisy message rightly, and how often it takes noise for one.
//!
//! Seed and sizes fix every figure: work is cut into numbered batches, each with random numbers of its
//! own, and they are counted in order, however many threads work. n_RNTI is 0 throughout, as it was
//! before version 0.3.0, so that the figures of then stand.

pub mod batches;
pub mod block;
pub mod csv;
pub mod curve;
pub mod false_alarm;
pub mod interval;
pub mod plot;
pub mod progress;
pub mod settings;

/// A number with commas between its thousands.
pub fn grouped(number: u64) -> String {
    match number {
        0..1000 => number.to_string(),
        _ => format!("{},{:03}", grouped(number / 1000), number % 1000),
    }
}

#[cfg(test)]
mod tests {
    use super::grouped;

    #[test]
    fn thousands_are_apart() {
        let numbers = [0, 999, 1000, 1_050_007, 400_000];
        let texts = ["0", "999", "1,000", "1,050,007", "400,000"];
        assert_eq!(numbers.map(grouped), texts);
    }
}

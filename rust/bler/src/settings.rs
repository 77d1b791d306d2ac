//! Numbers that the environment sets.

use std::env;
use std::ops::RangeInclusive;
use std::process::exit;
use std::thread;

/// A number from the environment that is in a range, or what it is otherwise. Anything else ends the
/// program.
pub fn number(name: &str, otherwise: u64, range: RangeInclusive<u64>) -> u64 {
    let Ok(text) = env::var(name) else {
        return otherwise;
    };
    parsed(&text, &range).unwrap_or_else(|| {
        let (least, most) = range.into_inner();
        eprintln!("{name} must be a whole number from {least} to {most}, and is {text:?}");
        exit(2)
    })
}

fn parsed(text: &str, range: &RangeInclusive<u64>) -> Option<u64> {
    text.parse().ok().filter(|number| range.contains(number))
}

/// How many threads work: one for each core, if the environment sets nothing else.
pub fn threads() -> usize {
    let cores = thread::available_parallelism().map_or(1, |cores| cores.get());
    number("THREADS", cores as u64, 1..=1024) as usize
}

#[cfg(test)]
mod tests {
    use super::*;

    #[test]
    fn only_whole_numbers_in_the_range_are_taken() {
        assert_eq!(parsed("12", &(12..=84)), Some(12));
        assert_eq!(parsed("84", &(12..=84)), Some(84));
        for text in ["", "11", "85", "-12", "1e1", "many", "18446744073709551616"] {
            assert_eq!(parsed(text, &(12..=84)), None, "{text}");
        }
    }
}

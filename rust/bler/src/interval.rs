//! What a count says of the rate behind it: intervals that hold it in 95 of 100 cases.

/// Deviations of the normal distribution between which 95 % lie.
const NORMAL_95: f64 = 1.959_963_984_540_054;

/// Wilson's interval for a rate, from `found` cases in `of`.
pub fn wilson(found: u64, of: u64) -> (f64, f64) {
    let (n, z) = (of as f64, NORMAL_95);
    let rate = found as f64 / n;
    let scale = 1.0 + z * z / n;
    let middle = (rate + z * z / (2.0 * n)) / scale;
    let half = z / scale * (rate * (1.0 - rate) / n + z * z / (4.0 * n * n)).sqrt();
    ((middle - half).max(0.0), (middle + half).min(1.0))
}

/// The exact interval for the expected number of rare cases, from the number found.
pub fn poisson(found: u64) -> (f64, f64) {
    let least = match found {
        0 => 0.0,
        _ => expected_with(found - 1, 0.975),
    };
    (least, expected_with(found, 0.025))
}

/// The expected number with which at most `most` cases are found with this probability. The
/// probability falls as the number grows, so halving a range finds it.
fn expected_with(most: u64, probability: f64) -> f64 {
    let (mut low, mut high) = (0.0, 2.0 * most as f64 + 20.0);
    for _ in 0..100 {
        let middle = (low + high) / 2.0;
        if at_most(most, middle) > probability {
            low = middle;
        } else {
            high = middle;
        }
    }
    low
}

/// How probable it is to find at most `most` cases, by logarithms so that large numbers do not vanish.
fn at_most(most: u64, expected: f64) -> f64 {
    let (mut sum, mut log) = (0.0, -expected);
    for found in 0..=most {
        sum += log.exp();
        log += expected.ln() - (found as f64 + 1.0).ln();
    }
    sum
}

#[cfg(test)]
mod tests {
    use super::*;

    fn assert_near((low, high): (f64, f64), known: (f64, f64), off: f64) {
        assert!((low - known.0).abs() < off, "{low} {}", known.0);
        assert!((high - known.1).abs() < off, "{high} {}", known.1);
    }

    #[test]
    fn wilson_is_as_published() {
        assert_near(wilson(0, 100), (0.0, 0.0370), 1e-4);
        assert_near(wilson(10, 100), (0.0552, 0.1744), 1e-4);
        assert_near(wilson(50, 100), (0.4038, 0.5962), 1e-4);
        assert_near(wilson(100, 100), (0.9630, 1.0), 1e-4);
    }

    #[test]
    fn poisson_is_as_in_the_tables() {
        assert_near(poisson(0), (0.0, 3.689), 1e-3);
        assert_near(poisson(1), (0.0253, 5.572), 1e-3);
        assert_near(poisson(5), (1.623, 11.668), 1e-3);
        assert_near(poisson(10), (4.795, 18.390), 1e-3);
        assert_near(poisson(50), (37.11, 65.92), 1e-2);
    }

    #[test]
    fn large_counts_are_held_too() {
        // Near the normal distribution: the count and two deviations to each side.
        let (low, high) = poisson(1000);
        assert!((938.0..940.0).contains(&low), "{low}");
        assert!((1062.0..1065.0).contains(&high), "{high}");
    }
}

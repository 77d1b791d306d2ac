//! The polar transform: the product with the Kronecker power of (1 0), (1 1), entry by entry.

/// The row `u` times the matrix; without bit reversal, and its own inverse.
pub fn transform(u: &[u8]) -> Vec<u8> {
    (0..u.len()).map(|column| product(u, column)).collect()
}

/// The row `u` times one column: row i holds a 1 there where the bits of `column` are among i's.
fn product(u: &[u8], column: usize) -> u8 {
    u.iter()
        .enumerate()
        .filter(|&(i, _)| i & column == column)
        .fold(0, |sum, (_, &bit)| sum ^ bit)
}

#[cfg(test)]
mod tests {
    use super::*;

    #[test]
    fn matrix_of_order_four() {
        let rows = [[1, 0, 0, 0], [1, 1, 0, 0], [1, 0, 1, 0], [1, 1, 1, 1]];
        for (i, row) in rows.iter().enumerate() {
            let mut unit = [0; 4];
            unit[i] = 1;
            assert_eq!(transform(&unit), row);
        }
    }

    #[test]
    fn twice_is_nothing() {
        let u: Vec<u8> = (0..512).map(|i| (i * i / 5 % 2) as u8).collect();
        assert_ne!(transform(&u), u);
        assert_eq!(transform(&transform(&u)), u);
    }
}

//! The CRC of 24 bits and the RNTI (TS 38.212 7.3.2), by division of polynomials held in numbers.

/// Count of parity bits.
pub const BITS: usize = 24;

/// D^24 + D^23 + D^21 + D^20 + D^17 + D^15 + D^13 + D^12 + D^8 + D^4 + D^2 + D + 1.
const GENERATOR: Polynomial = Polynomial {
    high: 0,
    low: 0x1B2_B117,
};

/// A polynomial over the field of two elements, of degree below 256; bit i is the D^i term.
#[derive(Clone, Copy, PartialEq, Eq)]
struct Polynomial {
    high: u128,
    low: u128,
}

impl Polynomial {
    const ZERO: Self = Self { high: 0, low: 0 };
    const ONE: Self = Self { high: 0, low: 1 };

    /// The polynomial with these bits as its terms, the last bit being the D^0 term.
    fn of<'a>(bits: impl Iterator<Item = &'a u8>) -> Self {
        bits.fold(Self::ZERO, |sum, &bit| {
            let (high, low) = (0, bit.into());
            sum.times_power(1).plus(Self { high, low })
        })
    }

    fn degree(self) -> Option<u32> {
        match (self.high.checked_ilog2(), self.low.checked_ilog2()) {
            (Some(top), _) => Some(128 + top),
            (None, low) => low,
        }
    }

    fn plus(self, other: Self) -> Self {
        Self {
            high: self.high ^ other.high,
            low: self.low ^ other.low,
        }
    }

    /// The product with D^count.
    fn times_power(self, count: u32) -> Self {
        match count {
            0 => self,
            1..128 => Self {
                high: self.high << count | self.low >> (128 - count),
                low: self.low << count,
            },
            _ => Self {
                high: self.low << (count - 128),
                low: 0,
            },
        }
    }

    fn remainder(mut self, divisor: Self) -> Self {
        let below = divisor.degree().expect("a divisor that is not 0");
        while let Some(excess) = self.degree().and_then(|top| top.checked_sub(below)) {
            self = self.plus(divisor.times_power(excess));
        }
        self
    }
}

/// The remainder of D^degree by the generator: what one bit adds to the parity.
pub fn power_remainder(degree: u32) -> u32 {
    Polynomial::ONE
        .times_power(degree)
        .remainder(GENERATOR)
        .low
        .try_into()
        .expect("24 bits")
}

/// The parity of a payload, p0 in bit 23 and p23 in bit 0.
pub fn parity(payload: &[u8]) -> u32 {
    Polynomial::of([1; BITS].iter().chain(payload))
        .times_power(BITS as u32)
        .remainder(GENERATOR)
        .low
        .try_into()
        .expect("24 bits")
}

/// The row c: the payload, then its parity with the RNTI added to the last 16 bits.
pub fn attached(payload: &[u8], rnti: u16) -> Vec<u8> {
    let masked = parity(payload) ^ u32::from(rnti);
    let tail = (0..BITS).rev().map(|i| (masked >> i & 1) as u8);
    payload.iter().copied().chain(tail).collect()
}

/// Whether all parity bits of a row c are right: with 24 ones in front and the RNTI added again, it
/// is a multiple of the generator.
pub fn matches(row: &[u8], rnti: u16) -> bool {
    let (high, low) = (0, rnti.into());
    let whole = Polynomial::of([1; BITS].iter().chain(row)).plus(Polynomial { high, low });
    whole.remainder(GENERATOR) == Polynomial::ZERO
}

#[cfg(test)]
mod tests {
    use super::*;

    #[test]
    fn generator_is_the_written_polynomial() {
        let written = [24, 23, 21, 20, 17, 15, 13, 12, 8, 4, 2, 1, 0]
            .iter()
            .map(|&power| Polynomial::ONE.times_power(power))
            .fold(Polynomial::ZERO, Polynomial::plus);
        assert!(written == GENERATOR);
        assert_eq!(power_remainder(24), 0xB2B117);
    }

    #[test]
    fn powers_carry_over_both_words() {
        for power in 0..=255 {
            assert_eq!(
                Polynomial::ONE.times_power(power).degree(),
                Some(power),
                "power {power}"
            );
        }
        assert_eq!(Polynomial::ZERO.degree(), None);
    }

    #[test]
    fn row_with_its_parity_is_a_multiple() {
        // With the parity for the 24 zeros behind, the row leaves no remainder.
        for length in [12, 40, 103, 104, 105, 140] {
            let payload: Vec<u8> = (0..length).map(|i| (i * i / 3 % 2) as u8).collect();
            let row = [vec![1; BITS], attached(&payload, 0)].concat();
            let sum = row
                .iter()
                .rev()
                .enumerate()
                .filter(|&(_, &bit)| bit == 1)
                .map(|(degree, _)| power_remainder(degree as u32))
                .fold(0, |sum, remainder| sum ^ remainder);
            assert_eq!(sum, 0, "length {length}");
        }
    }

    #[test]
    fn what_is_attached_matches_and_no_single_change_does() {
        for length in [12, 40, 140] {
            let payload: Vec<u8> = (0..length).map(|i| (i * i / 3 % 2) as u8).collect();
            for rnti in [0, 1, 0x8000, 0x4601, 0xFFFF] {
                let mut row = attached(&payload, rnti);
                assert!(matches(&row, rnti), "length {length}, RNTI {rnti:#x}");
                for i in 0..row.len() {
                    row[i] ^= 1;
                    assert!(!matches(&row, rnti), "length {length}, bit {i}");
                    row[i] ^= 1;
                }
                for bit in 0..16 {
                    assert!(!matches(&row, rnti ^ 1 << bit), "RNTI bit {bit}");
                }
            }
        }
    }

    #[test]
    fn rnti_lies_on_the_last_16_bits() {
        let payload = [1, 0, 1, 1, 0, 0, 1, 0, 1, 1, 1, 0];
        let plain = attached(&payload, 0);
        let masked = attached(&payload, 0x8001);
        let changed: Vec<usize> = (0..36).filter(|&i| plain[i] != masked[i]).collect();
        assert_eq!(changed, [20, 35]);
    }
}

//! The Gold sequence (TS 38.211 5.2.1, 7.3.2.3), by its recurrences on whole arrays.

/// Terms that are passed over before the first one used.
const SKIPPED: usize = 1600;

/// The 31 terms that x2 starts with, the bits of c_init = (n_RNTI 2^16 + n_ID) mod 2^31: the 16 bits
/// of n_ID, then the lower 15 of n_RNTI. Its top bit has no place.
fn start(n_id: u16, n_rnti: u16) -> impl Iterator<Item = u8> {
    let bits = |number: u16, count| (0..count).map(move |i| (number >> i & 1) as u8);
    bits(n_id, 16).chain(bits(n_rnti, 15))
}

/// The taps of x1 and x2: x(n + 31) is the sum of the x(n + tap).
pub const X1: [usize; 2] = [3, 0];
pub const X2: [usize; 4] = [3, 2, 1, 0];

/// For each of the 31 terms after those passed over, of which of the first 31 it is the sum: a mask in
/// which bit j stands for term j. The masks go on as the terms do.
pub fn masks(taps: &[usize]) -> Vec<u32> {
    let mut masks: Vec<u32> = (0..31).map(|j| 1 << j).collect();
    for n in 0..SKIPPED {
        masks.push(taps.iter().fold(0, |sum, tap| sum ^ masks[n + tap]));
    }
    masks.split_off(SKIPPED)
}

/// The 31 terms after those passed over as the bits of a number, and so the first 31.
pub fn jumped(taps: &[usize], start: u32) -> u32 {
    let parity = |mask: &u32| (mask & start).count_ones() % 2;
    masks(taps)
        .iter()
        .rfold(0, |sum, mask| 2 * sum + parity(mask))
}

/// The first `length` terms c(0), c(1), ..
pub fn gold(n_id: u16, n_rnti: u16, length: usize) -> Vec<u8> {
    let count = SKIPPED + length + 31;
    let mut x1 = vec![0; count];
    let mut x2 = vec![0; count];
    x1[0] = 1;
    for (term, bit) in x2.iter_mut().zip(start(n_id, n_rnti)) {
        *term = bit;
    }
    for n in 0..count - 31 {
        x1[n + 31] = x1[n + 3] ^ x1[n];
        x2[n + 31] = x2[n + 3] ^ x2[n + 2] ^ x2[n + 1] ^ x2[n];
    }
    (SKIPPED..SKIPPED + length).map(|n| x1[n] ^ x2[n]).collect()
}

/// `bits` with the Gold sequence added; doing it twice is nothing.
pub fn scrambled(bits: &[u8], n_id: u16, n_rnti: u16) -> Vec<u8> {
    let sequence = gold(n_id, n_rnti, bits.len());
    bits.iter().zip(sequence).map(|(bit, c)| bit ^ c).collect()
}

#[cfg(test)]
mod tests {
    use super::*;

    #[test]
    fn start_is_the_number_of_the_standard() {
        let numbers = [0, 1, 2, 500, 0x4601, 0x7FFF, 0x8000, 0xFFFE, 0xFFFF];
        for n_id in numbers {
            for n_rnti in numbers {
                let bits: Vec<u8> = start(n_id, n_rnti).collect();
                assert_eq!(bits.len(), 31);
                let c_init = bits.iter().rfold(0, |sum, &bit| 2 * sum + u64::from(bit));
                let whole = u64::from(n_rnti) * (1 << 16) + u64::from(n_id);
                assert_eq!(c_init, whole % (1 << 31), "{n_id} {n_rnti}");
            }
        }
    }

    #[test]
    fn sequences_of_two_starts_add_to_a_sequence_of_x2() {
        // x1 cancels, so what is left obeys the recurrence of x2.
        for (n_id, n_rnti) in [(0xA5C3, 0), (0, 0x4601), (0xA5C3, 0x4601), (0, 0x4000)] {
            let (first, second) = (gold(0, 0, 400), gold(n_id, n_rnti, 400));
            let sum: Vec<u8> = first.iter().zip(&second).map(|(a, b)| a ^ b).collect();
            assert!(sum.contains(&1));
            for n in 0..400 - 31 {
                assert_eq!(sum[n + 31], sum[n + 3] ^ sum[n + 2] ^ sum[n + 1] ^ sum[n]);
            }
        }
    }

    #[test]
    fn top_bit_of_n_rnti_falls_out() {
        for (n_id, n_rnti) in [(0, 0), (500, 0x4601), (0xFFFF, 0x7FFF)] {
            let sequence = gold(n_id, n_rnti, 400);
            assert_eq!(gold(n_id, n_rnti | 0x8000, 400), sequence);
            assert_ne!(gold(n_id, n_rnti ^ 0x4000, 400), sequence);
        }
    }

    #[test]
    fn jump_reaches_the_first_terms() {
        let single_bits = (0..31).map(|j| 1u32 << j);
        for c_init in single_bits.chain([0, 0x7FFF_FFFF, 0x4601_01F4]) {
            let sequence = gold(c_init as u16, (c_init >> 16) as u16, 31);
            let first = sequence.iter().rfold(0, |sum, &c| 2 * sum + u32::from(c));
            assert_eq!(jumped(&X1, 1) ^ jumped(&X2, c_init), first, "{c_init:x}");
        }
    }

    #[test]
    fn start_with_zero_is_x1_alone() {
        let c = gold(0, 0, 400);
        assert!(c.contains(&1));
        for n in 0..400 - 31 {
            assert_eq!(c[n + 31], c[n + 3] ^ c[n]);
        }
    }
}

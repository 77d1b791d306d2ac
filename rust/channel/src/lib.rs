//! A channel with white Gaussian noise: from coded bits to the soft values that a receiver makes.

mod noise;
mod random;

pub use noise::{Noise, normal_below};
pub use random::Random;

/// The largest size of a soft value.
pub const MOST: i32 = 127;

/// QPSK through white Gaussian noise, one bit on each of the two axes.
///
/// The signal-to-noise ratio is that of a symbol (a resource element), Es/N0: it is then also the
/// ratio of the squared amplitude to the noise's variance on each axis.
#[derive(Clone, Copy, Debug)]
pub struct Channel {
    /// Standard deviation of the noise on an axis, where the amplitude sent is 1.
    noise: f64,
    /// The soft value that stands for the amplitude sent.
    gain: f64,
}

impl Channel {
    /// The receiver sets its gain so that only what lies three deviations beyond the amplitude is
    /// clipped. Apart from rounding and clipping the decoder's decisions do not depend on it.
    pub fn at(snr_db: f64) -> Self {
        let noise = 10f64.powf(-snr_db / 20.0);
        let gain = f64::from(MOST) / (1.0 + 3.0 * noise);
        Self { noise, gain }
    }

    /// What arrives of coded bits.
    pub fn received(&self, coded: &[u8], random: &mut Random) -> Vec<i32> {
        received(coded, self.noise, self.gain, random)
    }
}

/// Coded bits as received with Gaussian noise, 1 being the amplitude sent; the gain says which soft
/// value that amplitude is.
pub fn received(coded: &[u8], noise: f64, gain: f64, random: &mut Random) -> Vec<i32> {
    let value = |&bit: &u8| {
        let sent = if bit == 0 { 1.0 } else { -1.0 };
        let seen = gain * (sent + noise * random.normal());
        (seen.round() as i32).clamp(-MOST, MOST)
    };
    coded.iter().map(value).collect()
}

#[cfg(test)]
mod tests {
    use super::*;

    #[test]
    fn normal_numbers_have_mean_0_and_variance_1() {
        let mut random = Random::new(1);
        let drawn: Vec<f64> = (0..100_000).map(|_| random.normal()).collect();
        let mean = |power: i32| drawn.iter().map(|x| x.powi(power)).sum::<f64>() / 1e5;
        assert!(mean(1).abs() < 0.02);
        assert!((mean(2) - 1.0).abs() < 0.02);
        assert!((mean(4) - 3.0).abs() < 0.15);
    }

    #[test]
    fn each_part_has_its_own_numbers() {
        let parts: [&[u64]; 6] = [&[1], &[1, 0], &[0, 1], &[1, 2, 3], &[3, 2, 1], &[1, 2, 4]];
        let first = parts.map(|part| Random::of(part).u64());
        assert_eq!(first, parts.map(|part| Random::of(part).u64()));
        assert!((0..6).all(|k| !first[..k].contains(&first[k])));
    }

    #[test]
    fn signs_are_wrong_as_often_as_the_noise_says() {
        // At 0 dB a sign is wrong where the noise is beyond one deviation: 15.87 %.
        let sent = vec![0; 100_000];
        let soft = Channel::at(0.0).received(&sent, &mut Random::new(2));
        let wrong = soft.iter().filter(|&&value| value < 0).count();
        assert!((15_000..16_300).contains(&wrong), "{wrong}");
    }

    #[test]
    fn without_noise_each_value_says_its_bit() {
        let soft = Channel::at(100.0).received(&[0, 1, 1, 0], &mut Random::new(3));
        assert_eq!(soft, [127, -127, -127, 127]);
    }
}

//! The synthetic signal of an event: ground noise, and from the onset on a decaying oscillation.
//!
//! Only additions and multiplications are used, which every machine rounds alike, so a seed gives the same samples
//! everywhere.

use crate::time::{Time, TICKS};

/// Twice the cosine of the step's angle times the decay, and the decay squared, for 2, 4 and 7 oscillations a second
/// at 100 samples a second, decaying to a third within 3, 1.5 and 0.8 seconds.
const OSCILLATIONS: [(f64, f64); 3] = [(1.977_626, 0.993_356), (1.924_295, 0.986_755), (1.787_174, 0.975_310)];

/// Numbers that look random: the generator SplitMix64.
struct Noise(u64);

impl Noise {
    fn next(&mut self) -> u64 {
        self.0 = self.0.wrapping_add(0x9E37_79B9_7F4A_7C15);
        let mut z = self.0;
        z = (z ^ (z >> 30)).wrapping_mul(0xBF58_476D_1CE4_E5B9);
        z = (z ^ (z >> 27)).wrapping_mul(0x94D0_49BB_1331_11EB);
        z ^ (z >> 31)
    }

    /// A number below the bound.
    fn below(&mut self, bound: u64) -> u64 {
        self.next() % bound
    }
}

/// So many samples of the event of this seed.
pub fn signal(seed: u64, count: usize) -> Vec<i32> {
    let mut noise = Noise(seed);
    let (turn, decay) = OSCILLATIONS[noise.below(3) as usize];
    let onset = 20 + noise.below(60) as usize;
    let strength = 2_000.0 + noise.below(60_000) as f64;
    let (mut last, mut before) = (0.0, 0.0);
    let mut samples = Vec::with_capacity(count);
    for i in 0..count {
        let push = if i == onset { strength } else { 0.0 };
        let now = turn * last - decay * before + push;
        (before, last) = (last, now);
        samples.push(now as i32 + noise.below(41) as i32 - 20);
    }
    samples
}

/// When the event of this seed begins: some time of the year 2021.
pub fn onset(seed: u64) -> Time {
    let mut noise = Noise(!seed);
    let day = 1 + noise.below(365) as u16;
    Time { year: 2021, day, ticks: noise.below(86_400 * TICKS) }
}

#[cfg(test)]
mod tests {
    use super::*;

    fn loudest(samples: &[i32]) -> u32 {
        samples.iter().map(|s| s.unsigned_abs()).max().expect("there are samples")
    }

    #[test]
    fn an_event_rises_from_noise_and_decays_to_it() {
        for seed in 0..50 {
            let samples = signal(seed, 6_000);
            assert!(loudest(&samples[..20]) <= 20, "noise before the onset of {seed}");
            assert!(loudest(&samples[20..120]) > 1_000, "the event of {seed}");
            assert!(loudest(&samples[5_900..]) <= 20, "noise after the event of {seed}");
        }
    }

    #[test]
    fn a_longer_event_starts_as_a_shorter_one() {
        assert_eq!(signal(5, 100), signal(5, 300)[..100]);
    }
}

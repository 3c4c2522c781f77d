//! Renders by their sums.

use crate::judge::BANDS;
use crate::scripts::random::Random;
use crate::scripts::spectra::{beside, Spectrum, T};

/// A render sum counts above this, T times 65 rounded.
pub const SUM_T: f32 = 2_860_979_456.0;

/// The sum from band 0 on, each addition rounded.
pub fn sum(values: &[f32]) -> f32 {
    values.iter().fold(0.0, |sum, value| sum + value)
}

/// A spectrum about T with this sum, which lies not far below 65 times T or
/// above it.
pub fn with_sum(random: &mut Random, target: f32) -> Spectrum {
    let values = drawn_with_sum(BANDS, target, || T * (0.3 + 1.1 * random.unit()));
    values.try_into().expect("a value for each band")
}

/// So many values with this sum. The last one makes up what those drawn leave; as
/// they give more than half, the difference is exact.
pub fn drawn_with_sum(count: usize, target: f32, mut draw: impl FnMut() -> f32) -> Vec<f32> {
    loop {
        let mut values: Vec<f32> = (1..count).map(|_| draw()).collect();
        let given = sum(&values);
        if target / 2.0 <= given && given <= target {
            values.push(target - given);
            assert_eq!(sum(&values), target);
            return values;
        }
    }
}

/// As `with_sum`, but tied.
pub fn with_tied_sum(random: &mut Random, target: f32) -> Spectrum {
    let mut spectrum = with_sum(random, target);
    tied(&mut spectrum, target);
    spectrum
}

/// Makes the exact sum at the last of the values, whose rounded sum is the target,
/// lie half a step above it; the rounded one is the even of its two neighbours.
pub fn tied(values: &mut [f32], target: f32) {
    let last = values.last_mut().expect("a value");
    *last += (target.next_up() - target) / 2.0;
    let even = match target.to_bits() % 2 {
        0 => target,
        _ => target.next_up(),
    };
    assert_eq!(sum(values), even);
}

/// Spectra whose sums lie at the threshold, one step beside it, or half way
/// between two steps; and the one that is T in all bands.
pub fn spectra_about_the_sum(random: &mut Random) -> Vec<Spectrum> {
    let mut spectra = vec![[T; BANDS]];
    assert_eq!(sum(&spectra[0]), 2_860_980_480.0);
    for target in beside(SUM_T) {
        spectra.push(with_sum(random, target));
        spectra.push(with_tied_sum(random, target));
    }
    spectra
}

//! Values and spectra at which the estimators' steps turn.

use crate::judge::{BANDS, GREATEST_VALUE};
use crate::scripts::random::Random;

pub type Spectrum = [f32; BANDS];

/// The threshold of a render band.
pub const T: f32 = 44_015_068.0;

/// A render above the threshold, and in all bands above that of a sum. As a
/// power of 2 it makes ratios exact.
pub const LOUD: f32 = 67_108_864.0;

/// Zeros, subnormals, the least normal number and the greatest accepted values.
pub const SPECIALS: [f32; 8] = [
    0.0,
    -0.0,
    f32::from_bits(1),
    f32::from_bits(0x0040_0000),
    f32::from_bits(0x007F_FFFF),
    f32::MIN_POSITIVE,
    GREATEST_VALUE.next_down(),
    GREATEST_VALUE,
];

/// A number and those one step beside it.
pub fn beside(x: f32) -> [f32; 3] {
    [x.next_down(), x, x.next_up()]
}

/// How powers lie.
#[derive(Clone, Copy)]
pub enum Power {
    /// T, or one step beside it.
    Edge,
    /// On either side of T, not far off.
    Near,
    Loud,
    Quiet,
    /// Of any size.
    Wide,
    Special,
}

pub const POWERS: [Power; 6] = [
    Power::Edge,
    Power::Near,
    Power::Loud,
    Power::Quiet,
    Power::Wide,
    Power::Special,
];

pub fn power(random: &mut Random, how: Power) -> f32 {
    match how {
        Power::Edge => random.one_of(&beside(T)),
        Power::Near => T * (0.5 + random.unit()),
        Power::Loud => {
            let exponent = 26 + random.below(20) as i32;
            random.octave(exponent)
        }
        Power::Quiet => {
            let exponent = random.below(35) as i32 - 10;
            random.octave(exponent)
        }
        Power::Wide => {
            let exponent = random.below(226) as i32 - 126;
            random.octave(exponent)
        }
        Power::Special => random.one_of(&SPECIALS),
    }
}

pub fn any_power(random: &mut Random) -> f32 {
    let how = random.one_of(&POWERS);
    power(random, how)
}

/// A spectrum of powers of one manner, with a few of any.
pub fn powers(random: &mut Random, how: Power) -> Spectrum {
    std::array::from_fn(|_| match random.below(16) {
        0 => any_power(random),
        _ => power(random, how),
    })
}

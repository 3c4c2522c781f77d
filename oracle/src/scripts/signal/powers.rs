//! Renders, captures, residuals and averages by their manner.

use super::calls::SUBBANDS;
use crate::audio_processing::aec3::signal_dependent_erle_estimator::peek_channel;
use crate::judge::{BANDS, GREATEST_VALUE};
use crate::kinds::signal::Signal;
use crate::scripts::random::Random;
use crate::scripts::spectra::{any_power, beside, power, powers, Power, Spectrum, LOUD, T};
use crate::scripts::sums::{drawn_with_sum, tied};

/// How a render lies.
#[derive(Clone, Copy)]
pub enum Render {
    Powers(Power),
    /// Each subband is loud, silent, or has a sum about T.
    Subbands,
}

impl Render {
    pub fn draw(self, random: &mut Random) -> Spectrum {
        match self {
            Self::Powers(how) => powers(random, how),
            Self::Subbands => subband_sums(random),
        }
    }
}

fn subband_sums(random: &mut Random) -> Spectrum {
    let mut render = [0.0; BANDS];
    render[0] = random.one_of(&[0.0, LOUD]);
    for bounds in SUBBANDS.windows(2) {
        let bands = &mut render[bounds[0]..bounds[1]];
        match random.below(5) {
            0 => bands.fill(LOUD),
            1 => bands.fill(1.0),
            _ => bands.copy_from_slice(&about_the_threshold(random, bands.len())),
        }
    }
    render
}

/// Values whose rounded sum in this order is T or one step beside it; some are
/// half a step beside it before the last rounding.
pub fn about_the_threshold(random: &mut Random, bands: usize) -> Vec<f32> {
    let target = random.one_of(&beside(T));
    let part = target / bands as f32;
    let mut values = drawn_with_sum(bands, target, || part * (0.7 + 0.5 * random.unit()));
    match random.below(3) {
        0 => tied(&mut values, target),
        1 => values.reverse(),
        _ => (),
    }
    values
}

/// How a channel's captures and residuals lie to each other.
#[derive(Clone, Copy)]
pub enum Ratio {
    Free,
    /// About the figures of most settings.
    Middle,
    Infinite,
    NoCapture,
    /// But for a few.
    NoResidual,
    /// Ratios of subbands at what stands, or that move it to its limits.
    Aimed,
}

pub const RATIOS: [Ratio; 9] = [
    Ratio::Free,
    Ratio::Middle,
    Ratio::Middle,
    Ratio::Middle,
    Ratio::Infinite,
    Ratio::NoCapture,
    Ratio::NoResidual,
    Ratio::Aimed,
    Ratio::Aimed,
];

impl Ratio {
    /// A channel's capture and residual.
    pub fn draw(
        self,
        random: &mut Random,
        signal: Option<&Signal>,
        channel: usize,
    ) -> (Spectrum, Spectrum) {
        match (self, signal) {
            (Self::Aimed, Some(signal)) => aimed(random, signal, channel),
            _ => {
                // One level for the whole block, so that the subbands' ratios vary.
                let exponent = random.below(9) as i32 - 3;
                let level = random.octave(exponent);
                let residual: Spectrum = std::array::from_fn(|_| self.residual(random));
                let capture = residual.map(|residual| self.capture(random, residual, level));
                (capture, residual)
            }
        }
    }

    fn residual(self, random: &mut Random) -> f32 {
        match self {
            Self::Free => any_power(random),
            Self::Infinite => random.one_of(&[0.0, f32::from_bits(1), f32::from_bits(2)]),
            Self::NoResidual if random.below(16) != 0 => random.one_of(&[0.0, -0.0]),
            _ => power(random, Power::Near),
        }
    }

    fn capture(self, random: &mut Random, residual: f32, level: f32) -> f32 {
        let capture = match self {
            Self::Free => any_power(random),
            Self::Infinite => GREATEST_VALUE,
            Self::NoCapture => random.one_of(&[0.0, -0.0]),
            _ => residual * level * (0.5 + random.unit()),
        };
        capture.min(GREATEST_VALUE)
    }
}

/// One band of each subband has all its power, and the residual is a power of 2:
/// so the ratios are exact.
fn aimed(random: &mut Random, signal: &Signal, channel: usize) -> (Spectrum, Spectrum) {
    let held = peek_channel(&signal.estimator, channel);
    let settings = &signal.start.settings;
    let (mut capture, mut residual) = ([0.0; BANDS], [0.0; BANDS]);
    for (subband, bounds) in SUBBANDS.windows(2).enumerate() {
        let section = random.below(held.estimates.len() as u32) as usize;
        let figures = [held.estimates[section][subband], held.reference[subband]];
        let figure = random.one_of(&figures);
        let limit = random.one_of(&[settings.max_l, settings.max_h]);
        let ratio = match random.below(3) {
            0 => figure,
            1 => figure + (limit - figure) / 0.05,
            _ => figure + (settings.min - figure) / 0.1,
        };
        let ratio = random.one_of(&beside(ratio)).max(0.0);
        let band = bounds[0] + random.below((bounds[1] - bounds[0]) as u32) as usize;
        residual[band] = (1_u64 << random.below(40)) as f32;
        capture[band] = residual[band] * ratio;
    }
    (capture, residual)
}

/// How the averages lie.
#[derive(Clone, Copy)]
pub enum Average {
    /// About the figures of most settings.
    Middle,
    /// Such that a factor brings them about the limits.
    Limits,
    Special,
    Free,
}

pub const AVERAGES: [Average; 6] = [
    Average::Middle,
    Average::Middle,
    Average::Middle,
    Average::Limits,
    Average::Special,
    Average::Free,
];

impl Average {
    pub fn draw(self, random: &mut Random, signal: Option<&Signal>, channel: usize) -> Spectrum {
        match (self, signal) {
            (Self::Limits, Some(signal)) => about_the_limits(random, signal, channel),
            (Self::Special, _) => std::array::from_fn(|_| power(random, Power::Special)),
            (Self::Free, _) => std::array::from_fn(|_| any_power(random)),
            _ => std::array::from_fn(|_| {
                let exponent = random.below(6) as i32;
                random.octave(exponent)
            }),
        }
    }
}

fn about_the_limits(random: &mut Random, signal: &Signal, channel: usize) -> Spectrum {
    let held = peek_channel(&signal.estimator, channel);
    let settings = &signal.start.settings;
    let limits = [settings.min, settings.max_l, settings.max_h];
    std::array::from_fn(|band| {
        let subband = SUBBANDS.iter().rposition(|&first| first <= band.max(1));
        let subband = subband.expect("each band has a subband").min(5);
        let factor = held.factors[held.active[band]][subband];
        let limit = random.one_of(&limits);
        random.one_of(&beside(limit / factor))
    })
}

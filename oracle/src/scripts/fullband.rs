//! Scripts of the fullband estimator.

mod extremes;
mod holds;
mod phases;
pub mod sample;
mod stretches;
mod thresholds;
mod values;

use super::part::{call, damaged, makers, refused, starts, POINTS, SETTINGS};
use super::spectra::{Power, Spectrum, LOUD};
use super::{Maker, Script};
use crate::judge::BANDS;
use crate::kinds::call::Call;
use crate::kinds::fullband::{FullBand, Start};
use crate::kinds::part::Settings;

type Walk = super::walk::Walk<FullBand>;

/// The blocks after which a new figure's accumulators are cleared, itself
/// counted.
pub const HOLD: u32 = 100;

/// What is added to a ratio before its log2 is taken.
const EPSILON: f32 = 0.001;

/// Every choice of the two clamps.
const SWITCHES: std::ops::Range<u32> = 0..4;

/// How many scripts of random stretches there are.
const STRETCHES: u64 = 84;

pub fn scripts() -> Vec<Maker> {
    let for_channels: [fn(usize) -> Script; 7] = [
        |channels| refused::script::<FullBand>(channels, Power::Loud),
        thresholds::script,
        values::script,
        phases::script,
        holds::rests,
        holds::others,
        extremes::script,
    ];
    makers(
        starts::script::<FullBand>,
        &for_channels,
        0..STRETCHES,
        stretches::script,
    )
}

/// Small scripts of bad input.
pub fn damaged_scripts() -> Vec<Script> {
    damaged::scripts::<FullBand>(&[
        0x0000, 0x0001, 0x0050, 0x0101, 0x0110, 0x0120, 0x012F, 0x0134, 0x0140, 0x014F, 0x0154,
        0x015F, 0x0250, 0x0351, 0x5001, 0x8150, 0xFFFF,
    ])
}

/// A start with these settings; the clamp to zero is the lower of the switches.
fn start(limits: [f32; 3], switches: u32, channels: usize) -> Start {
    Start::new(limits, switches, channels as u32)
}

/// The settings of document 01's example, and both clamps.
pub fn example_start() -> Start {
    start(SETTINGS[0], 0b11, 1)
}

/// A converged block with these ratios, one for each channel. Only one band has
/// any power, so that sums and ratios are exact.
fn exact(ratios: &[f32]) -> Call {
    let spectrum = |value: f32| -> Spectrum {
        let mut spectrum = [0.0; BANDS];
        spectrum[20] = value;
        spectrum
    };
    let residual = |ratio: f32| match ratio > 1e27 {
        true => 2_f32.powi(-60),
        false => 1.0,
    };
    let captures: Vec<Spectrum> = ratios.iter().map(|&r| spectrum(r * residual(r))).collect();
    let residuals: Vec<Spectrum> = ratios.iter().map(|&r| spectrum(residual(r))).collect();
    let flags = vec![true; ratios.len()];
    call(&flags, &[LOUD; BANDS], &captures, &residuals)
}

/// Six blocks with exactly these ratios: all but the last are silent.
fn exact_six(walk: &mut Walk, ratios: &[f32]) {
    let silent = super::part::converged(ratios.len(), LOUD, 0.0, 0.0);
    walk.each(POINTS - 1, &silent);
    walk.update(&exact(ratios));
}

/// A ratio whose log2 value, as the source computes it, is the nearest to this
/// one that there is.
fn ratio_of(log2: f32) -> f32 {
    let exponent = f64::from(log2) + 16_638_633.0 / 131_072.0;
    let pattern = (exponent * 8_388_608.0) as u32;
    (f32::from_bits(pattern) - EPSILON).max(0.0)
}

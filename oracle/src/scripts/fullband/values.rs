//! Special values, residuals that are missing, and first values of all sizes.

use super::{exact_six, ratio_of, start, Walk};
use crate::judge::{BANDS, GREATEST_VALUE};
use crate::scripts::part::{call, converged, infinite, POINTS, SETTINGS};
use crate::scripts::spectra::{beside, Spectrum, LOUD, SPECIALS};
use crate::scripts::Script;

/// What the least of the extremes is before the first value.
const LEAST_BEFORE: f32 = 33.0;

pub fn script(channels: usize) -> Script {
    let mut walk = Walk::default();
    for (settings, switches) in [(SETTINGS[0], 0b11), (SETTINGS[5], 0b00)] {
        walk.start(&start(settings, switches, channels));
        residuals_of_some_blocks(&mut walk, channels);
        special_values(&mut walk, channels);
        infinite_and_zero(&mut walk, channels);
        first_values(&mut walk, channels);
    }
    walk.script
}

/// Residuals in every choice of the six blocks, none and the sixth alone among
/// them; the channels make different choices.
fn residuals_of_some_blocks(walk: &mut Walk, channels: usize) {
    for choice in 0..1 << POINTS {
        for block in 0..POINTS {
            let residual = |channel: usize| -> Spectrum {
                match (choice + 21 * channel) >> block & 1 {
                    0 => [[0.0, -0.0][block % 2]; BANDS],
                    _ => [0.75 + channel as f32; BANDS],
                }
            };
            let residuals: Vec<Spectrum> = (0..channels).map(residual).collect();
            let captures = vec![[3.0 + block as f32; BANDS]; channels];
            let flags = vec![true; channels];
            walk.update(&call(&flags, &[LOUD; BANDS], &captures, &residuals));
        }
    }
}

/// Every special capture over every special residual, in all six blocks and in
/// the sixth alone.
fn special_values(walk: &mut Walk, channels: usize) {
    for capture in SPECIALS {
        for residual in SPECIALS {
            for silent in [0, POINTS - 1] {
                walk.each(silent, &converged(channels, LOUD, -0.0, -0.0));
                let special = converged(channels, LOUD, capture, residual);
                walk.each(POINTS - silent, &special);
            }
        }
    }
}

/// Ratios that are infinite and those of zero by turns, after a start and later.
fn infinite_and_zero(walk: &mut Walk, channels: usize) {
    for from_start in [true, false] {
        for zero in [0.0, -0.0] {
            if from_start {
                walk.reset();
            }
            walk.each(POINTS, &infinite(channels, LOUD));
            walk.each(POINTS, &converged(channels, LOUD, zero, 1.0));
            walk.each(POINTS, &infinite(channels, LOUD));
            walk.each(POINTS, &converged(channels, LOUD, zero, GREATEST_VALUE));
        }
    }
}

/// First values after a reset, and second ones beside them.
fn first_values(walk: &mut Walk, channels: usize) {
    let about_the_least = beside(LEAST_BEFORE)
        .into_iter()
        .chain([32.9, 33.0004, 33.01]);
    let ratios = about_the_least.map(ratio_of).chain([
        0.0,
        f32::from_bits(1),
        1e-12,
        0.001,
        1.0,
        3.0,
        2_f32.powi(32),
        2_f32.powi(33),
        2_f32.powi(34),
        2_f32.powi(80),
        2_f32.powi(127),
    ]);
    for first in ratios {
        for second in [
            first,
            0.9999 * first,
            1.0001 * first,
            0.5 * first,
            1.9 * first,
        ] {
            walk.reset();
            exact_six(walk, &vec![first; channels]);
            exact_six(walk, &vec![second.min(2_f32.powi(127)); channels]);
            exact_six(walk, &vec![first; channels]);
        }
    }
}

//! Calls at the thresholds and with special values, and settings at their
//! limits.

use super::{start, Walk};
use crate::judge::{BANDS, GREATEST_VALUE};
use crate::kinds::call::Call;
use crate::scripts::part::{call, converged, infinite, POINTS, SETTINGS};
use crate::scripts::spectra::{beside, Spectrum, LOUD, SPECIALS, T};
use crate::scripts::Script;

/// The values, with onset detection on and off.
pub fn values(channels: usize) -> Script {
    let mut walk = Walk::default();
    for onset in [true, false] {
        for settings in &SETTINGS[..2] {
            walk.start(&start(*settings, onset, channels));
            low_in_one_block(&mut walk, channels);
            residuals_of_some_blocks(&mut walk, channels);
            special_values(&mut walk, channels);
            special_renders(&mut walk, channels);
        }
    }
    walk.script
}

/// Six blocks at T, one of them about T, in which each third band is one step
/// below; then none of them. The ratio first rises and then falls.
fn low_in_one_block(walk: &mut Walk, channels: usize) {
    for low in 0..=POINTS {
        for capture in [30.0, 0.5] {
            for block in 0..POINTS {
                let mut call = converged(channels, T, capture, 1.0);
                if block == low {
                    call.render = (0..BANDS).map(|band| beside(T)[band % 3]).collect();
                }
                walk.update(&call);
            }
        }
    }
}

/// Six blocks in which every band has its residuals in a choice of blocks of its
/// own: bands 0 to 63 make all choices, none and the sixth alone among them.
fn residuals_of_some_blocks(walk: &mut Walk, channels: usize) {
    for capture in [3.0, 0.0, -0.0, GREATEST_VALUE, f32::from_bits(3)] {
        for block in 0..POINTS {
            let residual = |channel: usize| -> Spectrum {
                std::array::from_fn(|band| match (band + channel) >> block & 1 {
                    0 => [0.0, -0.0][band % 2],
                    _ => 0.75,
                })
            };
            let residuals: Vec<Spectrum> = (0..channels).map(residual).collect();
            let captures = vec![[capture; BANDS]; channels];
            let flags = vec![true; channels];
            walk.update(&call(&flags, &[LOUD; BANDS], &captures, &residuals));
        }
    }
}

/// Special values in all six blocks and in the sixth alone, with and without low
/// energy.
fn special_values(walk: &mut Walk, channels: usize) {
    for render in [LOUD, 0.0] {
        for silent in [0, POINTS - 1] {
            walk.each(silent, &converged(channels, render, 0.0, 0.0));
            walk.each(POINTS - silent, &special_call(channels, render));
        }
    }
}

/// Every special capture over every special residual, in the bands 0 to 63; the
/// channels have them in different bands.
pub fn special_call(channels: usize, render: f32) -> Call {
    let special = |number: usize| SPECIALS[number % SPECIALS.len()];
    let capture = |channel| std::array::from_fn(|band| special(band + channel));
    let captures: Vec<Spectrum> = (0..channels).map(capture).collect();
    let residual = std::array::from_fn(|band| special(band / SPECIALS.len()));
    call(
        &vec![true; channels],
        &[render; BANDS],
        &captures,
        &vec![residual; channels],
    )
}

/// Special renders, and infinite ratios and those of zero by turns.
fn special_renders(walk: &mut Walk, channels: usize) {
    for render in SPECIALS.into_iter().chain(beside(T)) {
        walk.each(POINTS, &infinite(channels, render));
        for (capture, residual) in [(0.0, 1.0), (-0.0, GREATEST_VALUE)] {
            let zero = converged(channels, render, capture, residual);
            walk.repeat(POINTS as u32, &zero);
        }
    }
}

/// For each choice of settings, ratios at the limits and one step beside them,
/// from below and from above.
pub fn limits(channels: usize) -> Script {
    let mut walk = Walk::default();
    for settings in SETTINGS {
        for onset in [true, false] {
            walk.start(&start(settings, onset, channels));
            last_steps_of_the_decay(&mut walk, channels, settings[0]);
            for limit in settings {
                for ratio in beside(limit) {
                    exact_ratio(&mut walk, channels, LOUD, ratio);
                }
                walk.repeat(POINTS as u32, &infinite(channels, 0.0));
                exact_ratio(&mut walk, channels, T.next_down(), limit);
                exact_ratio(&mut walk, channels, T, limit);
            }
            walk.each(POINTS, &converged(channels, LOUD, 0.0, 1.0));
        }
    }
    walk.script
}

/// With low energy after a start nothing is held, and the compensated stream
/// decays as soon as it rises: here from one step of binary32 above the minimum,
/// and from about where one step of the decay just reaches it.
fn last_steps_of_the_decay(walk: &mut Walk, channels: usize, min: f32) {
    let last = beside(min / 0.97);
    for figure in [min.next_up(), 1.000_05 * min].into_iter().chain(last) {
        let ratio = min + (figure - min) / 0.05;
        exact_ratio(walk, channels, 0.0, ratio);
    }
}

/// Six blocks with exactly this ratio: all but the last are silent.
fn exact_ratio(walk: &mut Walk, channels: usize, render: f32, ratio: f32) {
    walk.repeat(4, &converged(channels, render, 0.0, 0.0));
    walk.update(&converged(channels, render, -0.0, 0.0));
    walk.update(&converged(channels, render, ratio, 1.0));
}

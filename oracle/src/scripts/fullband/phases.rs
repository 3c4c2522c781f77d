//! What comes between the six points: resets, starts, unconverged, low and
//! refused blocks, and channels that stand at different points.

use super::{example_start, start, Walk, HOLD, SWITCHES};
use crate::kinds::call::Call;
use crate::scripts::flags::mask_flags;
use crate::scripts::part::{call, converged, quiet, POINTS, SETTINGS};
use crate::scripts::random::Random;
use crate::scripts::spectra::{power, Power, Spectrum, LOUD};
use crate::scripts::sums::SUM_T;
use crate::scripts::Script;

/// How many blocks the channels converge as they please.
const MIXED_BLOCKS: u32 = 400;

pub fn script(channels: usize) -> Script {
    let mut random = Random::new(80 + channels as u64);
    let mut walk = Walk::default();
    for held in 0..=2 * POINTS {
        for event in EVENTS {
            walk.start(&start(SETTINGS[7], 0b11, channels));
            let learning = converged(channels, LOUD, 3.0, 1.0);
            walk.each(held, &learning);
            event(&mut walk, channels);
            walk.each(POINTS + 1, &learning);
        }
    }
    for mask in 0..1 << channels {
        walk.start(&start(SETTINGS[7], mask, channels));
        let flags = mask_flags(mask, channels);
        walk.some_then_all(&mut random, &flags, 2 * POINTS + 1, random_call);
    }
    for switches in SWITCHES {
        walk.start(&start(SETTINGS[0], switches, channels));
        walk.mixed(&mut random, channels, MIXED_BLOCKS, random_call);
    }
    walk.script
}

/// What happens at each number of points held.
const EVENTS: [fn(&mut Walk, usize); 9] = [
    |walk, _| walk.reset(),
    |walk, channels| walk.start(&start(SETTINGS[1], 0, channels)),
    |walk, channels| {
        walk.start(&example_start());
        walk.start(&start(SETTINGS[5], 0b01, channels));
    },
    |walk, channels| walk.each(2, &quiet(channels)),
    |walk, channels| walk.update(&spoilt(channels)),
    |walk, channels| walk.update(&low(channels)),
    |walk, channels| walk.update(&converged(channels, LOUD, 5.0, 0.0)),
    |walk, channels| walk.repeat(HOLD - 2, &quiet(channels)),
    |walk, channels| walk.repeat(2 * HOLD, &low(channels)),
];

/// A converged block, turned away for its last residual.
fn spoilt(channels: usize) -> Call {
    let mut call = converged(channels, LOUD, 5.0, 1.0);
    *call.residual.last_mut().expect("a channel") = f32::NAN;
    call
}

/// A converged block whose render is not above the threshold.
fn low(channels: usize) -> Call {
    let mut call = converged(channels, 0.0, 5.0, 1.0);
    call.render[0] = SUM_T;
    call
}

/// Renders above the threshold, and ratios from below the minimum to far above.
fn random_call(random: &mut Random, flags: &[bool]) -> Call {
    let mut spectrum = |how: Power| -> Spectrum { std::array::from_fn(|_| power(random, how)) };
    let render = spectrum(Power::Loud);
    let captures: Vec<Spectrum> = flags.iter().map(|_| spectrum(Power::Loud)).collect();
    let residuals: Vec<Spectrum> = flags.iter().map(|_| spectrum(Power::Near)).collect();
    call(flags, &render, &captures, &residuals)
}

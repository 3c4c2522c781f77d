//! What comes between the six points: resets, starts, unconverged and refused
//! blocks, and channels that stand at different points.

use super::{example_start, start, Walk};
use crate::kinds::call::Call;
use crate::scripts::flags::mask_flags;
use crate::scripts::part::{call, converged, quiet, POINTS, SETTINGS};
use crate::scripts::random::Random;
use crate::scripts::spectra::{power, powers, Power, Spectrum, LOUD};
use crate::scripts::Script;

/// How many blocks the channels converge as they please.
const MIXED_BLOCKS: u32 = 240;

pub fn script(channels: usize) -> Script {
    let mut random = Random::new(50 + channels as u64);
    let mut walk = Walk::default();
    for onset in [true, false] {
        for held in 0..=POINTS {
            for event in EVENTS {
                walk.start(&start(SETTINGS[0], onset, channels));
                let learning = converged(channels, LOUD, 3.0, 1.0);
                walk.each(held, &learning);
                event(&mut walk, channels);
                walk.each(POINTS + 1, &learning);
            }
        }
        for mask in 0..1 << channels {
            walk.start(&start(SETTINGS[7], onset, channels));
            let flags = mask_flags(mask, channels);
            walk.some_then_all(&mut random, &flags, POINTS + 1, random_call);
        }
        walk.start(&start(SETTINGS[7], onset, channels));
        walk.mixed(&mut random, channels, MIXED_BLOCKS, random_call);
    }
    walk.script
}

/// What happens at each number of points held.
const EVENTS: [fn(&mut Walk, usize); 7] = [
    |walk, _| walk.reset(),
    |walk, channels| walk.start(&start(SETTINGS[1], true, channels)),
    |walk, channels| {
        walk.start(&example_start());
        walk.start(&start(SETTINGS[7], false, channels));
    },
    |walk, channels| walk.each(2, &quiet(channels)),
    |walk, channels| walk.update(&spoilt(channels)),
    |walk, channels| walk.update(&converged(channels, 0.0, 3.0, 1.0)),
    |walk, channels| walk.repeat(260, &quiet(channels)),
];

/// A converged block of a low render, turned away for its last residual.
fn spoilt(channels: usize) -> Call {
    let mut call = converged(channels, 0.0, 5.0, 1.0);
    *call.residual.last_mut().expect("a channel") = f32::NAN;
    call
}

/// Renders mostly above T, and ratios from below the minimum to far above.
fn random_call(random: &mut Random, flags: &[bool]) -> Call {
    let render = powers(random, Power::Loud);
    let mut spectra = |how: Power| -> Vec<Spectrum> {
        let spectrum = |_: &bool| std::array::from_fn(|_| power(random, how));
        flags.iter().map(spectrum).collect()
    };
    let (captures, residuals) = (spectra(Power::Loud), spectra(Power::Near));
    call(flags, &render, &captures, &residuals)
}

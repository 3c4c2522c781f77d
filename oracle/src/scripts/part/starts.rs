//! Starts with settings about their limits.

use super::{converged, quiet, SETTINGS};
use crate::judge::{CAPTURE_CHANNELS, GREATEST_ERLE};
use crate::kinds::part::{Part, Settings};
use crate::scripts::spectra::LOUD;
use crate::scripts::walk::Walk;
use crate::scripts::Script;

/// Numbers about the limits, far beyond them, and those that are none.
const VALUES: [f32; 16] = [
    1.0,
    1.0_f32.next_up(),
    2.0,
    GREATEST_ERLE.next_down(),
    GREATEST_ERLE,
    1.0_f32.next_down(),
    GREATEST_ERLE.next_up(),
    0.0,
    -0.0,
    -1.0,
    f32::from_bits(1),
    f32::MAX,
    f32::INFINITY,
    f32::NEG_INFINITY,
    f32::NAN,
    f32::from_bits(0xFF80_0001),
];

/// Channel counts out of range, some with a good low byte or half.
pub const WRONG_CHANNELS: [u32; 8] = [0, 5, 6, 257, 65_538, 1 << 31, (1 << 31) + 1, u32::MAX];

/// Every choice of three settings, and all channel counts with some of them.
/// What each start leaves shows in a reset, or in an update.
pub fn script<P: Part>() -> Script {
    let mut walk = Walk::<P>::default();
    calls_without_a_start(&mut walk);
    for limits in every_limits() {
        one_start(&mut walk, limits, 1);
    }
    for channels in WRONG_CHANNELS.into_iter().chain(CAPTURE_CHANNELS) {
        for settings in [SETTINGS[0], [1.0, f32::NAN, 1.0], [2.0, 1.0, 2.0]] {
            one_start(&mut walk, settings, channels);
        }
    }
    walk.script
}

/// Every choice of minimum, max_l and max_h.
pub fn every_limits() -> Vec<[f32; 3]> {
    let mut choices = Vec::new();
    for min in VALUES {
        for max_l in VALUES {
            choices.extend(VALUES.map(|max_h| [min, max_l, max_h]));
        }
    }
    choices
}

fn one_start<P: Part>(walk: &mut Walk<P>, limits: [f32; 3], channels: u32) {
    walk.start(&P::Start::new(limits, channels, channels));
    match walk.estimator {
        Some(_) => walk.repeat(6, &converged(channels as usize, LOUD, 3.0, 1.0)),
        None => walk.reset(),
    }
}

/// Calls with none standing, before the first start and after one that is
/// turned away.
pub fn calls_without_a_start<P: Part>(walk: &mut Walk<P>) {
    let mut faulty = quiet(2);
    faulty.flags.pop();
    faulty.render[0] = f32::NAN;
    for _ in 0..2 {
        walk.reset();
        walk.update(&quiet(1));
        walk.repeat(3, &quiet(4));
        walk.update(&faulty);
        walk.start(&P::Start::new([1.0, 4.0, 0.5], 1, 1));
    }
}

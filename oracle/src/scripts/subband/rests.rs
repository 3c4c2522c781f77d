//! Long rests: holds that run out and the decay of the compensated stream.

use super::{start, Walk};
use crate::judge::BANDS;
use crate::scripts::part::{converged, infinite, quiet, same, POINTS, SETTINGS};
use crate::scripts::random::Random;
use crate::scripts::spectra::{any_power, power, Power, LOUD, T};
use crate::scripts::Script;

/// Rests at whose end the hold is about 150, where the decay begins, and about
/// 0, where the band waits. After six converged blocks it is 249.
const RESTS: [std::ops::RangeInclusive<u32>; 2] = [92..=101, 240..=251];

/// A whole rest from the maximum down to the minimum, and rests of all lengths
/// about those at which something turns.
pub fn gaps(channels: usize) -> Script {
    let mut walk = Walk::default();
    for settings in [SETTINGS[1], SETTINGS[7]] {
        walk.start(&start(settings, true, channels));
        walk.each(POINTS, &infinite(channels, LOUD));
        walk.each(600, &quiet(channels));
    }
    for rest in RESTS.into_iter().flatten() {
        for render in [LOUD, T.next_down()] {
            walk.repeat(POINTS as u32, &infinite(channels, LOUD));
            walk.repeat(rest - 1, &quiet(channels));
            walk.update(&quiet(channels));
            walk.each(POINTS, &converged(channels, render, 9.0, 1.0));
            walk.each(2, &quiet(channels));
        }
    }
    low_blocks(&mut walk, channels);
    walk.script
}

/// Converged blocks of low renders, which hold nothing: the compensated stream
/// rises and decays at once.
fn low_blocks(walk: &mut Walk, channels: usize) {
    walk.start(&start(SETTINGS[1], true, channels));
    walk.repeat(POINTS as u32, &infinite(channels, LOUD));
    for capture in [1e6, 40.0, 3.0, 1.1] {
        walk.each(120, &converged(channels, 0.0, capture, 1.0));
    }
}

/// Each channel in its turn rests while the others converge. With onset
/// detection off nothing decays.
pub fn others(channels: usize) -> Script {
    let mut random = Random::new(60 + channels as u64);
    let mut walk = Walk::default();
    for resting in 0..channels {
        walk.start(&start(SETTINGS[1], true, channels));
        walk.repeat(POINTS as u32, &infinite(channels, LOUD));
        one_rests(&mut walk, &mut random, channels, resting, 490);
    }
    walk.start(&start(SETTINGS[0], false, channels));
    walk.each(POINTS, &infinite(channels, LOUD));
    one_rests(&mut walk, &mut random, channels, 0, 60);
    walk.repeat(600, &quiet(channels));
    walk.script
}

/// The resting channel's own powers count for nothing, whatever they are.
fn one_rests(walk: &mut Walk, random: &mut Random, channels: usize, resting: usize, blocks: u32) {
    for _ in 0..blocks {
        let mut flags = vec![true; channels];
        flags[resting] = false;
        let render: [f32; BANDS] = std::array::from_fn(|_| power(random, Power::Near));
        let capture = std::array::from_fn(|_| any_power(random));
        let residual = std::array::from_fn(|_| power(random, Power::Loud));
        walk.update(&same(&flags, &render, &capture, &residual));
    }
}

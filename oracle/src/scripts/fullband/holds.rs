//! Holds that fall to 0, where the accumulators are cleared, and far below.

use super::{start, Walk, HOLD};
use crate::judge::BANDS;
use crate::kinds::call::Call;
use crate::kinds::part::TIMES;
use crate::scripts::part::{call, converged, flat, quiet, POINTS, SETTINGS};
use crate::scripts::random::Random;
use crate::scripts::spectra::{any_power, power, Power, Spectrum, LOUD};
use crate::scripts::Script;

/// Blocks without a new figure after which the points held meet the end of
/// the hold: after six converged blocks it is 99.
const GAPS: std::ops::RangeInclusive<u32> = 85..=102;

/// How often the longest repeat follows itself.
const LONGEST_REPEATS: u32 = 3;

pub fn rests(channels: usize) -> Script {
    let mut walk = Walk::started(&start(SETTINGS[0], 0b11, channels));
    let learning = converged(channels, LOUD, 3.0, 1.0);
    walk.each(HOLD as usize, &quiet(channels));
    walk.each(POINTS, &learning);
    walk.each(3_000, &resting(channels));
    points_in_flight(&mut walk, channels);
    figures_without_points(&mut walk, channels);
    walk.start(&start(SETTINGS[7], 0b00, channels));
    walk.each(POINTS, &learning);
    for _ in 0..LONGEST_REPEATS {
        walk.repeat(*TIMES.end(), &resting(channels));
        // Points are counted, but without residual they set no hold.
        walk.each(POINTS, &converged(channels, LOUD, 3.0, 0.0));
    }
    walk.each(POINTS, &learning);
    walk.each(HOLD as usize + 2, &resting(channels));
    walk.script
}

/// A block in which no channel is converged, though its powers would count.
fn resting(channels: usize) -> Call {
    flat(&vec![false; channels], LOUD, 50.0, 1.0)
}

/// After a figure, every gap and then converged blocks: some points are counted
/// when the hold ends, and lost. Then the same without a residual in the first
/// six of them, which set no hold.
fn points_in_flight(walk: &mut Walk, channels: usize) {
    let learning = converged(channels, LOUD, 3.0, 1.0);
    for gap in GAPS {
        for residual in [1.0, 0.0] {
            walk.each(POINTS, &converged(channels, LOUD, 10.0, 1.0));
            walk.repeat(gap, &resting(channels));
            walk.each(POINTS, &converged(channels, LOUD, 3.0, residual));
            walk.each(POINTS + 1, &learning);
            walk.repeat(2 * HOLD, &resting(channels));
            walk.each(POINTS - 1, &learning);
        }
    }
}

/// The hold runs out while blocks are converged: their residuals, or their
/// renders, are missing.
fn figures_without_points(walk: &mut Walk, channels: usize) {
    let without = [
        converged(channels, LOUD, 3.0, 0.0),
        converged(channels, 1.0, 3.0, 1.0),
    ];
    for held in 0..POINTS {
        for missing in &without {
            walk.reset();
            walk.each(POINTS + held, &converged(channels, LOUD, 7.0, 1.0));
            walk.each(HOLD as usize + 8, missing);
            walk.each(POINTS + 1, &converged(channels, LOUD, 3.0, 1.0));
        }
    }
}

/// Each channel in its turn rests while the others converge; its own powers
/// count for nothing, whatever they are.
pub fn others(channels: usize) -> Script {
    let mut random = Random::new(90 + channels as u64);
    let mut walk = Walk::default();
    for resting in 0..channels {
        walk.start(&start(SETTINGS[1], resting as u32, channels));
        walk.each(POINTS + resting, &converged(channels, LOUD, 9.0, 1.0));
        for _ in 0..3 * HOLD {
            walk.update(&one_rests(&mut random, channels, resting));
        }
        walk.each(2 * POINTS, &converged(channels, LOUD, 5.0, 1.0));
    }
    walk.script
}

fn one_rests(random: &mut Random, channels: usize, resting: usize) -> Call {
    let mut flags = vec![true; channels];
    flags[resting] = false;
    let mut captures: Vec<Spectrum> = Vec::new();
    let mut residuals: Vec<Spectrum> = Vec::new();
    for _ in 0..channels {
        captures.push(std::array::from_fn(|_| any_power(random)));
        residuals.push(std::array::from_fn(|_| power(random, Power::Loud)));
    }
    call(&flags, &[LOUD; BANDS], &captures, &residuals)
}

//! The fullband part of the stored sample: readings of the source first, then
//! holds, extremes under every choice of the clamps, limits, refusals and a few
//! random calls. What need not be seen stands in repeats.

use super::{exact, example_start, ratio_of, start, Walk, HOLD, SWITCHES};
use crate::judge::{BANDS, CAPTURE_CHANNELS, GREATEST_ERLE};
use crate::scripts::faults::singles;
use crate::scripts::part::refused::{good_call, FAULTS};
use crate::scripts::part::starts::calls_without_a_start;
use crate::scripts::part::{converged, flat, infinite, quiet, POINTS, SETTINGS};
use crate::scripts::random::Random;
use crate::scripts::spectra::{beside, Power, LOUD, T};
use crate::scripts::sums::{spectra_about_the_sum, SUM_T};
use crate::scripts::Script;

const SIX: u32 = POINTS as u32;

/// Adds the fullband calls to what stands in a script.
pub fn add(script: Script) -> Script {
    let mut random = Random::new(18);
    let mut walk = Walk::behind(script);
    calls_without_a_start(&mut walk);
    points(&mut walk);
    holds(&mut walk);
    extremes(&mut walk);
    sums(&mut walk, &mut random);
    limits(&mut walk);
    faults(&mut walk, &mut random);
    for channels in CAPTURE_CHANNELS {
        random_calls(&mut walk, &mut random, channels as usize);
    }
    walk.script
}

/// The example's blocks, a sixth point without any residual and one without its
/// own, infinite ratios and ratios of zero, and a last channel with the least figure.
fn points(walk: &mut Walk) {
    walk.start(&example_start());
    walk.each(POINTS, &converged(1, LOUD, 3.0, 1.0));
    walk.repeat(5, &converged(1, LOUD, 9.0, 0.0));
    walk.update(&converged(1, LOUD, 9.0, 0.0));
    walk.repeat(SIX, &converged(1, LOUD, 0.0, 1.0));
    walk.repeat(SIX, &infinite(1, LOUD));
    walk.reset();
    walk.repeat(SIX, &infinite(1, LOUD));
    walk.repeat(5, &converged(1, LOUD, 9.0, 1.0));
    walk.update(&converged(1, LOUD, 9.0, 0.0));
    for flags in [&[true, false][..], &[true, true, true, false]] {
        walk.start(&start(SETTINGS[0], 0b11, flags.len()));
        walk.repeat(SIX, &flat(flags, LOUD, 30.0, 1.0));
    }
}

/// A hold seen where something turns, points held when it ends, and one
/// that falls far below 0.
fn holds(walk: &mut Walk) {
    walk.start(&example_start());
    let learning = converged(1, LOUD, 3.0, 1.0);
    walk.repeat(SIX, &learning);
    walk.repeat(HOLD - 2, &quiet(1));
    walk.update(&quiet(1));
    walk.update(&quiet(1));
    for gap in [93, 94] {
        walk.reset();
        walk.repeat(SIX, &learning);
        walk.repeat(gap, &quiet(1));
        for blocks in [5, 1, 4, 1] {
            walk.repeat(blocks, &learning);
        }
    }
    walk.reset();
    walk.repeat(SIX, &learning);
    walk.repeat(65_535, &quiet(1));
    walk.repeat(65_535, &quiet(1));
    walk.repeat(SIX, &learning);
}

/// First values about 33, extremes that give way, and those that outlast the
/// accumulators.
fn extremes(walk: &mut Walk) {
    for value in beside(33.0).into_iter().chain([34.0]) {
        walk.start(&start(SETTINGS[0], 0, 1));
        walk.repeat(SIX, &exact(&[ratio_of(value)]));
    }
    for switches in SWITCHES {
        walk.start(&start(SETTINGS[0], switches, 1));
        // The first three end below 0, the others above 1.
        for values in [[3.0, 2.998, 2.998_2], [3.0, 3.002, 3.001_9]] {
            walk.reset();
            for value in values {
                walk.repeat(SIX, &exact(&[ratio_of(value)]));
            }
        }
    }
    walk.start(&example_start());
    walk.repeat(SIX, &converged(1, LOUD, 3.0, 1.0));
    walk.repeat(SIX, &converged(1, LOUD, 10.0, 1.0));
    walk.repeat(120, &quiet(1));
    walk.repeat(SIX, &converged(1, LOUD, 6.0, 1.0));
}

/// Renders whose sums lie about the threshold: in one band, and in all.
fn sums(walk: &mut Walk, random: &mut Random) {
    walk.start(&example_start());
    for sum in beside(SUM_T) {
        let mut call = converged(1, 0.0, 3.0, 1.0);
        call.render[BANDS - 1] = sum;
        walk.update(&call);
    }
    for render in beside(T) {
        walk.update(&converged(1, render, 3.0, 1.0));
    }
    for render in spectra_about_the_sum(random) {
        let mut call = converged(1, 0.0, 3.0, 1.0);
        call.render = render.into_iter().rev().collect();
        walk.update(&call);
    }
}

/// Settings about their limits.
fn limits(walk: &mut Walk) {
    for value in beside(1.0).into_iter().chain(beside(GREATEST_ERLE)) {
        walk.start(&start([value, GREATEST_ERLE, GREATEST_ERLE], 0b01, 1));
        walk.start(&start([1.0, value, 2.0], 0b10, 1));
        walk.start(&start([1.0, 2.0, value], 0b11, 1));
    }
    for bad in [f32::NAN, f32::INFINITY, 0.0, -1.0] {
        walk.start(&start([bad, 4.0, 1.5], 0, 1));
        walk.start(&start([1.0, bad, 1.5], 0, 0));
    }
    for channels in [0, 1, 4, 5, 257, u32::MAX as usize] {
        walk.start(&start(SETTINGS[5], 0, channels));
    }
}

/// Each fault alone, some together, and a good call at the end.
fn faults(walk: &mut Walk, random: &mut Random) {
    walk.start(&example_start());
    let good = good_call(random, Power::Loud, 1, 1);
    walk.repeat(3, &good);
    walk.updates(&singles(&good, &FAULTS));
    let mut call = good.clone();
    for group in FAULTS.iter().rev() {
        group[0](&mut call);
        walk.repeat(2, &call);
    }
    walk.repeat(SIX, &good);
}

fn random_calls(walk: &mut Walk, random: &mut Random, channels: usize) {
    walk.start(&start(SETTINGS[7], channels as u32, channels));
    for mask in [0b1111, 0b0110, 0b1011] {
        let call = good_call(random, Power::Loud, mask, channels);
        walk.repeat(5, &call);
        walk.update(&call);
    }
    walk.reset();
}

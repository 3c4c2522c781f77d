//! The subband part of the stored sample: document 01's example first, then
//! readings of the source, rests, limits, refusals and a few random calls. Each
//! update prints all that is held, so what need not be seen stands in repeats.

use super::edges::special_call;
use super::{example_start, start, Walk};
use crate::judge::{BANDS, CAPTURE_CHANNELS, GREATEST_ERLE};
use crate::kinds::subband::Start;
use crate::scripts::faults::singles;
use crate::scripts::part::refused::{good_call, FAULTS};
use crate::scripts::part::starts::calls_without_a_start;
use crate::scripts::part::{converged, flat, infinite, quiet, POINTS, SETTINGS};
use crate::scripts::random::Random;
use crate::scripts::spectra::{beside, Power, LOUD, T};
use crate::scripts::Script;

const SIX: u32 = POINTS as u32;

/// Adds the subband calls to what stands in a script.
pub fn add(script: Script) -> Script {
    let mut random = Random::new(17);
    let mut walk = Walk::behind(script);
    example(&mut walk);
    points(&mut walk);
    low_energy(&mut walk);
    moves(&mut walk);
    rests(&mut walk);
    onset_off_and_resets(&mut walk);
    limits(&mut walk);
    special_values(&mut walk);
    faults(&mut walk, &mut random);
    for channels in CAPTURE_CHANNELS {
        random_calls(&mut walk, &mut random, channels as usize);
    }
    walk.script
}

/// Document 01's example, block by block, and a quiet block, which moves nothing.
fn example(walk: &mut Walk) {
    walk.start(&example_start());
    walk.each(POINTS, &converged(1, LOUD, 3.0, 1.0));
    walk.update(&quiet(1));
}

/// Residuals that are missing in the sixth block, or in all six.
fn points(walk: &mut Walk) {
    walk.start(&example_start());
    walk.repeat(5, &converged(1, LOUD, 3.0, 1.0));
    walk.update(&converged(1, LOUD, 3.0, 0.0));
    walk.start(&example_start());
    walk.repeat(SIX, &converged(1, LOUD, 3.0, 0.0));
    walk.repeat(5, &converged(1, LOUD, 3.0, 1.0));
    walk.update(&converged(1, LOUD, 3.0, 1.0));
}

/// Low energy in all blocks or one, renders about T, and a band that falls.
fn low_energy(walk: &mut Walk) {
    for render in [0.0, T.next_down(), T] {
        walk.start(&example_start());
        walk.repeat(SIX, &converged(1, render, 3.0, 1.0));
    }
    for low in 0..SIX {
        walk.reset();
        for (blocks, render) in [(low, LOUD), (1, 0.0), (5 - low, LOUD)] {
            if blocks > 0 {
                walk.repeat(blocks, &converged(1, render, 3.0, 1.0));
            }
        }
    }
    for render in [0.0, LOUD] {
        walk.reset();
        walk.repeat(SIX, &converged(1, LOUD, 3.0, 1.0));
        walk.repeat(SIX, &converged(1, render, 1.0, 1.0));
    }
    for render in [0.0, LOUD] {
        walk.reset();
        walk.repeat(SIX, &infinite(1, render));
    }
}

/// Streams that move apart, roundings, and both maxima.
fn moves(walk: &mut Walk) {
    walk.start(&start([1.0, 1.5, 1.5], true, 1));
    walk.repeat(10 * SIX, &converged(1, LOUD, 10.0, 1.0));
    walk.repeat(SIX, &converged(1, LOUD, 2.0, 1.0));
    walk.start(&example_start());
    walk.repeat(2 * SIX, &converged(1, LOUD, 3.0, 1.0));
    let figure = f32::from_bits(0x3FFB_02C1);
    walk.start(&start([figure, 100.0, 100.0], true, 1));
    walk.repeat(5, &converged(1, LOUD, 0.0, 0.0));
    walk.update(&converged(1, LOUD, f32::from_bits(0x40B2_E148), 1.0));
    walk.start(&example_start());
    walk.repeat(100 * SIX, &converged(1, LOUD, 30.0, 1.0));
    let mut silent_ends = converged(1, LOUD, 3.0, 1.0);
    silent_ends.capture[0] = 0.0;
    silent_ends.capture[BANDS - 1] = 0.0;
    walk.reset();
    walk.repeat(SIX, &silent_ends);
}

/// 600 quiet blocks after the example and after the longest way down, seen where
/// something turns: the decay begins at the 99th and the band waits at the
/// 249th; the longest way down ends at the 476th.
fn rests(walk: &mut Walk) {
    for (first, settings) in [
        (converged(1, LOUD, 3.0, 1.0), SETTINGS[0]),
        (infinite(1, LOUD), SETTINGS[1]),
    ] {
        walk.start(&start(settings, true, 1));
        walk.repeat(SIX, &first);
        let mut done = 0;
        for seen in [98, 99, 100, 248, 249, 250, 475, 476, 477, 600] {
            walk.repeat(seen - done, &quiet(1));
            done = seen;
        }
    }
    walk.start(&start(SETTINGS[1], true, 2));
    walk.repeat(SIX, &infinite(2, LOUD));
    let one_rests = flat(&[true, false], LOUD, 5.0, 1.0);
    walk.repeat(98, &one_rests);
    walk.repeat(1, &one_rests);
    walk.repeat(501, &one_rests);
}

/// With onset detection off the compensated stream stays; a reset clears points
/// and low energy.
fn onset_off_and_resets(walk: &mut Walk) {
    walk.start(&start(SETTINGS[0], false, 1));
    walk.repeat(SIX, &converged(1, LOUD, 3.0, 1.0));
    walk.repeat(600, &quiet(1));
    walk.start(&example_start());
    walk.repeat(3, &converged(1, 0.0, 3.0, 1.0));
    walk.reset();
    walk.repeat(5, &converged(1, LOUD, 3.0, 1.0));
    walk.update(&converged(1, LOUD, 3.0, 1.0));
}

/// Settings about their limits; some of those in range learn an infinite ratio.
fn limits(walk: &mut Walk) {
    calls_without_a_start(walk);
    for start in starts_about_the_limits() {
        walk.start(&start);
        if start.onset && walk.estimator.is_some() {
            walk.repeat(SIX, &infinite(start.channels as usize, LOUD));
        }
    }
}

fn starts_about_the_limits() -> Vec<Start> {
    let mut starts = Vec::new();
    for value in beside(1.0).into_iter().chain(beside(GREATEST_ERLE)) {
        starts.push(start([value, GREATEST_ERLE, GREATEST_ERLE], true, 1));
        starts.push(start([1.0, value, 2.0], false, 1));
        starts.push(start([1.0, 2.0, value], false, 1));
        starts.push(start([value, value, value], false, 1));
    }
    for at in 0..3 {
        for bad in [f32::NAN, -f32::NAN, f32::INFINITY, 0.0, -1.0] {
            let mut settings = SETTINGS[0];
            settings[at] = bad;
            starts.push(start(settings, true, 1));
            starts.push(start(settings, true, 0));
        }
    }
    for channels in [0, 1, 4, 5, 257, u32::MAX as usize] {
        starts.push(start(SETTINGS[0], true, channels));
    }
    starts
}

/// Special captures over special residuals, with and without low energy.
fn special_values(walk: &mut Walk) {
    for render in [LOUD, 0.0] {
        walk.start(&start(SETTINGS[1], true, 1));
        walk.repeat(5, &special_call(1, render));
        walk.update(&special_call(1, render));
        walk.update(&special_call(1, render));
    }
}

/// Each fault alone, some together, and a good call at the end.
fn faults(walk: &mut Walk, random: &mut Random) {
    walk.start(&example_start());
    let good = good_call(random, Power::Near, 1, 1);
    walk.updates(&singles(&good, &FAULTS));
    for at in 0..FAULTS[0].len() {
        let mut call = good.clone();
        for group in FAULTS.iter().rev() {
            group[at](&mut call);
            walk.repeat(2, &call);
        }
    }
    walk.repeat(SIX, &good);
}

fn random_calls(walk: &mut Walk, random: &mut Random, channels: usize) {
    walk.start(&start(SETTINGS[7], channels != 3, channels));
    for mask in [0b1111, 0b0110, 0b1011, 0b1111] {
        walk.repeat(5, &good_call(random, Power::Near, mask, channels));
        walk.update(&good_call(random, Power::Near, mask, channels));
    }
    walk.reset();
}

//! Walks of the log2 value about its extremes, which give way where no value is
//! beyond them: qualities far below 0 and far above 1, under every choice of the clamps.

use super::{exact_six, ratio_of, start, Walk, HOLD, SWITCHES};
use crate::audio_processing::aec3::fullband_erle_estimator::{peek_channel, PeekedChannel};
use crate::scripts::part::{quiet, SETTINGS};
use crate::scripts::random::Random;
use crate::scripts::Script;
use std::ops::RangeInclusive;

/// How far the values of a walk lie apart.
const SPANS: [f32; 6] = [0.0, 0.002, 0.01, 0.1, 2.0, 40.0];

/// How many values a walk has.
const VALUES: u32 = 20;

/// Steps beside an extreme: about 0.0004, by which it gives way.
const STEPS: [f32; 8] = [
    0.0, 0.000_02, 0.0002, 0.000_39, 0.000_41, 0.0006, 0.0008, 0.003,
];

pub fn script(channels: usize) -> Script {
    let mut random = Random::new(100 + channels as u64);
    let mut walk = Walk::default();
    for switches in SWITCHES {
        walk.start(&start(SETTINGS[0], switches, channels));
        for span in SPANS {
            // Numbers about 0 are fine enough to show the last bit of a step.
            for least in [25.0 * random.unit() - 5.0, -span / 2.0] {
                walk_of(&mut walk, &mut random, channels, least..=least + span);
                walk.repeat(HOLD, &quiet(channels));
                walk_of(&mut walk, &mut random, channels, least..=least + span);
                walk.reset();
            }
        }
    }
    walk.script
}

/// A walk of values in this range, and about the extremes.
fn walk_of(walk: &mut Walk, random: &mut Random, channels: usize, range: RangeInclusive<f32>) {
    for _ in 0..VALUES {
        let estimator = walk.estimator.as_ref().expect("an accepted start");
        let held = (0..channels).map(|channel| peek_channel(estimator, channel));
        let targets = held.map(|held| target(random, &held, &range));
        let ratios: Vec<f32> = targets.map(ratio_of).collect();
        exact_six(walk, &ratios);
    }
}

/// A value in the range, about one of the extremes, or the last one again.
fn target(random: &mut Random, held: &PeekedChannel, range: &RangeInclusive<f32>) -> f32 {
    let free = range.start() + (range.end() - range.start()) * random.unit();
    let step = random.one_of(&STEPS) * random.one_of(&[-1.0, 1.0]);
    let value = match (random.below(8), held.log2) {
        (0..=2, Some(_)) => held.greatest + step,
        (3..=5, Some(_)) => held.least + step,
        (6, Some(last)) => last,
        _ => free,
    };
    value.clamp(-9.9, 120.0)
}

//! Averages in and outside the limits, for settings at theirs.

use super::calls::flat;
use super::echoes::Echo;
use super::powers::Average;
use super::{start, teach, Walk};
use crate::judge::BANDS;
use crate::kinds::signal::Start;
use crate::scripts::part::SETTINGS;
use crate::scripts::random::Random;
use crate::scripts::spectra::{Spectrum, LOUD};
use crate::scripts::Script;

const MANNERS: [Average; 5] = [
    Average::Middle,
    Average::Limits,
    Average::Limits,
    Average::Special,
    Average::Free,
];

pub fn script(channels: usize) -> Script {
    let mut random = Random::new(190 + channels as u64);
    let mut walk = Walk::default();
    for settings in SETTINGS {
        for onset in [true, false] {
            let filter = [2 + random.below(3), 6, 0];
            let start = start(settings, onset, channels, filter);
            walk.start(&start);
            teach(&mut walk, &start);
            for manner in MANNERS {
                show(&mut random, &mut walk, &start, manner);
            }
        }
    }
    walk.script
}

/// The first call settles the active sections, for which the second has averages
/// about the limits.
fn show(random: &mut Random, walk: &mut Walk, start: &Start, manner: Average) {
    let channels = start.channels();
    let flags = vec![false; channels];
    let answers: Vec<Vec<Spectrum>> = (0..channels)
        .map(|_| Echo::OneBlock.draw(random, start.length_blocks as usize))
        .collect();
    let mut call = flat(&flags, [LOUD, 3.0, 1.0], 2.0).answering(&answers);
    for _ in 0..2 {
        let signal = walk.estimator.as_ref();
        for channel in 0..channels {
            let bands = channel * BANDS..(channel + 1) * BANDS;
            for averages in &mut call.averages {
                let drawn = manner.draw(random, signal, channel);
                averages[bands.clone()].copy_from_slice(&drawn);
            }
        }
        walk.update(&call);
    }
}
